"""Small random runs: good ones, by a simple model of extended virtual synchrony, and broken ones.

The model: groups of processes enter a regular configuration, send messages, and deliver a prefix of them in one order. Then a group parts.
The members of each part that goes on deliver the same prefix, change to a transitional configuration, deliver a little more there, and enter
the next regular configuration, perhaps together with other parts. Processes fail, are killed, come back as the next life, or stay where they
are for good."""
from dataclasses import dataclass, field
from typing import NamedTuple

# A configuration has the time at which it began, a life the times of its start and end.
STEP = 10
MOST_LIVES = 3


class Entry(NamedTuple):
    """A line of a log: its word, the configuration that it names, and what else it says."""

    word: str
    configuration: str
    # Of a change.
    members: tuple = ()
    # Of a send: `a` or `s`; of a send and a delivery: the message.
    service: str = ''
    message: str = ''


@dataclass
class Log:
    """What one life of a process recorded."""

    process: int
    life: int
    entries: list = field(default_factory=list)
    ending: str = 'open'
    start: int = 0
    end: int = 0

    @property
    def who(self):
        """The process and its life."""
        return self.process, self.life

    def copy(self):
        """A copy whose entries can be changed."""
        return Log(self.process, self.life, list(self.entries), self.ending, self.start, self.end)

    def close(self):
        """Makes the ending fit the last entry."""
        if self.entries and self.entries[-1].word == 'fail':
            self.ending = 'failed'
        elif self.ending == 'failed':
            self.ending = 'open'


@dataclass
class Run:
    """Logs in the order of a run, and when the configurations began."""

    logs: list
    times: dict
    # Whether a ring has the name of an earlier one.
    has_names_again: bool = False


def is_regular(configuration):
    """Whether this is the name of a regular configuration."""
    return configuration.startswith('r')


def ring_of(name):
    """The ring in the name of a configuration."""
    return name[1:].partition('/')[0]


def line_of(entry, has_lives):
    """The line of an entry."""
    if entry.word == 'conf':
        members = ['%d:%d' % it if has_lives else '%d' % it[0] for it in entry.members]
        return ' '.join(['conf', entry.configuration, *members])
    return ' '.join(it for it in (entry.word, entry.configuration, entry.service, entry.message) if it)


def text_of(logs, has_lives):
    """The text of a run of these logs, in the least version that can express it."""
    has_quiet = any(log.ending == 'quiet' for log in logs)
    version = 3 if has_quiet else 2 if has_lives else 1
    lines = ['totem-run %d' % version]
    for log in logs:
        lines.append('log %d:%d' % log.who if version > 1 else 'log %d' % log.process)
        lines += [line_of(entry, version > 1) for entry in log.entries]
        lines.append(log.ending)
    return '\n'.join([*lines, 'end', '']).encode()


class Part:
    """Processes that go on together from a configuration; None if they just started. `rest` is what they still deliver."""

    def __init__(self, configuration, logs, rest=()):
        self.configuration = configuration
        self.logs = logs
        self.rest = rest


class World:
    """A run that comes to be."""

    def __init__(self, draw):
        self.draw = draw
        self.logs, self.parts, self.dead, self.times = [], [], [], {}
        self.now, self.ring, self.messages = 0, draw.choice((0, 0, 40)), 0
        for process in sorted(draw.sample(range(1, 8), draw.choice((2, 2, 3, 3, 4)))):
            self.begin(process, 1)

    def chance(self, of_hundred):
        """Whether something happens that happens as often as this."""
        return self.draw.randrange(100) < of_hundred

    def begin(self, process, life):
        """A life of a process begins."""
        self.now += STEP
        log = Log(process, life, start=self.now)
        self.logs.append(log)
        self.parts.append(Part(None, [log]))

    def die(self, log, configuration):
        """A process fails in a configuration, or is killed and writes nothing. It may come back."""
        if self.chance(70):
            log.entries.append(Entry('fail', configuration))
            log.ending = 'failed'
        log.end = self.now + 1
        self.dead.append(log)

    def come_back(self):
        """Some of those that died start again, perhaps after a life that never wrote a log."""
        for log in self.dead:
            newest = max(other.life for other in self.logs if other.process == log.process)
            if newest == log.life < MOST_LIVES and self.chance(50):
                self.begin(log.process, log.life + (2 if self.chance(15) else 1))

    def change(self, logs, configuration, members):
        """These processes change to a configuration."""
        self.now += STEP
        self.times[configuration] = self.now
        for log in logs:
            log.entries.append(Entry('conf', configuration, tuple(members)))
        for log in self.dead:
            if log.who in members:
                log.end = max(log.end, self.now + 1)

    def deliver(self, log, configuration, message):
        """A process delivers a message."""
        log.entries.append(Entry('dlv', configuration, message=message))

    def leave(self, part, ring):
        """The members of a part change to a transitional configuration, and deliver the rest there. Returns those that survive it."""
        members = sorted(log.who for log in part.logs)
        configuration = 't%s/%d' % (ring, members[0][0])
        self.change(part.logs, configuration, members)
        left = []
        for log in part.logs:
            dies = self.chance(10)
            for message in part.rest[:self.draw.randint(0, len(part.rest)) if dies else None]:
                self.deliver(log, configuration, message)
            if dies:
                self.die(log, configuration)
            else:
                left.append(log)
        return left

    def merge(self, count=None):
        """Some parts enter the next regular configuration together, or so many."""
        self.draw.shuffle(self.parts)
        joined, processes = [], set()
        for part in self.parts[:count or self.draw.choice((1, 2, 3, 4, 4))]:
            there = {log.process for log in part.logs}
            if not there & processes:
                joined.append(part)
                processes |= there
        self.parts = [part for part in self.parts if part not in joined]
        members = [log.who for part in joined for log in part.logs]
        self.ring += 4
        ring = '%d.%d' % (self.ring, min(processes))
        came = [log for part in joined for log in (self.leave(part, ring) if part.configuration else part.logs)]
        for log in self.dead:
            is_last = log.life == max(other.life for other in self.logs if other.process == log.process)
            if is_last and log.process not in {process for process, _ in members} and self.chance(30):
                members.append(log.who)
        configuration = 'r' + ring
        self.change(came, configuration, sorted(members))
        if came:
            Traffic(self, configuration, came, len(came) == len(members)).pass_on()
        self.come_back()

    def run(self):
        """The run as it is now: what has not gone on stays open."""
        logs = [log for log in self.logs if log.entries]
        return Run(sorted(logs, key=lambda log: log.who), self.times)


class Traffic:
    """What is sent and delivered in a regular configuration, and how its members leave it."""

    def __init__(self, world, configuration, came, have_all_come):
        self.world, self.draw = world, world.draw
        self.configuration = configuration
        self.came = came
        self.is_quiet = have_all_come and world.chance(12)
        self.sends = [self._new_message() for _ in range(self.draw.choice((0, 1, 2, 2, 3, 4, 5)))]
        # Up to here every member has the messages, so that safe ones may be delivered.
        self.stable = (len(self.sends) if self.is_quiet else self.draw.randint(0, len(self.sends))) if have_all_come else 0
        safe = [at for at, (_, service, _) in enumerate(self.sends) if service == 's' and at >= self.stable]
        self.limit = min(safe, default=len(self.sends))
        self.targets = {}

    def _new_message(self):
        world = self.world
        world.messages += 1
        name = '%s#%d' % (self.configuration[1:], world.messages)
        return self.draw.choice(self.came), 's' if world.chance(35) else 'a', name

    def _last_of(self, logs):
        """How many messages these have to deliver: up to the last of their own."""
        return max([at + 1 for at, (sender, _, _) in enumerate(self.sends) if sender in logs], default=0)

    def pass_on(self):
        """Decides who goes where, and then sends and delivers."""
        if self.is_quiet:
            needed = max([at + 1 for at, send in enumerate(self.sends) if send[1] == 's'], default=0)
            for log in self.came:
                self.targets[log.who] = self.draw.randint(max(needed, self._last_of([log])), len(self.sends))
                log.ending = 'quiet'
            self._play()
            return
        dying = [log for log in self.came if self.world.chance(12)]
        others = [log for log in self.came if log not in dying]
        groups = [[] for _ in range(self.draw.choice((1, 1, 1, 1, 2, 3)))]
        for log in others:
            self.draw.choice(groups).append(log)
        for log in dying:
            self.targets[log.who] = self.draw.randint(0, self.limit)
        parts = [self._part_of(group) for group in groups if group]
        self._play()
        for log in dying:
            self.world.die(log, self.configuration)
        self.world.parts += [part for part in parts if part]

    def _part_of(self, group):
        """What a group delivers here, and what it takes along; None if its members stay for good."""
        if self.world.chance(10):
            for log in group:
                self.targets[log.who] = self.draw.randint(0, self.limit)
            return None
        here = self.draw.randint(0, self.limit)
        end = self.draw.randint(max(here, self.stable, self._last_of(group)), len(self.sends))
        for log in group:
            self.targets[log.who] = here
        return Part(self.configuration, group, [name for _, _, name in self.sends[here:end]])

    def _play(self):
        """Sends and deliveries, in a random order that respects causes."""
        sent, done = 0, dict.fromkeys(self.targets, 0)
        while True:
            ready = [log for log in self.came if done[log.who] < min(sent, self.targets[log.who])]
            if sent < len(self.sends):
                ready += [None, None]
            if not ready:
                return
            log = self.draw.choice(ready)
            if log is None:
                sender, service, name = self.sends[sent]
                sender.entries.append(Entry('send', self.configuration, service=service, message=name))
                sent += 1
            else:
                self.world.deliver(log, self.configuration, self.sends[done[log.who]][2])
                done[log.who] += 1


def good_run(draw):
    """A run that meets all specifications."""
    world = World(draw)
    for _ in range(draw.choice((1, 2, 3, 4, 5, 6))):
        if world.parts:
            world.merge()
    return world.run()


class Breaking:
    """Changes single entries of a run, which mostly break it."""

    def __init__(self, draw, run):
        self.draw = draw
        self.logs = [log.copy() for log in run.logs]
        everything = [entry for log in self.logs for entry in log.entries]
        self.configurations = sorted({entry.configuration for entry in everything})
        self.messages = sorted({entry.message for entry in everything if entry.message}) + ['4.1#99']
        self.lives = sorted({log.who for log in self.logs})
        self.rings = sorted({ring_of(entry.configuration) for entry in everything})
        self.has_names_again = False

    def once(self):
        """One change."""
        log = self.draw.choice(self.logs)
        at = self.draw.randrange(len(log.entries))
        often = (self.move, self.swap, self.rename, self.elsewhere, self.come_again)
        ways = (*often, *often, self.drop, self.double, self.end_otherwise, self.other_members, self.other_service)
        self.draw.choice(ways)(log, at)
        log.close()

    def move(self, log, at):
        """An entry stands elsewhere."""
        entry = log.entries.pop(at)
        log.entries.insert(self.draw.randint(0, len(log.entries)), entry)

    def drop(self, log, at):
        """An entry is missing."""
        if len(log.entries) > 1:
            del log.entries[at]

    def double(self, log, at):
        """An entry comes twice."""
        log.entries.insert(self.draw.randint(0, len(log.entries)), log.entries[at])

    def swap(self, log, at):
        """Two entries have changed places."""
        entries = log.entries
        other = self.draw.choice((max(at - 1, 0), self.draw.randrange(len(entries))))
        entries[at], entries[other] = entries[other], entries[at]

    def rename(self, log, at):
        """An entry is about another message."""
        if log.entries[at].message:
            log.entries[at] = log.entries[at]._replace(message=self.draw.choice(self.messages))

    def elsewhere(self, log, at):
        """An entry names another configuration."""
        log.entries[at] = log.entries[at]._replace(configuration=self.draw.choice(self.configurations))

    def end_otherwise(self, log, _):
        """A log ends in another way."""
        if log.entries[-1].word == 'fail':
            if len(log.entries) > 1:
                log.entries.pop()
        elif self.draw.randrange(2):
            log.ending = self.draw.choice(('open', 'quiet'))
        else:
            log.entries.append(Entry('fail', log.entries[-1].configuration))

    def other_members(self, log, at):
        """A change lists one member more or less."""
        entry = log.entries[at]
        if entry.word == 'conf':
            members = dict(entry.members)
            process, life = self.draw.choice(self.lives)
            if members.get(process) == life and len(members) > 1:
                del members[process]
            else:
                members[process] = life
            log.entries[at] = entry._replace(members=tuple(sorted(members.items())))

    def come_again(self, *_):
        """A ring has the name of an earlier one, and its messages have names from the first one on, as where the ring number was lost."""
        one, other = self.draw.choice(self.rings), self.draw.choice(self.rings)
        new = {}
        for ring in (one, other):
            new[ring] = sorted(name for name in self.messages if name.startswith(ring + '#'))
        messages = dict(zip(new[other], new[one]))
        self.has_names_again = one != other
        for log in self.logs:
            log.entries = [self._renamed(entry, one, other, messages) for entry in log.entries]

    @staticmethod
    def _renamed(entry, one, other, messages):
        if ring_of(entry.configuration) == other:
            entry = entry._replace(configuration=entry.configuration.replace(other, one, 1))
        return entry._replace(message=messages.get(entry.message, entry.message))

    def other_service(self, log, at):
        """A send says another service."""
        entry = log.entries[at]
        if entry.word == 'send':
            log.entries[at] = entry._replace(service='as'.replace(entry.service, ''))


def broken_run(draw, run):
    """The run with one change or two."""
    breaking = Breaking(draw, run)
    for _ in range(draw.choice((1, 1, 2))):
        breaking.once()
    return Run(breaking.logs, run.times, breaking.has_names_again)
