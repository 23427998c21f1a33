"""Runs recorded in folders of logs, in the ways in which recordings go wrong, and what the caller of `tools/logs join` says about them."""
from dataclasses import dataclass, field
from functools import partial
from typing import Optional

from harness import recorders
from harness.recordings import Entry, is_regular, line_of

# What is added to the numbers of rings and processes that are made large.
LARGE_RING, LARGE_PROCESS = 1 << 32, 70000
OWN_WAYS = ('taken', 'taken', 'taken', 'taken', 'late', 'elsewhere', 'exchanged', 'second way', 'second way')


@dataclass
class Folder:
    """Files, and the arguments of the tool. `logs` are the logs as they were recorded, with the names and lives of the run."""

    logs: list
    files: dict = field(default_factory=dict)
    words: list = field(default_factory=list)
    # The first lines that say how logs were recorded, by the names of the files; an empty one is none.
    firsts: dict = field(default_factory=dict)
    # How many bytes are read at once; None if the tool decides.
    block: Optional[int] = None


class Recording:
    """Makes a folder of a run. A word is a text, or a function that makes it of the names as they are written."""

    def __init__(self, draw, run):
        self.draw = draw
        self.run = run
        self.logs = [log.copy() for log in run.logs]
        self.has_lives = any(log.life > 1 for log in run.logs) or self.chance(15)
        # Whether the layer names members without lives.
        self.is_without_lives = self.chance(60 if self.has_lives else 10)
        # By the life: what stands behind the last whole line of its log.
        self.torn = {}
        self.words = []
        self.firsts = {}
        self.clock = None

    def chance(self, of_hundred):
        """Whether something happens that happens as often as this."""
        return self.draw.randrange(100) < of_hundred

    def folder(self):
        """The folder."""
        draw = self.draw
        if not self.is_without_lives and self.chance(12):
            self.forget_transitional()
        elif self.chance(25):
            recorders.tell_late(self)
        if self.chance(45):
            self.record_sends()
        if self.chance(15):
            recorders.end_early(self)
        if self.chance(20):
            self.cut_tails()
        lost = [self.logs.pop(draw.randrange(len(self.logs)))] if self.chance(12) and len(self.logs) > 1 else []
        if lost and self.chance(60):
            recorders.make_up(self, lost[0], Names.lives if self.has_lives or self.is_without_lives else Names.processes)
        if self.is_without_lives:
            self.say_lives(lost)
        large = draw.choice(((True, True), (True, False), (False, True))) if self.chance(12) else (False, False)
        if any(large) or self.chance(2):
            self.words.append('--renumber')
        if self.chance(12):
            recorders.tear(self, Names.lives if self.has_lives or self.is_without_lives else Names.processes)
        self.say_endings()
        if self.chance(25):
            self.firsts = recorders.say_first(self)
        if self.chance(22):
            self.words.append('--trim')
        if self.chance(60 if self.run.has_names_again else 15):
            self.words += ['--cut', 'PARTS', *(['--entries', str(self._some_entries())] if self.chance(90) else [])]
        return self._written(Names(*large))

    def _some_entries(self):
        """How many entries a part may have, mostly fewer than the longest log."""
        longest = max(len(log.entries) for log in self.logs)
        return max(2, self.draw.randint(longest // 3, longest + 1))

    def forget_transitional(self):
        """The layer reports no transitional configurations, and delivers in the regular one before."""
        recorders.skip_some(self)
        for log in self.logs:
            entries, there = [], None
            for entry in log.entries:
                if entry.word == 'conf' and not is_regular(entry.configuration):
                    continue
                there = entry.configuration if entry.word == 'conf' else there
                entries.append(entry if is_regular(entry.configuration) or not there else entry._replace(configuration=there))
            log.entries = entries
        if self.chance(90):
            self.words += ['--transitional', *(['--late-changes'] if self.chance(50) else [])]

    def record_sends(self):
        """Sends are written down at other places."""
        for log in self.logs:
            for _ in range(self.draw.choice((0, 1, 2, 4, 6))):
                getattr(self, '_' + self.draw.choice(OWN_WAYS).replace(' ', '_'))(log)
            log.close()
        for word, often in (('--own-sends', 95), ('--own-order-unknown', 20), ('--late-sends', 30)):
            if self.chance(often) and (word == '--own-sends' or '--own-sends' in self.words):
                self.words.append(word)

    def _a_send(self, log):
        """The place of a send, or None."""
        sends = [at for at, entry in enumerate(log.entries) if entry.word == 'send']
        return self.draw.choice(sends) if sends else None

    @staticmethod
    def _configuration_at(log, place):
        """The configuration of the last change before a place, or None."""
        return next((entry.configuration for entry in log.entries[place - 1::-1] if entry.word == 'conf'), None) if place else None

    def _put(self, log, entry, low, high):
        """Puts a send somewhere between two places, and lets it name the configuration there, mostly a regular one."""
        place = self.draw.randint(min(low, high), high)
        there = self._configuration_at(log, place)
        if there and (is_regular(there) or self.chance(8)):
            entry = entry._replace(configuration=there)
        log.entries.insert(place, entry)

    def _taken(self, log):
        """A send is written when the message is taken, before it has its place, and not before an earlier one."""
        at = self._a_send(log)
        if at is not None:
            entry = log.entries.pop(at)
            before = [place for place in range(at) if log.entries[place].word == 'send']
            self._put(log, entry, before[-1] + 1 if before and self.chance(75) else 1, at)

    def _late(self, log):
        """A send is written behind its place, perhaps behind its delivery or a failure."""
        at = self._a_send(log)
        if at is not None:
            entry = log.entries.pop(at)
            self._put(log, entry, at, len(log.entries))

    def _elsewhere(self, log):
        """A send names another configuration."""
        at = self._a_send(log)
        if at is not None:
            names = sorted({entry.configuration for entry in log.entries if is_regular(entry.configuration) or self.chance(10)})
            if names:
                log.entries[at] = log.entries[at]._replace(configuration=self.draw.choice(names))

    def _exchanged(self, log):
        """Two sends are written in another order."""
        sends = [at for at, entry in enumerate(log.entries) if entry.word == 'send']
        if len(sends) > 1:
            one, other = sorted(self.draw.sample(sends, 2))
            first, second = log.entries[one], log.entries[other]
            log.entries[one] = second._replace(configuration=first.configuration)
            log.entries[other] = first._replace(configuration=second.configuration)

    def _second_way(self, log):
        """A send is written just before the own delivery, and names the regular configuration in which that is or from which it came."""
        at = self._a_send(log)
        if at is None:
            return
        own = [place for place, entry in enumerate(log.entries) if (entry.word, entry.message) == ('dlv', log.entries[at].message)]
        if own and own[0] > at:
            entry = log.entries.pop(at)
            log.entries.insert(own[0] - 1, entry)

    def cut_tails(self):
        """Some logs lose their last lines."""
        for log in self.logs:
            if self.chance(60) or not log.entries:
                continue
            kept = self.draw.randint(max(0 if self.chance(25) else 1, len(log.entries) - self.draw.choice((1, 2, 4, 9))), len(log.entries))
            gone = log.entries[kept:]
            del log.entries[kept:]
            if gone and self.chance(40):
                self.torn[log.who] = line_of(gone[0], True)[:-1]
            elif log.ending == 'quiet' and self.chance(20):
                self.torn[log.who] = 'quiet'
            if gone or log.who in self.torn:
                log.ending = 'open'
            log.close()

    def say_lives(self, lost):
        """The layer names no lives. What is known about them may be said."""
        self.words.append('--lives')
        if self.chance(40):
            self.clock = self._clock_lines()
        highest = {}
        for log in self.run.logs:
            highest[log.process] = max(log.life, highest.get(log.process, 0))
        present = {log.who for log in self.logs}
        silent = [(process, life) for process in sorted(highest) for life in range(1, highest[process] + 2) if (process, life) not in present]
        absent = [who for who in silent if who not in {log.who for log in lost} and self.chance(50)]
        if self.chance(10):
            absent.append(self.draw.choice([*silent, *present, (9, 1)]))
        if absent and self.chance(70):
            self.words += ['--absent', lambda names: names.lives(absent)]
        self._say_members()

    def _say_members(self):
        """Members whose life no log shows are said, and sometimes others, or wrongly."""
        changed = {(entry.configuration, log.process) for log in self.logs for entry in log.entries if entry.word == 'conf'}
        members = {(entry.configuration, process): life for log in self.logs for entry in log.entries for process, life in entry.members}
        said = {key: life for key, life in members.items() if key not in changed and self.chance(30)}
        if members and self.chance(6):
            said.update([self.draw.choice(sorted(members.items()))])
        said = {key: life if self.chance(80) else self.draw.randint(1, 3) for key, life in said.items()}
        for member in [(*key, life) for key, life in said.items()]:
            self.words += ['--member', partial(Names.member, member=member)]

    def _clock_lines(self):
        """The lines of a clock file, some of which may be missing."""
        lines = []
        for log in self.run.logs:
            if self.chance(85):
                lines.append('%d start %d:%d' % (log.start, *log.who))
            if log.end and self.chance(60):
                lines.append('%d end %d:%d' % (log.end, *log.who))
        return lines + ['%d conf %s' % (time, name) for name, time in self.run.times.items() if self.chance(50)]

    def say_endings(self):
        """Who is said to have failed, and who to be quiet: mostly those of whom it is true."""
        name = Names.lives if self.has_lives or self.is_without_lives else Names.processes
        for word in ('--failed', '--quiet'):
            if self.chance(15):
                logs = [log for log in self.logs if log.ending == 'open' and (word == '--quiet' or log.end)] or self.logs
                chosen = [log.who for log in self.draw.sample(logs, self.draw.randint(1, len(logs)))]
                self.words += [word, 'all' if word == '--quiet' and self.chance(40) else partial(name, lives=chosen)]

    def _written(self, names):
        """The files, and the words as the caller writes them."""
        folder = Folder(self.logs)
        has_names = self.has_lives or self.is_without_lives and self.chance(50)
        for log in self.logs:
            is_plain = not has_names or self.is_without_lives and self.chance(50)
            life = '' if is_plain and log.life == 1 else '.%d' % log.life
            lines = [line_of(names.of_entry(entry), self.has_lives and not self.is_without_lives) for entry in log.entries]
            text = ''.join(line + '\n' for line in lines) + ('quiet\n' if log.ending == 'quiet' else '')
            name = '%d%s.log' % (names.process(log.process), life)
            folder.files[name] = text + self.torn.get(log.who, '')
            folder.firsts[name] = self.firsts.get(log.who, '')
        if self.clock is not None:
            self.words += ['--clock', 'FOLDER/times']
            folder.files['times'] = ''.join(names.of_clock(line) + '\n' for line in self.clock)
        folder.words = [word if isinstance(word, str) else word(names) for word in self.words]
        return folder


class Names:
    """The names as they are written: with large numbers of rings, of processes, or with those of the run."""

    def __init__(self, has_large_rings, has_large_processes):
        self.ring_more = LARGE_RING if has_large_rings else 0
        self.process_more = LARGE_PROCESS if has_large_processes else 0

    def process(self, process):
        """A process."""
        return process + self.process_more

    def ring(self, ring):
        """The ring 4.1."""
        number, process = ring.split('.')
        return '%d.%d' % (int(number) + self.ring_more, self.process(int(process)))

    def configuration(self, name):
        """A configuration."""
        ring, _, least = name[1:].partition('/')
        return name[0] + self.ring(ring) + ('/%d' % self.process(int(least)) if least else '')

    def processes(self, lives):
        """A list of processes."""
        return ','.join('%d' % self.process(process) for process, _ in lives)

    def lives(self, lives):
        """A list of lives."""
        return ','.join('%d:%d' % (self.process(process), life) for process, life in lives)

    def member(self, member):
        """A member of a configuration, and its life."""
        configuration, process, life = member
        return '%s=%d:%d' % (self.configuration(configuration), self.process(process), life)

    def of_entry(self, entry):
        """An entry."""
        message = entry.message
        if message:
            ring, _, number = message.partition('#')
            message = self.ring(ring) + '#' + number
        members = tuple((self.process(process), life) for process, life in entry.members)
        return Entry(entry.word, self.configuration(entry.configuration), members, entry.service, message)

    def of_clock(self, line):
        """A line of a clock file."""
        time, word, what = line.split(' ')
        if word == 'conf':
            return ' '.join((time, word, self.configuration(what)))
        process, life = what.split(':')
        return '%s %s %d:%s' % (time, word, self.process(int(process)), life)
