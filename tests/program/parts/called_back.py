"""From the callbacks of a group to the lines of logs: the callbacks of real recordings, those of a model of groups, and any others."""
import os
import random
import re
import sys
import tempfile
from functools import partial
from zlib import crc32

from harness import process
from harness.groups import play
from parts.joined import REPOSITORY, join, write_files

sys.path.insert(0, os.path.join(REPOSITORY, 'tools'))
# pylint: disable=wrong-import-position
from recording.views import Member, Moved, Views

CALLBACKS = os.path.join(REPOSITORY, 'tests', 'harness', 'callbacks.txt')
REASONS = {'join': 1, 'leave': 2, 'nodedown': 3, 'nodeup': 4, 'procdown': 5}
NUMBER, WHO = r'[1-9][0-9]*', r'[1-9][0-9]*:[1-9][0-9]*'
RING = NUMBER + r'\.' + NUMBER
ENTRY = re.compile(r'conf (?:r{r}|t{r}/{n})(?: {w})+|dlv r{r} {r}#{n} crc=[0-9a-f]{{8}}|quiet|# [ -~]*'.format(r=RING, n=NUMBER, w=WHO))
CHANGE = re.compile(r'conf ([rt])(%s)(?:/(%s))? (.*)' % (RING, NUMBER))
# How many histories there are, how many in a case, of which so many are joined by the tool and judged by the auditor; how many random orders.
HISTORIES, BATCH, JUDGED, ORDERS = 2000, 200, 3, 5000
# Names of changes in one ring are sums with 99,999 values: among the few hundred thousand pairs of such changes some have one name.
MOST_EQUAL = 3
MOST_NUMBER = 4294967295


def moved(them):
    """Processes that came or went, for the recorder."""
    return [Moved(Member(*who), reason) for who, reason in them]


# ---- the callbacks of recordings

def read_recordings():
    """The recordings: by their names, the logs, and of each the node, the process and the lines."""
    recordings, lines = {}, None
    with open(CALLBACKS, encoding='ascii') as it:
        for line in it.read().split('\n')[:-1]:
            words = line.split(' ')
            if words[0] == 'log':
                lines = []
                recordings.setdefault(words[1], []).append((int(words[2]), int(words[3]), lines))
            elif line and not line.startswith('//'):
                lines.append(line)
    return recordings


def feed(views, line):
    """Calls back as a comment of a recording says, or delivers. Returns the lines that come, without comments."""
    words = line.split(' ')
    if words[0] == 'dlv':
        came = views.message(1, 1, words[2].encode() + b' - and so on')
    elif words[1] == 'ring':
        representative, number = words[2].split('.')
        came = views.ring_changed(int(representative), int(number), [int(node) for node in words[4:]])
    else:
        lists, to = {'left': [], 'joined': [], 'members': []}, None
        for word in words[2:]:
            if word in lists:
                to = word
            elif ':' in word:
                lists[to].append(Member(*map(int, word.split(':'))))
            elif word:
                lists[to][-1] = Moved(lists[to][-1], REASONS[word])
        came = views.group(lists['members'], lists['left'], lists['joined'])
    return [line.split(' crc=')[0] for line in came if not line.startswith('#')]


def replay(logs, _program):
    """The callbacks of a recording give its changes and the configurations of its deliveries, but for the numbers of rings: these are renamed one
    to one, and still begin with the number of the ring."""
    names, ring = {}, None
    for node, number, lines in logs:
        views, wanted, came = Views(node, number), [], []
        for line in lines:
            if line.startswith('# ring '):
                ring = int(line.split(' ')[2].split('.')[1])
            if line.startswith('#') or line.startswith('dlv'):
                came += feed(views, line)
            if not line.startswith('#'):
                wanted.append(line)
            for old, new in zip(wanted[len(came) - 1:len(came)], came[-1:]):
                if new.startswith('conf r') and old.startswith('conf r'):
                    names.setdefault(old.split(' ')[1][1:], (new.split(' ')[1][1:], ring))
        renamed = [re.sub(r'^(conf|dlv) ([rt])(%s)' % RING, lambda found: '%s %s%s' % (found[1], found[2], names.get(found[3], ('?',))[0]), line)
                   for line in wanted]
        if renamed != came:
            return '%d:%d: wanted %r\n  came   %r' % (node, number, renamed, came)
    new = [name for name, _ in names.values()]
    far = [(old, name) for old, (name, ring) in names.items() if int(name.split('.')[0]) // 100000 != int(old.split('.')[0]) // 10000
           or old.split('.')[1] != name.split('.')[1]]
    return 'two rings have one name: %r' % names if len(set(new)) != len(new) else far and 'names are not made of rings: %r' % far or None


# ---- the callbacks of a model

class Listener:
    """A member that writes a log, and what is known of it otherwise: the view of its configuration, and who goes on with it."""

    def __init__(self, history, who):
        self.history = history
        self.views = Views(*who)
        self.who = who
        self.lines, self.wrong = [], None
        # The view of its configuration, who of it has not left, and the view that it was told of last.
        self.view, self.together, self.told = None, set(), None
        history.logs.append(self)

    def _take(self, lines, views, together):
        """Takes lines, whose last changes are to these views, with these transitional configurations before them, and compares them."""
        lines = [line for line in lines if not line.startswith('#')]
        changes = [found for found in map(CHANGE.fullmatch, lines) if found]
        regular, transitional = ([found for found in changes if found[1] == kind] for kind in 'rt')
        for found, view, members in zip(regular[::-1], views[::-1], together[::-1]):
            self.history.names.setdefault(view, set()).add(found[2])
            self._compare(found, view.members)
            self._compare(next((it for it in transitional if it[2] == found[2]), None), members if self.view else None)
            self.history.ways.setdefault((self.view, found[2]), []).append(self)
        if len(regular) > len(views) or len(transitional) > len(regular):
            self.wrong = self.wrong or '%s writes %r' % (self.who, lines)
        if regular:
            self.view, self.together = views[-1], set(views[-1].members)
        self.lines += lines

    def _compare(self, found, members):
        """Compares the members of a change with those that are known; there is none if nobody is."""
        wanted = members and ' '.join('%d:%d' % (who.node, who.number % 65535 + 1) for who in sorted(members))
        listed = found and found[4]
        if listed != wanted or found and found[3] and int(found[3]) != min(members).node:
            self.wrong = self.wrong or '%s writes %r, and %r is wanted' % (self.who, found and found[0], wanted)

    def group(self, view, members, left, joined):
        """A change of the group. One that joins may end a change that has waited."""
        gone = {who for who, _ in left}
        lines = self.views.group([Member(*who) for who in members], moved(left), moved(joined))
        if sum(line.startswith('conf r') for line in lines) > 1:
            self._take(lines, [self.told, view], [set(self.together), self.told.members - gone])
        else:
            self.together -= gone
            self._take(lines, [view], [set(self.together)])
        self.told = view

    def ring(self, view, representative, number, nodes):
        """A change of the ring, or the first one of which it is told. Then nothing waits any more."""
        self._take(self.views.ring_changed(representative, number, nodes), [view], [set(self.together)])
        if view != self.view:
            self.wrong = self.wrong or '%s is in %s after its ring, and not in %s' % (self.who, self.view, view)
        self.told = view

    def name(self):
        """The name of a message, if one can be sent. Its line is written when it is sent."""
        if not self.views.can_send:
            return None
        name = self.views.next_name()
        self.lines.append('send %s a %s' % (self.views.configuration, name))
        return name

    def message(self, view, name):
        """A delivery: in the view that is known, and in the same one at all."""
        contents = name.encode() + b' - and so on'
        lines = self.views.message(1, 1, contents)
        if not lines[-1].endswith(' %s crc=%08x' % (name, crc32(contents))):
            self.wrong = self.wrong or '%s delivers %r as %r' % (self.who, contents, lines[-1])
        self._take(lines, [view], [set(self.together)])
        self.history.delivered.setdefault(name, set()).add(self.views.configuration)
        if view != self.view:
            self.wrong = self.wrong or '%s delivers in %s, and not in %s' % (self.who, self.view, view)

    def ended(self):
        """It has left, or was killed: its log fails where it stood."""
        if self.views.configuration:
            self.lines.append('fail ' + self.views.configuration)


class History:
    """A random history of 3 to 6 nodes, and the logs of its processes."""

    def __init__(self, seed):
        self.logs = []
        # The names of each view, the configurations in which each message is delivered, who goes from a view to a configuration.
        self.names, self.delivered, self.ways = {}, {}, {}
        draw = random.Random(seed)
        play(draw, draw.randrange(3, 7), lambda who: Listener(self, who))

    def wrong(self):
        """What is wrong: a log, a view with two names, or a message that is delivered in two configurations."""
        found = [log.wrong for log in self.logs if log.wrong]
        found += ['%s has the names %r' % it for it in self.names.items() if len(it[1]) > 1]
        found += ['%s is delivered in %r' % it for it in self.delivered.items() if len(it[1]) > 1]
        return found[0] if found else None

    def equal(self):
        """How many views have a name that another one has."""
        names = [name for of_view in self.names.values() for name in of_view]
        return len(names) - len(set(names))

    def files(self):
        """The logs as files."""
        return {'%d.%d.log' % (log.who.node, log.who.number % 65535 + 1): ''.join(line + '\n' for line in log.lines)
                for log in self.logs if log.lines}


def judge(history, program):
    """The logs are joined, and the auditor says yes."""
    with tempfile.TemporaryDirectory() as folder:
        write_files(folder, history.files())
        joined = join(['--own-sends'], folder)
    if joined.status:
        return 'joined: %s' % joined
    came, _ = process.run([program, 'audit'], joined.output)
    return None if came.output.startswith(b'verdict yes\n') and came.status == 0 else 'audit: %s' % came


def play_histories(first, program):
    """A batch of random histories; some of them are joined and judged."""
    equal, seen = 0, {'t': 0, 'changes': 0}
    for seed in range(first, first + BATCH):
        history = History(seed)
        wrong = history.wrong() or (seed < first + JUDGED and judge(history, program))
        if wrong:
            return 'history %d: %s' % (seed, wrong)
        equal += history.equal()
        for log in history.logs:
            seen['t'] += sum(line.startswith('conf t') for line in log.lines)
        seen['changes'] += sum(view.changes > 0 for view in history.names)
    if equal > MOST_EQUAL or not all(seen.values()):
        return '%d views have the name of another one; %r' % (equal, seen)
    return None


# ---- any callbacks

class Orders:
    """Random callbacks, in any order, and the lines that come of them."""

    def __init__(self, seed):
        self.draw = random.Random(seed)
        self.me = self._who()
        self.views = Views(*self.me)
        self.lines, self.named, self.members = [], [], [self.me]
        # Whether it was told that it is no member any more, and the lines that came later.
        self.is_gone, self.late = False, []

    def _who(self):
        node = self.draw.choice((1, 1, 2, 3, 4, 65535, MOST_NUMBER))
        return Member(node, self.draw.choice((0, 1, 2, 65534, 65535, MOST_NUMBER)))

    def _some(self):
        some = [self._who() for _ in range(self.draw.choice((0, 0, 0, 1, 1, 1, 2, 3, 40)))]
        return some + [self.me] * (self.draw.randrange(40) > 0)

    def _moved(self):
        return [Moved(who, self.draw.choice((0, 1, 1, 2, 2, 3, 3, 4, 4, 5, 5, 6, MOST_NUMBER))) for who in self._some()
                if who != self.me or self.draw.randrange(40) == 0]

    def _contents(self):
        name = self.draw.choice((b'2500000.1#33', b'4000099999.65535#4294967295', b'1.1#0', b'#', b''))
        word = self.draw.choice((b' - ', b' - ', b' bye ', b' bye ', b' stop ', b' other ', b' ', b''))
        return name + word + self.draw.choice((b'', b'\n', bytes(range(256))))

    def call_back(self):
        """One callback, and what comes of it."""
        what = self.draw.randrange(8)
        if what < 3:
            members = self._some()
            if self.draw.randrange(8):
                members = list({who.node: who for who in members}.values())
            left = self._moved()
            self.members = members or self.members
            came = self.views.group(members, left, self._moved() if self.draw.randrange(2) else [])
        elif what < 5:
            nodes = [self._who().node for _ in range(self.draw.randrange(5))] + [self.me.node] * self.draw.randrange(2)
            number = self.draw.choice((0, 1, 25, 40000, 40001, 2 ** 32, 2 ** 64 - 1, self.draw.randrange(1, 100)))
            came = self.views.ring_changed(self._who().node, number, nodes)
        else:
            came = self.views.message(*self.draw.choice(self.members + [self._who()]), self._contents())
        self.lines += came
        self.late += came if self.is_gone else []
        self.is_gone = self.is_gone or what < 3 and (self.me not in members or self.me in [it.member for it in left])
        if self.views.can_send:
            self.named.append((self.views.configuration, self.views.next_name()))


def wrong_changes(lines):
    """What is wrong with the changes among the entries of a log: each goes by a transitional configuration, of members of both neighbours."""
    changes = [(index, CHANGE.fullmatch(line)) for index, line in enumerate(lines) if line.startswith('conf ')]
    if not re.fullmatch('(?:r(?:tr)*)?', ''.join(found[1] for _, found in changes)):
        return 'regular and transitional ones do not alternate: %r' % lines
    for _, found in changes:
        nodes = [int(who.split(':')[0]) for who in found[4].split(' ')]
        if any(one >= other for one, other in zip(nodes, nodes[1:])):
            return 'members are not ascending: %r' % found[0]
    for (index, found), (behind, follower) in zip(changes, changes[1:]):
        some, others = (set(it[4].split(' ')) for it in ((found, follower) if found[1] == 't' else (follower, found)))
        if not some <= others or found[1] == 't' and (found[2] != follower[2] or behind != index + 1):
            return '%r is followed by %r' % (found[0], follower[0])
    return None


def wrong_lines(lines):
    """What is wrong with the form of some lines, or None."""
    lines, current = [line for line in lines if not line.startswith('#')], None
    for line in lines:
        if not ENTRY.fullmatch(line) or any(int(number) > MOST_NUMBER for number in re.findall(r'[0-9]{10,}', line.split(' crc=')[0])):
            return 'no entry: %r' % line
        if line.startswith('dlv ') and line.split(' ')[1] != current:
            return 'in no such configuration: %r' % line
        current = line.split(' ')[1] if line.startswith('conf ') else current
    if 'quiet' in lines[:-1]:
        return 'after quiet: %r' % lines
    return wrong_changes(lines)


def call_back_anyhow(first, count, _program):
    """Callbacks in any order: never an exception, and the lines are a log."""
    sends = quiet = 0
    for seed in range(first, first + count):
        orders = Orders(seed)
        for _ in range(orders.draw.randrange(1, 25)):
            try:
                orders.call_back()
            except Exception as error:  # pylint: disable=broad-exception-caught
                return 'callbacks %d: %r after %r' % (seed, error, orders.lines)
        wrong = wrong_lines(orders.lines) or orders.late and '%r came late' % orders.late
        names = [name for _, name in orders.named]
        if not wrong and not all(re.fullmatch(RING + '#' + NUMBER, name) and name.startswith(configuration[1:] + '#') and
                                 int(name.split('#')[1]) <= MOST_NUMBER for configuration, name in orders.named):
            wrong = 'named %r' % orders.named
        if wrong:
            return 'callbacks %d: %s, of %r' % (seed, wrong, orders.lines)
        sends, quiet = sends + len(names), quiet + ('quiet' in orders.lines)
    return None if sends and quiet else 'nothing was tried: %d messages, %d ends' % (sends, quiet)


def called_back():
    """Callbacks, and the lines that come of them."""
    for name, logs in read_recordings().items():
        yield 'the callbacks of ' + name, partial(replay, logs)
    for first in range(0, HISTORIES, BATCH):
        yield 'histories from %d on' % first, partial(play_histories, first)
    for first in range(0, ORDERS, ORDERS // 5):
        yield 'any callbacks from %d on' % first, partial(call_back_anyhow, first, ORDERS // 5)
