"""What `tools/logs join` promises of its changes, tested by loops of its own over the logs of a folder and what became of them (of sends:
own_sends.py). Each test returns what is wrong, in words."""
import re

from harness.lines import changes_of, configuration_of, entries_of, has_line, is_send, message_of, shortens
from harness.recordings import is_regular


# Which kinds of changes an option allows; without an option only a last line that is cut off is left out, and a log without an entry.
ALLOWED = {'moved': '--own-sends', 'moved to the end': '--own-sends', 'line': '--own-sends', 'trimmed': '--trim', 'inserted': '--transitional',
           'made up': '--made-up', 'earlier': '--late-changes', 'inserted earlier': '--late-changes', 'later': '--late-changes', 'added no more': '--trim',
           'afterwards': '--early-ends', 'member': '--lives', 'process': '--renumber', 'ring': '--renumber'}


def is_torn_line(applied, found):
    """Whether a change leaves out a last line that was cut off."""
    file = applied.files[found[1]]
    return file.is_torn and int(found[2]) == len(file.lines)


def not_asked_for(applied, words):
    """Changes of kinds that no option asks for."""
    for kind, found in applied.changes:
        option = ALLOWED.get(kind)
        if kind == 'line' and is_torn_line(applied, found):
            continue
        if kind == 'log' and not entries_of(applied.files[found[1]]):
            continue
        if kind == 'log':
            option = '--trim'
        if option and option not in words:
            yield 'without %s: %s' % (option, found[0])


def _named(words, option):
    """What the lists of an option name."""
    return {who for word, value in zip(words, words[1:]) if word == option for who in value.split(',')}


def endings_not_asked_for(applied, words):
    """Logs that end in another way than their files and the call say."""
    quiet = _named(words, '--quiet')
    torn = _named(words, '--torn') | {who.partition('=')[0] for who in _named(words, '--made-up') if who.endswith('=failed-before')}
    failed = _named(words, '--failed') | torn
    for kind, found in applied.changes:
        if kind not in ('added', 'ending'):
            continue
        file = applied.files[found[1]]
        names = {str(file.process), '%d:%d' % (file.process, file.life or 1)}
        is_said = {'failed': names & failed, 'quiet': names & quiet or 'all' in quiet, 'open': '--trim' in words}
        changes = changes_of(entries_of(file))
        if '--early-ends' in words and not entries_of(file):
            continue
        if kind == 'added':
            wanted = 'fail ' + changes[-1] if found[2].startswith('fail ') else 'send %s a %s' % (changes[-1], message_of(found[2]))
            if not names & (failed if found[2].startswith('fail ') else torn) or found[2] != wanted:
                yield 'nobody said so: %s' % found[0]
        elif not is_said[found[2]]:
            yield 'nobody said so: %s' % found[0]


def untold(applied, errors):
    """Changes of which standard error has no line: the file and what happened to it, for a send also the message, unless the line says that
    there are more than it lists."""
    came = {(name, file.process) for file in applied.files.values() for name in changes_of(file.with_inserted())}
    for kind, found in applied.changes:
        if kind in ('process', 'ring'):
            parts = ['becomes %s' % found[2], ' %s ' % found[1]]
        elif kind == 'member':
            if (found[1], int(found[2])) in came:
                continue
            parts = ['%s: member %s' % (found[1], found[2]), '%s:%s' % (found[3], found[4])]
        elif kind == 'inserted':
            if has_line(errors, found[1] + ': transitional configurations that are assumed', configuration_of(found[3])):
                continue
            parts = [found[1], 'transitional configurations that are assumed', '..']
        elif kind == 'made up':
            parts = [found[1] + ' is made up'] + ([message_of(found[2])] if is_send(found[2]) else [])
            if not has_line(errors, *parts):
                parts[1:] = ['..']
        elif kind in ('added', 'added no more') and is_send(found[2]):
            if has_line(errors, found[1] + ': sends that are added', message_of(found[2])):
                continue
            parts = [found[1], 'sends that are added', '..']
        elif kind == 'added' and not entries_of(applied.files[found[1]]):
            parts = [found[1] + ' has no entry', 'it is taken to have come to %s,' % found[2].split(' ')[1], 'to have failed there']
        elif kind in ('added', 'added no more'):
            parts = [found[1], found[2]]
        elif kind in ('inserted earlier', 'later') or kind == 'earlier' and found[4].startswith('conf '):
            parts = [found[1], 'past a gap', configuration_of(found[3] if kind == 'later' else found[4])]
        elif kind == 'earlier':
            parts = [found[1], 'stay in the regular configurations before', message_of(found[4])]
        elif kind == 'ending':
            if has_line(errors, found[1], found[3]):
                continue
            parts = [found[1], {'failed': 'fail'}.get(found[2], found[2])]
        else:
            parts = [found[1], 'moved' if kind.startswith('moved') else 'left out']
        names = []
        if kind == 'afterwards' or kind == 'line' and not is_torn_line(applied, found) or kind.startswith('moved'):
            names = [message_of(found[found.re.groups])]
        if not has_line(errors, *parts, *names) and not shortens(errors, *parts):
            yield 'not told on standard error: %s' % found[0]


def logs_of(run):
    """The logs of a run's text: by process and life, the lines, with the one that closes the log."""
    logs = {}
    for line in run.decode().splitlines()[1:-1]:
        if line.startswith('log '):
            process, _, life = line[4:].partition(':')
            lines = logs.setdefault((int(process), int(life or 1)), [])
        else:
            lines.append(line)
    return logs


def gets_life_1(errors, process):
    """Whether a line says that a process gets life 1 in all configurations."""
    found = [re.match(r'logs: life 1 is added to the members ([0-9, ]+):', line) for line in errors]
    return any(process in it[1].split(', ') for it in found if it)


def differences(recorded, written, files, errors):
    """Logs that were written otherwise than they were recorded, and members with other lives, of which standard error says nothing. (This
    looks at the two runs only, and not at the list of changes.)"""
    names = {(file.process, file.life or 1): file.name for file in files.values()}
    for who, lines in recorded.items():
        others = written.get(who, [])
        bare, other_bare = ([re.sub(r':\d+', '', line) for line in some] for some in (lines, others))
        if bare != other_bare and not any(re.match(r'logs: %s[:, ]' % re.escape(names[who]), line) for line in errors):
            yield '%s is written otherwise than it was recorded, and that is not told' % names[who]
        if bare == other_bare:
            for line, other in zip(lines, others):
                for word in set(other.split(' ')[2:]) - set(line.split(' ')) if ':' in other else ():
                    process = word.partition(':')[0]
                    if not has_line(errors, 'member ' + process, word) and not gets_life_1(errors, process) \
                            and not has_line(errors, configuration_of(line), 'of process ' + process):
                        yield '%s: member %s in place of %s, and that is not told' % (names[who], word, line)


class Lives:
    """The lives that members can have, by the logs and by what the call says."""

    def __init__(self, applied, words, clock):
        self.applied = applied
        self.highest, self.came, self.beside, self.members = {}, {}, {}, set()
        for file in applied.files.values():
            self._see(file)
        self.starts, self.ends, self.times = {}, {}, {}
        for line in clock.splitlines():
            self._see_time(*line.split(' '))
        self.said = {}
        for member in _named(words, '--member'):
            configuration, process, life = re.fullmatch(r'(.*)=(\d+):(\d+)', member).groups()
            self.said[configuration, int(process)] = int(life)
        self.absent = {tuple(map(int, who.split(':'))) for who in _named(words, '--absent')}

    def _see(self, file):
        who = file.process, file.life or 1
        self._high(*who)
        lines = [line for line in file.with_inserted() if line.startswith('conf ')]
        names = changes_of(lines)
        for line, name in zip(lines, names):
            self.came.setdefault((name, who[0]), set()).add(who[1])
            self.members |= {(name, int(process)) for process in line.split(' ')[2:]}
        for one, other in zip(names, names[1:]):
            if is_regular(one) != is_regular(other):
                self.beside.setdefault(one, set()).add(other)
                self.beside.setdefault(other, set()).add(one)

    def _high(self, process, life):
        self.highest[process] = max(life, self.highest.get(process, 1))

    def _see_time(self, time, word, what):
        if word == 'conf':
            self.times[what] = min(float(time), self.times.get(what, float('inf')))
            return
        process, life = map(int, what.split(':'))
        self._high(process, life)
        (self.starts if word == 'start' else self.ends)[process, life] = float(time)

    def _possible(self, process):
        return {life for life in range(1, self.highest.get(process, 0) + 1) if (process, life) not in self.absent}

    def _runs(self, process, life):
        """When a life ran, as far as the clock knows it."""
        times = [*self.starts.items(), *self.ends.items()]
        before = max((time for (other, number), time in times if other == process and number < life), default=0)
        after = min((time for (other, number), time in times if other == process and number > life), default=float('inf'))
        return self.starts.get((process, life), before), self.ends.get((process, life), after)

    def _by_clock(self, configuration, process):
        """The lives that can have run when this configuration began."""
        came = [self._runs(other, life) for (name, other), lives in self.came.items() if name == configuration for life in lives]
        begin = self.times.get(configuration, max((begin for begin, _ in came), default=0))
        end = self.times.get(configuration, min((end for _, end in came), default=float('inf')))
        runs = {life: self._runs(process, life) for life in self._possible(process)}
        return {life for life, (first, last) in runs.items() if first <= end and begin <= last}

    def inferred(self):
        """The lives of each member: those whose logs change there, or else the only one that one of these ways leaves, in this order: what is
        said, neighbours, possible lives, the clock."""
        known = {key: set(lives) for key, lives in self.came.items()}
        known.update({key: {life} for key, life in self.said.items() if key not in known})
        self._learn_from_neighbours(known)
        for lives_of in (lambda key: self._possible(key[1]), lambda key: self._by_clock(*key)):
            for key in self.members - set(known):
                lives = lives_of(key)
                if len(lives) == 1:
                    known[key] = lives
        return known

    def _learn_from_neighbours(self, known):
        """Takes the lives of neighbouring configurations: all unknown ones that are joined get the life that is known around them, if it is
        one."""
        left = self.members - set(known)
        while left:
            row, todo, lives = set(), [left.pop()], set()
            while todo:
                key = todo.pop()
                row.add(key)
                near = {(name, key[1]) for name in self.beside.get(key[0], ())}
                lives = lives.union(*(known[other] for other in near & set(known)))
                todo += near & left
                left -= near
            if len(lives) == 1:
                known.update({key: lives for key in row})

    def wrongs(self):
        """Members with a life that was not said and is not the only possible one."""
        known = self.inferred()
        for (configuration, process), life in self.applied.lives.items():
            key = configuration, int(process)
            if int(life) not in known.get(key, ()):
                yield 'member %s of %s became %s:%s, and could also be another life' % (process, configuration, process, life)


def _way(file):
    """The changes of a log, each with the number of its line and its members; whom the log is of, as members are written; and whether it is open
    as long as nothing is trimmed."""
    changes = [(number, line.split(' ')[1], line.split(' ')[2:]) for number, line in enumerate(entries_of(file), 1) if line.startswith('conf ')]
    has_lives = any(':' in member for _, _, members in changes for member in members)
    return changes, '%d:%d' % (file.process, file.life or 1) if has_lives else str(file.process)


def transitional(applied):
    """What is added of transitional configurations, other than those that go straight from one regular configuration to the next together: by the
    logs, or because a log is open and ends there, and no log of that member comes to the next one."""
    ways, endings = {name: _way(file) for name, file in applied.files.items() if entries_of(file)}, {}
    for kind, found in applied.changes:
        if kind == 'ending' and found[2] != 'open':
            endings[found[1]] = found[2]
        elif kind == 'ending':
            endings.setdefault(found[1], found[3])
    lists = {}
    for changes, _ in ways.values():
        for _, name, members in changes:
            lists.setdefault(name, members)
    for name, (changes, own) in ways.items():
        wanted = {}
        for (_, one, _), (number, other, _) in zip(changes, changes[1:]):
            if is_regular(one) and is_regular(other) and one != other:
                together = [who for who in lists[one] if who in lists[other] and _goes(who, one, other, ways, applied, endings)]
                if own in together:
                    least = together[0].partition(':')[0]
                    wanted[number] = 'conf t%s/%s %s' % (other[1:], least, ' '.join(together))
        if applied.files[name].inserted != wanted:
            yield '%s: added are %r, and should be %r' % (name, applied.files[name].inserted, wanted)


def _goes(who, one, other, ways, applied, endings):
    """Whether a member goes straight from one configuration to another, or may still do so."""
    own = [(name, [at for _, at, _ in changes]) for name, (changes, of) in ways.items() if of == who]
    if any(pair == (one, other) for _, names in own for pair in zip(names, names[1:])):
        return True
    ended = [name for name, names in own if names[-1:] == [one] and endings.get(name, applied.files[name].ending) == 'open']
    return bool(ended) and not any(other in names for _, names in own)


def trims(applied):
    """What is wrong with the change at which logs are trimmed."""
    ends = {file.name: file.result()[-1:] for file in applied.logs() if file.is_trimmed}
    if not ends:
        return
    names = {configuration_of(line) for lines in ends.values() for line in lines if line.startswith('conf r')}
    if len(names) != 1 or any(not lines or not lines[0].startswith('conf r') for lines in ends.values()):
        yield 'trimmed logs end differently: %s' % ends
        return
    name = names.pop()
    before, after = set(), set()
    for file in applied.files.values():
        changes = changes_of(entries_of(file))
        if name in changes:
            before |= set(changes[:changes.index(name)])
            after |= set(changes[changes.index(name) + 1:])
        elif not file.is_left_out and file.ending != 'failed':
            yield '%s neither failed nor changes to %s' % (file.name, name)
    if (before & after) - {name}:
        yield '%s come before %s in one log and after it in another' % (sorted(before & after), name)


def names_again(applied, errors):
    """Names in what is left out that are also in what is kept, of which standard error says nothing."""
    kept, gone = [], []
    for file in applied.files.values():
        kept += [] if file.is_left_out else file.result()
        gone += file.left_behind() if not file.is_left_out else entries_of(file)
    for what, lines in (('changes to', [set(changes_of(kept)), set(changes_of(gone))]),
                        ('sends of', [{message_of(line) for line in part if is_send(line)} for part in (kept, gone)])):
        for name in sorted(set.intersection(*lines)):
            if not has_line(errors, name, 'again') and not shortens(errors):
                yield '%s %s are kept and left out, and that is not told' % (what, name)


def names_of_two_parts(parts):
    """Names that come in two parts, other than that of the change between them."""
    seen, ended = {}, None
    for number, part in enumerate(parts):
        lines = part.decode().splitlines()
        ends = {configuration_of(line) for line, close in zip(lines, lines[1:]) if close == 'open' and line.startswith('conf ')}
        for name in set(changes_of(lines)) | {message_of(line) for line in lines if is_send(line)}:
            first = seen.setdefault(name, number)
            between = ended and first == number - 1 and name in ended
            if first != number and not between:
                yield name
        ended = ends


def parts_again(applied, parts, errors):
    """Those of these names of which standard error says nothing."""
    old = applied.old_names()
    for name in map(old.get, names_of_two_parts(parts)):
        if not has_line(errors, name, 'again') and not shortens(errors):
            yield '%s is in two parts, and that is not told' % name
