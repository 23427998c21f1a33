"""Lives for members that are written without them."""
from joining import endings
from joining.clock import Clock
from joining.scan import change_lines
from joining.trouble import Refused, some, tell, tell_each

# How many unknown members one refusal lists.
MOST_ASKED = 20


def _listed(process, lives):
    """A few lives of a process, for a person."""
    names = ['%d:%d' % (process, life) for life in lives]
    return ' or '.join(names if len(names) <= 6 else names[:4] + ['..', names[-1]])


def _ranges(process, lives):
    """Lives of a process as --absent takes them."""
    ranges = []
    for life in lives:
        if ranges and ranges[-1][1] == life - 1:
            ranges[-1][1] = life
        else:
            ranges.append([life, life])
    return ','.join('%d:%d' % (process, first) + ('-%d' % last if last > first else '') for first, last in ranges)


class Lives:
    """The life of each member of each configuration. It is that of the log which changes to the configuration. If none does, it is the
    one that the caller names, the one that was a member of the configurations just before and after, the only one that is possible, or the
    only one that can have run at that time. `absent` are lives that have no log and were a member of no configuration; `files` are all logs, also
    those without an entry."""

    def __init__(self, logs, files, asked):
        self.logs = logs
        self.files = files
        self.known = {}
        # All lives of a process that change to a configuration: there are two if a ring came again.
        self.all = {}
        for log in logs:
            for change in log.changes:
                self.known.setdefault(change.configuration, {}).setdefault(log.process, log.life)
                self.all.setdefault((change.configuration, log.process), set()).add(log.life)
        self.came = {configuration: dict(lives) for configuration, lives in self.known.items()}
        self.clock = Clock(asked.clock) if asked.clock else None
        self.possible = self._possible_lives(endings.read_list(asked.absent, may_be_ranges=True) if asked.absent else [])
        self.unknown = {}
        # Unknown members whose neighbours say a life that did not run then by the clock file.
        self.disputed = set()
        for log in logs:
            for change in log.changes:
                for process, _ in change.members:
                    if process not in self.known[change.configuration]:
                        self.unknown.setdefault((change.configuration, process), (log, change))
        self._say(asked.member)
        self._neighbours()
        self._only_lives()
        if self.clock:
            self._ask_clock()
        if self.unknown:
            self._refuse()
        self._tell_came()

    def _possible_lives(self, absent):
        """For each process that has a log or is in the clock file, the lives that a member may be: all from 1 to the greatest that there is, but
        for those that are said to be absent."""
        possible, absent = {}, set(absent)
        for process in dict.fromkeys([*(log.process for log in self.files), *(self.clock.processes() if self.clock else ())]):
            there = self._lives_of(process)
            greatest = max(there | (self.clock.lives_of(process) if self.clock else set()))
            possible[process] = [life for life in range(1, greatest + 1) if life in there or (process, life) not in absent]
        for process, life in absent:
            if life is None:
                raise Refused('--absent %d: say which life of it, such as %d:1' % (process, process))
            if life in self._lives_of(process):
                raise Refused('--absent %d:%d: there is a log of it' % (process, life))
        return possible

    def _lives_of(self, process):
        """The lives of a process that have a log, even if it has no entry."""
        return {log.life for log in self.files if log.process == process}

    def _tell_came(self):
        """Reports the lives that come from logs which change to the configurations, and lives without a log."""
        single = [str(process) for process, lives in self.possible.items() if lives == [1] and self._lives_of(process)]
        if single:
            tell('life 1 is added to the members %s: no log is of another life of theirs' % ', '.join(single))
        twice = []
        for log in self.logs:
            if self.possible[log.process] == [1]:
                continue
            names = list(dict.fromkeys(change.configuration for change in log.changes))
            tell('%s: member %d is %d:%d where this log changes to the configuration: %d (%s)' % (
                log.name, log.process, log.process, log.life, len(names), some(names)))
            for name in names:
                first = self.came[name][log.process]
                if first != log.life:
                    twice.append('%s: lives %d and %d of process %d change to it: a ring came again; in other logs it is life %d' % (
                        name.decode(), first, log.life, log.process, first))
        tell_each(twice)
        members = {life for lives in self.known.values() for life in lives.items()}
        for process, lost in self._lost():
            lost = [life for life in lost if (process, life) not in members]
            if lost:
                tell('there is no log of %s: taken for a member of no configuration' % _listed(process, lost))

    def _lost(self):
        """The processes that have possible lives without a log, and these lives."""
        for process, lives in self.possible.items():
            lost = [life for life in lives if life not in self._lives_of(process)]
            if lost:
                yield process, lost

    def _learn(self, configuration, process, life, how):
        """Records the life of a member, which is now known."""
        self.known[configuration][process] = life
        del self.unknown[configuration, process]
        return '%s: member %d, which never came, is %d:%d: %s' % (configuration.decode(), process, process, life, how)

    def _say(self, said):
        """Takes what the caller says: r26.1=3:2."""
        for word in said:
            configuration, _, who = word.partition('=')
            named = endings.read_list([who])
            key = configuration.encode('utf-8', 'replace'), named[0][0]
            if key not in self.unknown or len(named) != 1 or named[0][1] is None:
                raise Refused('--member %s: no member of a configuration whose life is unknown; say it as r26.1=3:2' % word)
            tell(self._learn(*key, named[0][1], 'the call says so'))

    def _only_lives(self):
        """Takes the only life that is possible."""
        tell_each([self._learn(configuration, process, self.possible[process][0], 'no log is of another life')
                   for configuration, process in list(self.unknown)
                   if self._lives_of(process) and len(self.possible[process]) == 1
                   and self._can_have_run(self.possible[process][0], configuration, process)])

    def _can_have_run(self, life, configuration, process):
        """Whether a life can have run when the logs changed to this configuration, as far as a clock file says."""
        return not self.clock or bool(self._have_run(process, [life], configuration))

    def _neighbours(self):
        """Takes over lives from neighbouring configurations: a process that goes on from one to the next is the same life in both. Where the
        neighbours of several unknown ones in a row say different lives, or the clock file contradicts them, none is taken."""
        beside = {}
        wanted = {configuration for configuration, _ in self.unknown}
        for log in self.logs:
            for one, other in zip(log.changes, log.changes[1:]):
                is_passed = one.configuration[:1] != other.configuration[:1]
                for this, that in ((one, other), (other, one)) if is_passed else ():
                    if this.configuration in wanted:
                        beside.setdefault(this.configuration, set()).add(that.configuration)
        lines, left = [], dict.fromkeys(self.unknown)
        while left:
            row, lives = self._row(next(iter(left)), beside)
            for key in row:
                left.pop(key)
            if len(lives) == 1:
                [(life, other)] = lives.items()
                how = 'so it is in %s, before or after it' % other.decode()
                if all(self._can_have_run(life, *key) for key in row):
                    lines += [self._learn(*key, life, how) for key in row]
                else:
                    self.disputed.update(row)
        tell_each(lines)

    def _row(self, first, beside):
        """The unknown members that are joined to this one by neighbouring configurations, and the lives that their neighbours have, each with
        a configuration where it is so."""
        row, lives, process = {first: None}, {}, first[1]
        todo = [first]
        while todo:
            configuration, _ = todo.pop()
            for other in sorted(beside.get(configuration, ())):
                key = other, process
                if process in self.known[other]:
                    for life in self.all.get(key, {self.known[other][process]}):
                        lives.setdefault(life, other)
                elif key in self.unknown and key not in row:
                    row[key] = None
                    todo.append(key)
        return row, lives

    def _ask_clock(self):
        """Takes what the clock says."""
        for configuration, lives in self.came.items():
            for life in lives.items():
                self.clock.check_change(configuration, life)
        self._tell_contradictions()
        lines = []
        for configuration, process in [key for key in self.unknown if key not in self.disputed]:
            lives = self._have_run(process, self.possible.get(process, ()), configuration)
            if len(lives) == 1:
                lines.append(self._learn(configuration, process, lives[0], 'by the clock'))
        tell_each(lines)

    def _tell_contradictions(self):
        """Reports where the clock file contradicts the logs: configurations to which no log changes; lives whose logs change to one
        configuration and that did not run at one time; lives that never came, were taken for members, and did not run then."""
        unknown = [configuration for configuration in self.clock.changes if configuration not in self.came]
        if unknown:
            tell('the clock file has times of configurations to which no log changes: %d (%s)' % (len(unknown), some(unknown)))
        apart = {configuration: self.clock.apart(lives.items()) for configuration, lives in self.came.items()}
        tell_each(['%s: the logs of %d:%d and %d:%d change to it, and by the clock the first one ended before the second one began' % (
            configuration.decode(), *pair[0], *pair[1]) for configuration, pair in apart.items() if pair])
        tell_each(['%s: member %d is taken for %d:%d, which did not run then, by the clock' % (configuration.decode(), process, process, life)
                   for configuration, lives in self.known.items() for process, life in lives.items()
                   if process not in self.came[configuration] and not self._have_run(process, [life], configuration)])

    def _have_run(self, process, lives, configuration):
        """Those of these lives that can have run, by the clock, when the logs changed to this configuration."""
        return self.clock.lives_at(process, lives, configuration, self.came[configuration].items())

    def _refuse(self):
        """Asks for the lives that are not known. All processes that have no log come first, each once."""
        lines, first = [], {}
        for (configuration, process), (log, change) in self.unknown.items():
            possible = self.possible.get(process, ())
            lives = _listed(process, possible) if self._lives_of(process) else 'there is no log of it'
            if self.clock and self._lives_of(process) and not self._have_run(process, possible, configuration):
                lives += ', none of which ran then, by the clock'
            line = '%s, line %d: which life of %d is a member of %s? No log of it changes there: %s' % (
                log.name, log.line_of(change.before + 1), process, configuration.decode(), lives)
            if self._lives_of(process):
                lines.append(line)
            else:
                first.setdefault(process, line)
        lines[MOST_ASKED:] = ['.. and %d more' % (len(lines) - MOST_ASKED)] if len(lines) > MOST_ASKED else []
        lines = [*first.values(), *lines]
        lines.append('Name each with --member CONFIGURATION=P:L, or give the times of the lives with --clock FILE')
        lines += ['There is no log of %s: if it was a member of no configuration, say --absent %s' % (
            _listed(process, lost), _ranges(process, lost))
            for process, lost in self._lost() if any(process == other for _, other in self.unknown)]
        lines += ['If you know what %d did, --made-up %d:1=failed-before or --made-up %d:1=as-Q:1 makes up a log (docs/OWN-LOGS.md#a-lost-log)' % (
            process, process, process) for process in list(first)[:1]]
        raise Refused('\n  '.join(lines))

    def listed(self):
        """The first change that lists each member with its life: the log, the entry and the configuration."""
        first, seen = {}, set()
        for log in self.logs:
            for change in log.changes:
                is_new = (change.configuration, change.members) not in seen
                seen.add((change.configuration, change.members))
                for process, _ in change.members if is_new else ():
                    first.setdefault((process, self.of(log, change.configuration, process)), (log, change.before + 1, change.configuration))
        return first

    def write(self, changes):
        """Adds the life of each member of each configuration to the list of changes."""
        for configuration, lives in self.known.items():
            for process, life in sorted(lives.items()):
                changes.add('%s: member %d is %d:%d' % (configuration.decode(), process, process, life))

    def of(self, log, configuration, process):
        """The life of a member in a change of this log: for the log's own process it is the log's life."""
        return log.life if process == log.process else self.known[configuration][process]


def add_lives(block, life_of):
    """The block with lives in its changes. `life_of(configuration, process)` returns each."""
    parts, done = [], 0
    for at in change_lines(block):
        end = block.index(b'\n', at)
        words = block[at:end].split(b' ')
        members = [b'%s:%d' % (word, life_of(words[1], int(word))) for word in words[2:]]
        parts += [block[done:at], b' '.join(words[:2] + members)]
        done = end
    return b''.join(parts) + block[done:]
