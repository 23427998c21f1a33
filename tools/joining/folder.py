"""The logs of a folder: a file P.log for each process P, or P.L.log for each life L of it; with patterns, other names."""
import os
import re
import stat
from dataclasses import dataclass, field
from typing import NamedTuple, Optional

from joining.entries import MOST_LIFE, MOST_PROCESS
from joining.line_numbers import LineNumbers
from joining.trouble import Refused, some, tell
from running import texts

# How files of logs are called if no pattern says so.
PATTERNS = ('{P}.log', '{P}.{L}.log')
# How many bytes are read at once, and the length above which a line is surely not an entry.
BLOCK = 1 << 17
MOST_OF_A_LINE = 1 << 20


class Change(NamedTuple):
    """A change of configuration: where its line begins in the file, how many entries come before it, and what it says."""

    offset: int
    before: int
    configuration: bytes
    members: tuple

    @property
    def line(self):
        """The line, without its line end."""
        return b' '.join([b'conf', self.configuration, *(b'%d' % process if life is None else b'%d:%d' % (process, life)
                                                         for process, life in self.members)])


@dataclass
class Log:
    """The log of a process, or of one life of it."""

    name: str
    path: str
    process: int
    life: Optional[int]
    # How many bytes its entries have, and how many there are.
    size: int = 0
    entries: int = 0
    # `open`, `failed` or `quiet`.
    ending: str = 'open'
    # The configuration of its last change, and all of its changes if they are asked for.
    last: bytes = b''
    changes: list = field(default_factory=list)
    # What an argument adds after its entries.
    added: bytes = b''
    # The log's own file, as opposed to one for temporary use, and when it was last written, in nanoseconds. A log that is made up has none.
    file: str = ''
    written: int = 0
    # Which line of that file each entry is, and a file with the times of these lines, if there are any (joining.lines).
    lines: LineNumbers = field(default_factory=LineNumbers)
    times: Optional[str] = None
    # How many seconds the file goes on after its last delivery, if its lines have times.
    silence: Optional[float] = None

    def line_of(self, entry):
        """The line of an entry in the log's own file."""
        return self.lines.of(entry)

    @property
    def is_made_up(self):
        """Whether the call says what is in it."""
        return not self.file

    def end_as(self, ending, changes):
        """Closes the log in another way."""
        changes.add('%s, end: %s in place of %s' % (self.name, ending, self.ending))
        self.ending = ending

    @property
    def who(self):
        """The process as arguments name it: 3, or 3:2 with its life."""
        return str(self.process) if self.life is None else '%d:%d' % (self.process, self.life)


def blocks(path, begin, end):
    """The bytes of a file from one offset up to another, in blocks of whole lines."""
    with open(path, 'rb') as it:
        it.seek(begin)
        left = end - begin
        rest = b''
        while left:
            block = it.read(min(BLOCK, left))
            if not block:
                raise Refused('%s became shorter while it was read' % path)
            left -= len(block)
            block = rest + block
            is_whole = not left or len(rest) > MOST_OF_A_LINE
            cut = len(block) if is_whole else block.rfind(b'\n') + 1
            rest = block[cut:]
            if cut:
                yield block[:cut]


def _last_line_end(it, size):
    """How many bytes the whole lines of a file have."""
    end = size
    while end:
        begin = max(0, end - BLOCK)
        it.seek(begin)
        found = it.read(end - begin).rfind(b'\n')
        if found >= 0:
            return begin + found + 1
        end = begin
    return 0


def _check_front(log, front):
    """Refuses what is no log, by its first bytes."""
    if texts.flaw_of(front):
        raise Refused('%s %s' % (log.name, texts.flaw_of(front)))
    if front.startswith(b'totem-ru'):
        raise Refused('%s is a run, made of logs already: ./totem audit < %s' % (log.name, log.path))


def measure(log):
    """Finds where the entries of a log end, and whether it says that it is quiet. Returns what was cut off behind its last line."""
    with open(log.path, 'rb') as it:
        _check_front(log, it.read(texts.FRONT))
        status = os.fstat(it.fileno())
        log.file = log.path
        log.written, size = status.st_mtime_ns, status.st_size
        log.size = _last_line_end(it, size)
        if log.size < size:
            tell('%s: the last line was cut off, and is left out' % log.name)
            it.seek(log.size)
            return it.read(MOST_OF_A_LINE)
        claim = b'quiet\n'
        it.seek(max(0, size - len(claim) - 1))
        if it.read() in (claim, b'\n' + claim):
            log.size -= len(claim)
            log.ending = 'quiet'
    return b''


def is_pattern(pattern):
    """Whether a text is a pattern of names: with one {P}, with {L} at most once, not right beside it, and without a folder."""
    parts = re.split(r'\{[PL]\}', pattern)
    return pattern.count('{P}') == 1 and pattern.count('{L}') <= 1 and '' not in parts[1:-1] and not re.search(r'[/\n]', pattern)


def _form_of(pattern, number):
    """A regular expression for the names of a pattern, with these numbers in it."""
    names = {'{P}': '(?P<process>%s)' % number, '{L}': '(?P<life>%s)' % number}
    return re.compile(''.join(names.get(part) or re.escape(part) for part in re.split(r'(\{[PL]\})', pattern)))


def fits(name, patterns):
    """What a name says by the first pattern that it has, as a match, or None. Without patterns it is P.log or P.L.log."""
    found = (_form_of(pattern, r'[1-9][0-9]{0,19}').fullmatch(name) for pattern in patterns or PATTERNS)
    return next(filter(None, found), None)


def _is_nearly(name, patterns):
    """Whether a name has a pattern but for numbers with leading zeros, or of too many digits."""
    return any(_form_of(pattern, r'[0-9]+').fullmatch(name) for pattern in patterns)


def _names(folder, patterns):
    """The names of the logs of a folder. Reports others that may be logs."""
    if patterns:
        files = sorted(name for name in os.listdir(folder) if os.path.isfile(os.path.join(folder, name)))
        names = [name for name in files if fits(name, patterns) or _is_nearly(name, patterns)]
        what = 'have no --pattern'
        wanted = ' or '.join(patterns)
    else:
        files = sorted(name for name in os.listdir(folder) if '.log' in name)
        names = [name for name in files if name.endswith('.log')]
        what, wanted = 'do not end with .log', 'P.log or P.L.log'
    others = [name for name in files if name not in names]
    for name in others:
        unpacked, suffix = os.path.splitext(name)
        if suffix in texts.SUFFIXES and unpacked not in names and fits(unpacked, patterns):
            raise Refused(name + ' ' + texts.UNPACK % texts.SUFFIXES[suffix])
    if not names:
        inner = sorted(name for name in os.listdir(folder) if os.path.isdir(os.path.join(folder, name)))
        raise Refused('%s has no file %s%s' % (folder, wanted, '. In it are folders, one of which may have them: %s' % some(inner) if inner else ''))
    if others:
        tell('not read, since their names %s: %s' % (what, ', '.join(map(repr, others))))
    return names


def _read_name(name, patterns, is_numbered_anew):
    """The process and the life that a file's name contains."""
    found = fits(name, patterns)
    if not found and patterns:
        raise Refused('%s: the number is not a process, or not a life: they are written without leading zeros' % name)
    if not found:
        raise Refused('%s: the name is not a process: a log is called P.log, or P.L.log for life L of P, such as 3.log or 3.2.log '
                      '(--pattern allows other names)' % name)
    process, life = int(found['process']), found.groupdict().get('life')
    life = int(life) if life else None
    if process > MOST_PROCESS and not is_numbered_anew:
        raise Refused('%s: process %d is past %d; --renumber renumbers processes' % (name, process, MOST_PROCESS))
    if life and life > MOST_LIFE:
        raise Refused('%s: life %d is past %d' % (name, life, MOST_LIFE))
    return process, life


def _refuse_twins(logs):
    """Refuses two logs of one life: P.log is life 1 of P."""
    first = {}
    for log in logs:
        other = first.setdefault((log.process, log.life or 1), log)
        if other is not log:
            raise Refused('%s and %s are two logs of one life' % (other.name, log.name))


def find(asked):
    """The logs of a folder in the order of a run: by process, then by life. If lives are added, P.log is the log of life 1."""
    logs = []
    for name in _names(asked.folder, asked.pattern):
        process, life = _read_name(name, asked.pattern, asked.renumber)
        logs.append(Log(name, os.path.join(asked.folder, name), process, life))
    _refuse_twins(logs)
    for log in logs:
        if not stat.S_ISREG(os.stat(log.path).st_mode):
            raise Refused('%s is not a file' % log.name)
    if len({log.life is None for log in logs}) == 2 and not asked.lives:
        with_life = next(log for log in logs if log.life is not None)
        without = next(log for log in logs if log.life is None)
        raise Refused('%s has a life, and %s has none: give each of them its life, or say --lives' % (with_life.name, without.name))
    if asked.lives:
        for log in logs:
            log.life = log.life or 1
    return sorted(logs, key=lambda log: (log.process, log.life or 1))


def tell_written(logs):
    """Reports logs that were written since they were measured."""
    for log in logs:
        written = os.stat(log.file).st_mtime_ns
        if written != log.written:
            log.written = written
            tell('%s was written while it was read: copy the files only after the processes have stopped' % log.name)


def check_unwritten(logs):
    """Refuses logs that were written since that report."""
    for log in logs:
        if os.stat(log.file).st_mtime_ns != log.written:
            raise Refused('%s was written while the run was made from it: don\'t use what was made' % log.name)
