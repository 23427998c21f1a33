"""Applies a list of changes, as `tools/logs join --changes` writes it, to the logs of a folder: what comes out is the run. This shares no code
with the tool."""
import re
from dataclasses import dataclass, field
from typing import NamedTuple, Optional

FORMS = {name: re.compile(form) for name, form in {
    'line': r'(\S+\.log), line (\d+): left out: (.*)',
    'afterwards': r'(\S+\.log), line (\d+): left out of all logs: (.*)',
    'trimmed': r'(\S+\.log), after line (\d+): left out',
    'log': r'(\S+\.log): left out',
    'made up': r'(\S+\.log), made up: ((?:conf|send|dlv) .*)',
    'moved': r'(\S+\.log), line (\d+): moved to just before line (\d+), as (send \S+ [as] \S+): (.*)',
    'moved to the end': r'(\S+\.log), line (\d+): moved to the end, as (send \S+ [as] \S+): (.*)',
    'inserted': r'(\S+\.log), line (\d+): (conf t\S+ .*) is added before it',
    'earlier': r'(\S+\.log), line (\d+): moved to just before line (\d+): (.*)',
    'inserted earlier': r'(\S+\.log), added before line (\d+): moved to just before line (\d+): (conf t\S+ .*)',
    'later': r'(\S+\.log), line (\d+): (dlv t\S+ \S+) in place of (dlv r\S+ \S+)',
    'added': r'(\S+\.log), end: (fail \S+|conf r\S+ .*|send \S+ a \S+) is added',
    'added no more': r'(\S+\.log), end: left out: (fail \S+|send \S+ a \S+)',
    'ending': r'(\S+\.log), end: (open|failed|quiet) in place of (open|failed|quiet)',
    'member': r'([rt]\S+): member (\d+) is (\d+):(\d+)',
    'process': r'process (\d+) becomes (\d+)',
    'ring': r'ring number (\d+) becomes (\d+)',
}.items()}
# In which order the tool changes a log: what comes first in its file, what it adds and leaves out; then what went out after the end of its
# sender; then changes that go to earlier places; then sends.
EARLIER, SENDS = ('earlier', 'inserted earlier', 'later'), ('moved', 'moved to the end', 'line')


class Unfit(Exception):
    """The list of changes does not fit the logs."""


class Line(NamedTuple):
    """An entry of a log: its line in the file, or None if it was added, and what it says now."""

    number: Optional[int]
    text: str


@dataclass
class File:
    """A log as its file has it, and what is to become of it."""

    name: str
    process: int
    life: int
    # The lines, numbered from 1; the last one may lack its line end.
    lines: list
    is_torn: bool
    ending: str
    # What the log has after the changes so far; what it had at first, before changes went to earlier places, and before sends moved.
    now: list = field(default_factory=list)
    first: list = field(default_factory=list)
    before_ends: Optional[list] = None
    before_earlier: Optional[list] = None
    before_sends: Optional[list] = None
    gone: set = field(default_factory=set)
    # The last line that is kept, together with what is moved to before it.
    last: int = 0
    # By the number of a line that moves: the line before which it goes (None for the end), and what it is then.
    moves: dict = field(default_factory=dict)
    added: list = field(default_factory=list)
    ever_added: list = field(default_factory=list)
    # By the number of a line: the change that is added just before it. Also as these changes are after they went to earlier places.
    inserted: dict = field(default_factory=dict)
    inserted_now: dict = field(default_factory=dict)
    is_left_out: bool = False
    # Whether there is no such file, and whether the log was ever quiet.
    is_made_up: bool = False
    was_quiet: bool = False

    def line(self, number):
        """A line by its number."""
        if not 1 <= number <= len(self.lines):
            raise Unfit('%s has no line %d' % (self.name, number))
        return self.lines[number - 1]

    def place(self, number):
        """Where a line is now."""
        self.line(number)
        for place, line in enumerate(self.now):
            if line.number == number:
                return place
        raise Unfit('%s, line %d is left out already' % (self.name, number))

    def place_before(self, number):
        """The place just before a line, and before what is added there."""
        place = self.place(number)
        while place and self.now[place - 1].number is None:
            place -= 1
        return place

    def keep_copies(self, kind):
        """Keeps what the log has before the first change of a later kind."""
        if kind in ('afterwards', *EARLIER, *SENDS) and self.before_ends is None:
            self.before_ends = list(self.now)
        if kind in EARLIER + SENDS and self.before_earlier is None:
            self.before_earlier = list(self.now)
        if kind in SENDS and self.before_sends is None:
            self.before_sends = list(self.now)

    @property
    def is_trimmed(self):
        """Whether what comes after some line is left out."""
        return self.last > 0

    def _count(self):
        """How many of the lines are kept."""
        return self.place(self.last) + 1 if self.last else len(self.now)

    def is_kept(self, number):
        """Whether what stands at this line comes before the place after which all is left out."""
        return number in [line.number for line in self.now[:self._count()]]

    def kept(self):
        """The lines that are kept."""
        return [line.text for line in self.now[:self._count()]]

    def result(self):
        """The lines that come out."""
        return self.kept() + self.added

    def with_inserted(self):
        """The lines of the file, with the changes that are added to them."""
        return [line.text for line in self.before_earlier]

    def left_behind(self):
        """The lines that come after the last one that is kept, or are moved there."""
        return [line.text for line in self.now[self._count():]]


def read_file(name, text):
    """A log of a folder."""
    found = re.fullmatch(r'(\d+)(?:\.(\d+))?\.log', name)
    lines = text.split('\n')
    is_torn = lines[-1] != ''
    if not is_torn:
        lines.pop()
    ending = 'open'
    if lines and not is_torn and lines[-1] == 'quiet':
        ending = 'quiet'
        lines.pop()
    elif any(line.startswith('fail ') for line in (lines[-2:-1] if is_torn else lines[-1:])):
        ending = 'failed'
    now = [Line(number, line) for number, line in enumerate(lines, 1)]
    return File(name, int(found[1]), int(found[2]) if found[2] else None, lines, is_torn, ending, now, now[:-1] if is_torn else list(now),
                was_quiet=ending == 'quiet')


class Applied:
    """The logs of a folder with a list of changes applied to them."""

    def __init__(self, files, changes, adds_lives):
        self.files = {name: read_file(name, text) for name, text in files.items() if name.endswith('.log')}
        self.there = set(self.files)
        self.adds_lives = adds_lives
        self.lives, self.processes, self.rings = {}, {}, {}
        self.changes = []
        for text in changes.splitlines():
            self._take(text)
        for file in self.files.values():
            file.keep_copies('line')
            if adds_lives:
                file.life = file.life or 1
            if file.is_torn and len(file.lines) not in file.gone and not file.is_left_out:
                raise Unfit('%s: nothing is said of its last line, which is cut off' % file.name)

    def _take(self, text):
        for name, form in FORMS.items():
            found = form.fullmatch(text)
            if found:
                self.changes.append((name, found))
                getattr(self, '_take_' + name.replace(' ', '_'))(*found.groups())
                return
        raise Unfit('a line of no known form: %r' % text)

    def _file(self, name):
        if name not in self.files:
            raise Unfit('there is no %s' % name)
        return self.files[name]

    def _remove(self, name, number, text):
        """Takes a line, which says this, off its place."""
        file, number = self._file(name), int(number)
        place = file.place(number)
        if file.now[place].text != text:
            raise Unfit('%s, line %d is not %r' % (name, number, text))
        return file, file.now.pop(place)

    def _take_line(self, name, number, text):
        file = self._file(name)
        if not (file.is_torn and int(number) == len(file.lines)):
            file.keep_copies('line')
        self._remove(name, number, text)
        file.gone.add(int(number))

    def _take_afterwards(self, name, number, text):
        self._file(name).keep_copies('afterwards')
        self._remove(name, number, text)

    def _take_trimmed(self, name, number):
        file = self._file(name)
        file.place(int(number))
        file.last = int(number)

    def _take_log(self, name):
        self._file(name).is_left_out = True

    def _take_made_up(self, name, text):
        file = self.files.setdefault(name, read_file(name, ''))
        if not file.is_made_up and (name in self.there or file.added):
            raise Unfit('%s is made up, and there is such a file' % name)
        file.is_made_up = True
        file.lines.append(text)
        file.now.append(Line(len(file.lines), text))
        file.first.append(Line(len(file.lines), text))

    def _take_moved(self, name, number, before, new, text):
        self._move(name, number, int(before), new, text)

    def _take_moved_to_the_end(self, name, number, new, text):
        self._move(name, number, None, new, text)

    def _move(self, name, number, before, new, text):
        self._file(name).keep_copies('moved')
        file, line = self._remove(name, number, text)
        if new.split(' ')[2:] != text.split(' ')[2:] or line.number in file.moves:
            raise Unfit('%s: %r became %r' % (name, text, new))
        file.now.insert(len(file.now) if before is None else file.place_before(before), Line(line.number, new))
        file.moves[line.number] = before, new

    def _take_inserted(self, name, number, line):
        file = self._file(name)
        if int(number) in file.inserted:
            raise Unfit('%s: two changes are added before line %s' % (name, number))
        file.now.insert(file.place(int(number)), Line(None, line))
        file.inserted[int(number)] = file.inserted_now[int(number)] = line

    def _take_earlier(self, name, number, before, text):
        self._file(name).keep_copies('earlier')
        file, line = self._remove(name, number, text)
        file.now.insert(file.place(int(before)), line)

    def _take_inserted_earlier(self, name, number, before, text):
        file = self._file(name)
        file.keep_copies('inserted earlier')
        place = file.place(int(number)) - 1
        if file.now[place] != Line(None, text) or file.inserted_now.pop(int(number), None) != text:
            raise Unfit('%s: %r was not added before line %s' % (name, text, number))
        file.now.insert(file.place(int(before)), file.now.pop(place))
        file.inserted_now[int(before)] = text

    def _take_later(self, name, number, new, text):
        self._file(name).keep_copies('later')
        file, place = self._file(name), self._file(name).place(int(number))
        if file.now[place].text != text or new.split(' ')[2] != text.split(' ')[2]:
            raise Unfit('%s, line %s: %r became %r' % (name, number, text, new))
        file.now[place] = Line(int(number), new)

    def _take_added(self, name, line):
        self._file(name).added.append(line)
        self._file(name).ever_added.append(line)

    def _take_added_no_more(self, name, line):
        if line not in self._file(name).added:
            raise Unfit('%s: %r was not added' % (name, line))
        self._file(name).added.remove(line)

    def _take_ending(self, name, new, old):
        file = self._file(name)
        if file.ending != old:
            raise Unfit('%s is %s, not %s' % (name, file.ending, old))
        file.ending = new
        file.was_quiet |= new == 'quiet'

    def _take_member(self, configuration, member, process, life):
        if member != process or self.lives.setdefault((configuration, member), life) != life:
            raise Unfit('%s: member %s has several lives' % (configuration, member))

    def _take_process(self, old, new):
        self.processes[old] = new

    def _take_ring(self, old, new):
        self.rings[old] = new

    def _member(self, file, configuration, word, has_lives):
        """A member as the run writes it."""
        process, _, life = word.partition(':')
        if self.adds_lives and int(process) == file.process:
            life = str(file.life)
        elif self.adds_lives:
            if (configuration, process) not in self.lives:
                raise Unfit('no life is said for member %s of %s' % (process, configuration))
            life = self.lives[configuration, process]
        return self._process(process) + (':' + (life or '1') if has_lives else '')

    def _process(self, process):
        return self.processes.get(process, process)

    def _ring(self, ring):
        number, _, process = ring.partition('.')
        return '%s.%s' % (self.rings.get(number, number), self._process(process))

    def _name(self, word):
        """The name of a configuration or a message, with its new numbers."""
        if word[0] not in 'rt' and '#' not in word:
            return word
        word = re.sub(r'\d+\.\d+', lambda found: self._ring(found[0]), word)
        return re.sub(r'/(\d+)', lambda found: '/' + self._process(found[1]), word)

    def old_names(self):
        """The names that the files have, by those in the run."""
        words = {word for file in self.files.values() for line in file.with_inserted() for word in line.split(' ')[1:] if '.' in word}
        return {self._name(word): word for word in words}

    def _line(self, file, line, has_lives):
        words = line.split(' ')
        names = [words[0], *map(self._name, words[1:])]
        if words[0] == 'conf':
            names[2:] = [self._member(file, words[1], word, has_lives) for word in words[2:]]
        return ' '.join(names)

    def logs(self):
        """The logs that come out, in their order: the name of each file, its lines and its ending, as the files write them."""
        kept = [file for file in self.files.values() if not file.is_left_out]
        return sorted(kept, key=lambda file: (file.process, file.life or 1))

    def text(self):
        """The run that comes out."""
        logs = self.logs()
        version = 3 if any(file.ending == 'quiet' for file in logs) else 2 if any(file.life for file in logs) else 1
        lines = ['totem-run %d' % version]
        for file in logs:
            process = self._process(str(file.process))
            lines.append('log ' + (process if version == 1 else '%s:%d' % (process, file.life or 1)))
            lines += [self._line(file, line, version > 1) for line in file.result()]
            lines.append(file.ending)
        return '\n'.join([*lines, 'end', '']).encode()
