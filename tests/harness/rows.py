"""Rows: what the program is given, and what it has to answer. The folder `rows` has a file for each."""
import os
import subprocess
from dataclasses import dataclass

from harness.process import ENVIRONMENT, Answer

FOLDER = os.path.join(os.path.dirname(os.path.dirname(os.path.abspath(__file__))), 'rows')
REPOSITORY = os.path.dirname(os.path.dirname(FOLDER))
# What begins a line: the arguments ($), the input (<), the arguments of `tools/logs` that make the input (@), the output (>), the
# errors (!), the status (=), and what the output (~) or the errors (?) contain if the row does not give them whole. A backslash
# at the end of a line leaves out its line end. Other lines say what the row is.
MARKS = '$<@>!=~?'
# The commands that read a text.
VERBS = ('audit', 'check', 'explain', 'sim')


@dataclass(frozen=True)
class Row:
    """One row. `answer` is None if the row does not give it whole: then it gives parts of it, or only the status.
    `is_joined`: the input is not in the row, but is made from a folder of logs."""

    name: str
    words: tuple
    given: bytes
    status: int
    answer: object
    output_has: tuple = ()
    errors_have: tuple = ()
    is_joined: bool = False

    @property
    def verb(self):
        """The command of the program."""
        return self.words[0] if self.words else ''

    def is_met_by(self, answer):
        """Whether the program answered what the row gives."""
        if self.answer:
            return answer == self.answer
        return answer.status == self.status and \
            _has(answer.output, self.output_has) and _has(answer.errors, self.errors_have)


def _has(content, parts):
    """Whether the content has all of the parts; if there are none, the content has to be empty."""
    return all(part in content for part in parts) if parts else not content


def _lines(marked, mark):
    """The text of the lines with this mark; each has a line end, unless a backslash ends it."""
    lines = [line[2:] + '\n' for line in marked if line[0] == mark]
    return ''.join(line.removesuffix('\\\n') if line.endswith('\\\n') else line for line in lines).encode()


def _parts(marked, mark):
    """The lines with this mark, one by one."""
    return tuple(line[2:].encode() for line in marked if line[0] == mark)


def _joined(words):
    """What `tools/logs` makes from a folder of the repository."""
    tool = os.path.join(REPOSITORY, 'tools', 'logs')
    return subprocess.run([tool, *words.split()], cwd=REPOSITORY, env=ENVIRONMENT, stdin=subprocess.DEVNULL,
                          stdout=subprocess.PIPE, stderr=subprocess.DEVNULL, check=True).stdout


def read_asked(name):
    """Reads the rows of a file: one for each line of arguments."""
    with open(os.path.join(FOLDER, name + '.row'), encoding='utf-8') as it:
        marked = [line for line in it.read().split('\n') if line and line[0] in MARKS]
    status = int(_lines(marked, '='))
    output, errors = _lines(marked, '>'), _lines(marked, '!')
    answer = Answer(status, output, errors) if output or errors else None
    holds = _parts(marked, '~'), _parts(marked, '?')
    folders = [words.decode() for words in _parts(marked, '@')]
    given = _joined(folders[0]) if folders else _lines(marked, '<')
    for words in _parts(marked, '$'):
        yield Row(name, tuple(words.decode().split()[1:]), given, status, answer, *holds, is_joined=bool(folders))


def read(name):
    """Reads the first row of a file."""
    return next(read_asked(name))


def names():
    """The names of the files, in their order."""
    return [name[:-4] for name in sorted(os.listdir(FOLDER)) if name.endswith('.row')]


def read_texts():
    """Reads the first row of each file in which the program reads a text that the row contains, whatever it answers."""
    return [row for row in map(read, names())
            if row.given and not row.is_joined and row.verb in VERBS and row.status in (0, 1, 2)]


def read_judged():
    """Reads the first row of each file whose input is a run that gets a verdict."""
    return [row for row in map(read, names())
            if row.given and row.verb in ('audit', 'explain') and row.status in (0, 1) and '--script' not in row.words]
