"""Names of nodes, which the tools put beside the numbers of processes (`--names`, and `tools/logs name` in an explanation)."""
import os
import tempfile
from functools import partial

from harness import process

from parts.joined import write_files
from parts.shrunk import call

FILES = {
    'names': '# nodes\n1 db-west\n\n 2  db east \n4 b < c of the west & east\n',
    'script': 'totem-script 1\nring 4.1 1 2 3\nend\n',
    'map': 'totem-map 1\nlog 2:1 01234567 2.1.log\n1 1\nlog 3:1 01234567 3.1.log\n1 1\nend\n',
    'run': 'totem-run 2\nlog 2:1\nconf r4.2 2:1 3:1\ndlv r4.2 4.2#1\nopen\nlog 3:1\nconf r4.2 2:1 3:1\nopen\nend\n',
    'twice': '1 a\n2 b\n1 c\n', 'nameless': '1 a\n2\n', 'life': '2:1 a\n', 'word': 'db-west\n',
}
# The words of a tool, its status, and what its output and its errors have.
NAMED = {
    'a script': ('play --names names script', 0, '\n  node 1 (db-west): Operational, ', ''),
    'a process without a name': ('play --names names script', 0, '\n  node 3: Operational, ', ''),
    'a place': ('logs where --names names map 2:1@1', 0, '2:1@1 (db east): 2.1.log, line 1\n', ''),
    'a place without a name': ('logs where --names names map 3:1@1', 0, '3:1@1: 3.1.log, line 1\n', ''),
    'the explanation of a small run': ('shrink --program PROGRAM --names names run', 0, '', '\n  1@2  process 1 (db east) delivered 4.1#1 in r4.1\n'),
    'new names': ('shrink --program PROGRAM --names names run', 0, '', '\n  process 1  process 2:1 (db east)\n'),
    'names that are kept': ('shrink --program PROGRAM --keep-names --names names run', 0, '', '  process 2:1 (db east) delivered 4.2#1 in r4.2\n'),
}
# What of an explanation becomes what.
EXPLAINED = {
    'one process': ('  1:1@3  process 1:1 delivered 4.1#1\n', '  1:1@3  process 1:1 (db-west) delivered 4.1#1\n'),
    'several, in two lines': ('Processes 2, 3\n      and 1 went\n', 'Processes 2 (db east), 3\n      and 1 (db-west) went\n'),
    'one that is waited for': ('  process 3 is in r4.1 and waits for 1, which went on\n', '  process 3 is in r4.1 and waits for 1 (db-west), which went on\n'),
    'counts': ('processes 2, transitional deliveries 1\n', 'processes 2, transitional deliveries 1\n'),
    'the membership': ('r1.2, members 1 2 3\n  began here: 1 3\n', 'r1.2, members 1 (db-west) 2 (db east) 3\n  began here: 1 (db-west) 3\n'),
    'columns': ('  log 1                 log 3\n      1  conf r4.1 1 2\n', '  log 1 (db-west)       log 3\n      1  conf r4.1 1 2\n'),
    'columns without room': ('  log 1:1  log 2:1\n', '  log 1:1 (db-west)  log 2:1 (db east)\n'),
    'a lane of a picture': (
        "<svg >\n<text x='16' y='70'>process 1:1</text>\n<text x='16' y='84'>open</text>\n",
        "<svg >\n<text x='16' y='56'><title>db-west</title>db-west</text>\n<text x='16' y='70'>process 1:1</text>\n<text x='16' y='84'>open</text>\n"),
    'a lane of a long name': (
        "<svg >\n<text x='16' y='70'>process 4</text>\n",
        "<svg >\n<text x='16' y='56'><title>b &lt; c of the west &amp; east</title>b &lt; c of th..</text>\n<text x='16' y='70'>process 4</text>\n"),
    'a lane without a name': ("<svg >\n<text x='16' y='70'>process 3</text>\n", "<svg >\n<text x='16' y='70'>process 3</text>\n"),
    'a sentence of a picture': ('<svg >\n<title>4@1: process 4 failed</title>\n', '<svg >\n<title>4@1: process 4 (b &lt; c of the west &amp; east) failed</title>\n'),
    'bytes that are no text': ('process 2 \udcff\n', 'process 2 (db east) \udcff\n'),
}
SAYS = ': argument --names: '
LINE = ': a line is a number of a process and a name, such as `2 db-west`\n'
WRONG = {
    'no file': ('none', SAYS + 'none: No such file or directory\n'),
    'two names of one process': ('twice', SAYS + 'twice, line 3: process 1 has two names\n'),
    'no name': ('nameless', SAYS + 'nameless, line 2' + LINE),
    'a life': ('life', SAYS + 'life, line 1' + LINE),
    'no number': ('word', SAYS + 'word, line 1' + LINE),
}


def ask(words, program, given=b''):
    """The answer of a tool to an input, called in a folder with the files."""
    with tempfile.TemporaryDirectory() as folder:
        write_files(folder, FILES)
        tool, *rest = words.split()
        return call(tool, [program if word == 'PROGRAM' else word for word in rest], given, folder=folder)


def show(words, status, output, errors, program):
    """The tool shows a name, or none."""
    came = ask(words, program)
    is_right = came.status == status and output.encode() in came.output and errors.encode() in came.errors
    return None if is_right else 'came: %s' % came


def explained(given, wanted, program):
    """An explanation gets names, and nothing else in it changes."""
    came = ask('logs name names', program, os.fsencode(given))
    return None if came == process.Answer(0, os.fsencode(wanted), b'') else 'came: %s' % came


def explained_to(place, program):
    """Names can't be written there: a line says so, and the status is 4."""
    with tempfile.TemporaryDirectory() as folder, open(place, 'wb') as full:
        write_files(folder, FILES)
        came = call('logs', ['name', 'names'], b'process 1\n', full, folder)
    return None if (came.status, came.errors) == (4, b'logs: write failed\n') else 'came: %s, by %s' % (came, program)


def refuse(name, said, program):
    """A file that has no names is a usage error, and its line is named."""
    came = ask('logs name %s' % name, program)
    if (came.status, came.output) != (64, b'') or not came.errors.endswith(said.replace('--names', 'FILE').encode()):
        return 'came: %s' % came
    for words in ('play --names %s script', 'logs where --names %s map 2:1@1', 'shrink --program PROGRAM --names %s run'):
        came = ask(words % name, program)
        if (came.status, came.output) != (64, b'') or not came.errors.endswith(said.encode()):
            return 'came: %s' % came
    return None


def named():
    """Names that are shown, and files that have none."""
    for what, given in NAMED.items():
        yield what, partial(show, *given)
    for what, given in EXPLAINED.items():
        yield 'an explanation: ' + what, partial(explained, *given)
    yield 'an explanation that can not be written', partial(explained_to, '/dev/full')
    for what, given in WRONG.items():
        yield what, partial(refuse, *given)
