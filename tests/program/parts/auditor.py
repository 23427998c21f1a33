"""The auditor alone, with the inputs of the whole program."""
import os
import tempfile
from functools import partial

from harness import process
from harness import rows as row_files

REPOSITORY = os.path.dirname(os.path.dirname(os.path.dirname(os.path.dirname(os.path.abspath(__file__)))))
BUILT = os.path.join(REPOSITORY, 'crates', 'totem_auditor', 'out', 'totem_auditor')
# Help prints the name by which a program is called, so the auditor is called by that of the whole program, as `./totem` does.
ROOM = tempfile.TemporaryDirectory()
AUDITOR = os.path.join(ROOM.name, 'totem')
os.symlink(BUILT, AUDITOR)
LACKING = process.Answer(64, b'', b'totem: this is the auditor alone: sim, run and explain --script need the whole program (./totem prove builds it)\n')


def asks_for_run(words):
    """Whether these arguments, if they are valid, ask for a run or a script."""
    return '--help' not in words and (words[:1] in (('sim',), ('run',)) or (words[:1] == ('explain',) and '--script' in words))


def try_words(words, given, program):
    """The auditor answers as the program does; if a run is wanted it says that it makes none."""
    came, _ = process.run([AUDITOR, *words], given)
    if asks_for_run(words) and came == LACKING:
        return None
    wanted, _ = process.run([program, *words], given)
    return None if came == wanted else 'came:   %s\n  wanted: %s' % (came, LACKING if asks_for_run(words) else wanted)


def try_lacking(words, _program):
    """These arguments get the auditor's line."""
    came, _ = process.run([AUDITOR, *words])
    return None if came == LACKING else 'came: %s' % came


def auditor():
    """The arguments and the input of each row, help for each command, and the arguments that ask for a run."""
    if not os.access(BUILT, os.X_OK):
        yield 'it is there', lambda _program: '%s is not there: `rt ci` builds it' % BUILT
        return
    for name in row_files.names():
        for row in row_files.read_asked(name):
            yield '%s: totem_auditor %s' % (name, ' '.join(row.words)), partial(try_words, row.words, row.given)
    for verb in ('audit', 'check', 'explain', 'sim', 'run', 'help'):
        yield 'help ' + verb, partial(try_words, ('help', verb), b'')
    for words in (('sim',), ('run', '--nodes', '3'), ('run', '--lose', '60', '--repeat', '60'), ('explain', '--script')):
        yield 'no run: ' + ' '.join(words), partial(try_lacking, words)
