"""The first look for real: the commands of README.md, the one that answers in a copy of the sources in which nothing is built."""
import os
import shlex
import shutil
import tempfile

from harness import process

REPOSITORY = os.path.dirname(os.path.dirname(os.path.dirname(os.path.dirname(os.path.abspath(__file__)))))
# What README.md shows.
REPORT = b'verdict yes\ntotem-cert 1\npos 1 1 2 3\npos 2 1 3\nend\n'
SECONDS = 180


def command_after(words):
    """The first command of README.md behind these words."""
    with open(os.path.join(REPOSITORY, 'README.md'), encoding='utf-8') as it:
        lines = it.read().partition(words)[2].split('\n')
    return next(line[4:] for line in lines if line.startswith('    '))


def look(_program):
    """The answer is the report, with NOT PROVED before and after it."""
    words, given = command_after('**The command that answers**').split(' < ')
    with tempfile.TemporaryDirectory() as top:
        for name in ('totem', 'crates.txt', 'HANDLES'):
            shutil.copy(os.path.join(REPOSITORY, name), top)
        for name in ('crates', 'tools'):
            shutil.copytree(os.path.join(REPOSITORY, name), os.path.join(top, name), ignore=shutil.ignore_patterns('out', 'must-fail'))
        with open(os.path.join(REPOSITORY, given), 'rb') as it:
            given = it.read()
        command, *words = shlex.split(words)
        came, _ = process.run([os.path.join(top, command), *words], given, os.environ, SECONDS)
    lines = came.errors.splitlines()
    is_told = len(lines) == 2 and all(it.startswith(b'totem: NOT PROVED') for it in lines)
    return None if (came.status, came.output) == (0, REPORT) and is_told else 'came: %s' % came


def look_at_tests(program):
    """README.md names the gate as what passes the tests, and the gate runs the tests of the program, which pass for the worked examples."""
    gate = command_after('**The command that passes the tests:**')
    tests = command_after('passes all tests, in an hour')
    with open(os.path.join(REPOSITORY, gate), encoding='utf-8') as it:
        is_gate = tests in it.read()
    came, _ = process.run([os.path.join(REPOSITORY, tests), '--program', program, '--patience', '6', 'rows'], b'', os.environ, SECONDS)
    is_right = is_gate and came.status == 0 and came.output.endswith(b' passed, 0 failed\n')
    return None if is_right else '%s, %s: %s' % (gate, tests, came)


def first_look():
    """The commands of README.md; the first one takes some minutes, and needs the kit."""
    yield 'the command that answers', look
    yield 'the command that passes the tests', look_at_tests
