"""A small repository with the launcher and its tools, and a stand-in for `rt`."""
import os
import shutil
import signal
import subprocess
import sys
import tempfile
import time
from contextlib import contextmanager

from harness import process

REPOSITORY = os.path.dirname(os.path.dirname(os.path.dirname(os.path.abspath(__file__))))
STAND_IN = os.path.join(REPOSITORY, 'tests', 'harness', 'rt_stand_in')
with open(os.path.join(REPOSITORY, 'tools', 'proving', 'LOGIC'), encoding='ascii') as named:
    LOGIC = named.read().strip()
CRATES = 'low: itoa\ntotem_auditor: low\nhigh: low\ntotem: low high\n# A crate that no program uses.\nother: low\n'
# What the stand-in builds: it prints its name, its arguments and its input, and ends with a status that nothing else here has.
PROGRAM = '#!/bin/sh\necho "${0##*/} $*"\ncat\nexit 9\n'
ANSWERED = 'a line of the program\nchecked: ended status=1\nraces: not looked for\nrun=ended status=1 runners=1 races=unchecked proved=no\n'
SECONDS = 30


class Scene:
    """A small repository with the launcher, and the folder that controls the stand-in."""

    def __init__(self, folder):
        self.top, self.stand_in = os.path.join(folder, 'top'), os.path.join(folder, 'stand-in')
        self.program = os.path.join(self.top, 'crates', 'totem', 'out', 'totem')
        for it in (self.stand_in, os.path.join(folder, 'bin'), os.path.join(folder, 'room')):
            os.mkdir(it)
        os.makedirs(os.path.join(self.top, 'tools'))
        for it in ('totem', *('tools/' + it for it in ('prove', 'release', 'sources', 'record', 'logs', 'shrink', 'play', 'hunt')), 'HANDLES'):
            shutil.copy(os.path.join(REPOSITORY, it), os.path.join(self.top, it))
        for it in ('proving', 'running', 'recording', 'joining', 'shrinking', 'hunting', 'playing'):
            it = os.path.join('tools', it)
            shutil.copytree(os.path.join(REPOSITORY, it), os.path.join(self.top, it), ignore=shutil.ignore_patterns('__pycache__'))
        shutil.copy(STAND_IN, os.path.join(folder, 'bin', 'rt'))
        self.write('crates.txt', CRATES)
        for name in ('low', 'totem_auditor', 'high', 'totem', 'other'):
            self.write('crates/%s/src/lib.rt' % name, 'fn f() {}\n')
        self.say(version='rattle-kit-0 logic %s\n' % LOGIC, built=PROGRAM, tried=ANSWERED, **{'tried-output': 'verdict no\n'})
        paths = [os.path.join(folder, 'bin'), os.path.dirname(sys.executable), '/usr/bin', '/bin']
        self.environment = {**process.ENVIRONMENT, 'PATH': ':'.join(paths), 'STAND_IN': self.stand_in,
                            'TMPDIR': os.path.join(folder, 'room'), 'TOTEM_MEMORY_MB': '1', 'TOTEM_DISK_MB': '1',
                            'TOTEM_AHEAD_MB': '999999999'}

    def write(self, path, text):
        """Writes a file of the repository."""
        path = os.path.join(self.top, path)
        os.makedirs(os.path.dirname(path), exist_ok=True)
        with open(path, 'w', encoding='utf-8') as it:
            it.write(text)

    def say(self, **files):
        """Sets what the stand-in does from now on."""
        for name, text in files.items():
            with open(os.path.join(self.stand_in, name), 'w', encoding='utf-8') as it:
                it.write(text)

    def told(self, name):
        """The lines of a file of the stand-in."""
        path = os.path.join(self.stand_in, name)
        if not os.path.exists(path):
            return []
        with open(path, encoding='utf-8') as it:
            return it.read().splitlines()

    def start(self, *words, **environment):
        """Starts the launcher in a group of its own."""
        return self.start_tool('totem', *words, **environment)

    def start_tool(self, name, *words, streams=(subprocess.PIPE,) * 3, closed=(), ignored=(), **environment):
        """Starts a file of the repository in a group of its own; the streams with these numbers are closed, these signals ignored."""
        def before():
            # (interrupts are ignored where the tests run in the background of a shell, and hang-ups under `nohup`)
            signal.signal(signal.SIGINT, signal.SIG_DFL)
            signal.signal(signal.SIGHUP, signal.SIG_DFL)
            for number in ignored:
                signal.signal(number, signal.SIG_IGN)
            for number in closed:
                os.close(number)
        return subprocess.Popen([os.path.join(self.top, name), *words], stdin=streams[0], stdout=streams[1], stderr=streams[2],
                                cwd=self.top, env={**self.environment, **environment}, start_new_session=True, preexec_fn=before)

    def run(self, *words, **environment):
        """Runs the launcher to its end."""
        return end(self.start(*words, **environment))

    def run_tool(self, name, *words, **more):
        """Runs a file of the repository to its end."""
        return end(self.start_tool(name, *words, **more))

    def replace(self, name, text):
        """Puts a script before a command in the PATH."""
        place = os.path.join(os.path.dirname(self.stand_in), 'bin', name)
        with open(place, 'w', encoding='utf-8') as it:
            it.write(text)
        os.chmod(place, 0o755)

    def is_slow_at(self):
        """Waits until the stand-in is at the crate for which it takes long. Returns its process."""
        until = time.monotonic() + process.allowed(SECONDS)
        while time.monotonic() < until:
            found = self.told('is-slow')
            if found:
                return int(found[0])
            time.sleep(0.05)
        raise TimeoutError('the stand-in did not come to its slow crate')


def end(started):
    """Gives a started launcher its input, and waits for its end."""
    try:
        output, errors = started.communicate(b'the input\n' if started.stdin else None, process.allowed(SECONDS))
    except subprocess.TimeoutExpired:
        os.killpg(started.pid, signal.SIGKILL)
        output, errors = started.communicate()
        return process.Answer('hangs', output or b'', errors or b'')
    return process.Answer(started.returncode, output or b'', errors or b'')


@contextmanager
def scene(name='scene'):
    """A scene in a folder with this name, which is removed in the end."""
    with tempfile.TemporaryDirectory() as room:
        folder = os.path.join(room, name)
        os.mkdir(folder)
        yield Scene(folder)


def differs(came, status, output, *parts):
    """What is wrong with an answer: its status, its output, or a part that is missing in its errors, in this order."""
    place = 0
    for part in parts:
        place = came.errors.find(part.encode(), place)
        if place < 0:
            return 'the errors lack %r there: %s' % (part, came)
    return None if (came.status, came.output) == (status, output.encode()) else 'came: %s' % came


def left_by(it):
    """What lies in the folder for temporary files."""
    return os.listdir(it.environment['TMPDIR'])
