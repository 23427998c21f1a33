"""`tools/record` over a stand-in for the library of Corosync's closed process groups (`cpg_stand_in.c`): scripts, recorders, and the rules that
each of their logs has to keep."""
import itertools
import os
import re
import signal
import subprocess
import tempfile
import threading
import time

from harness import process

HARNESS = os.path.dirname(os.path.abspath(__file__))
SOURCE = os.path.join(HARNESS, 'cpg_stand_in.c')
TOOL = os.path.join(HARNESS, '..', '..', 'tools', 'record')
COMPILER = os.environ.get('CC', 'cc')
# A disk that other work keeps busy makes each message wait, so logs are in memory where they can be.
MEMORY = '/dev/shm' if os.access('/dev/shm', os.W_OK) else None

# The node of most scripts.
NODE = 5
BEGIN = 'node %d\nview joined self 1 members self\nring %d 25 %d\n' % (NODE, NODE, NODE)
LEAVE = 'await leave\nview left self 2 members\n'
# A member that is alone: all that it sends is delivered, and it can leave.
ALONE = BEGIN + 'echo\n' + LEAVE

TIME = r'[0-9]{4}-[0-9]{2}-[0-9]{2}T[0-9]{2}:[0-9]{2}:[0-9]{2}\.[0-9]{6}Z'
RING = r'[1-9][0-9]*\.[1-9][0-9]*'
FIRST = re.compile(r'# totem-log 1 sends=taken ends=early transitional=late by=record/1 node=([0-9]+) pid=([0-9]+) group=(\S+) sync=(yes|no) boot=(\S+)')
# What an entry of the run text looks like, and what else a line may be.
ENTRY = re.compile(r'conf (?:r{r}|t{r}/[1-9][0-9]*)(?: [1-9][0-9]*:[1-9][0-9]*)+|send r{r} a {r}#[1-9][0-9]*'
                   r'|dlv r{r} {r}#[1-9][0-9]* crc=[0-9a-f]{{8}}|fail r{r}|quiet'.format(r=RING))
LINE = re.compile(r'(%s) (.*)' % TIME)

_groups = itertools.count(1)


class Library:
    """The stand-in, built once when it is needed first, in a folder that is removed at the end."""

    def __init__(self):
        self.lock = threading.Lock()
        self.folder = None

    def build(self):
        """The folder with the library."""
        with self.lock:
            if self.folder is None:
                folder = tempfile.TemporaryDirectory(prefix='stand-in-')  # pylint: disable=consider-using-with
                subprocess.run([COMPILER, '-O2', '-Wall', '-Wextra', '-Werror', '-shared', '-fPIC', '-o',
                                os.path.join(folder.name, 'libcpg.so.4'), SOURCE], check=True)
                self.folder = folder
        return self.folder.name


LIBRARY = Library()


def until(condition, seconds=process.SECONDS):
    """Waits for a condition. Returns whether it came."""
    end = time.monotonic() + process.allowed(seconds)
    while not condition():
        if time.monotonic() > end:
            return False
        time.sleep(0.02)
    return True


def is_running(number):
    """Whether a process runs."""
    try:
        with open('/proc/%d/stat' % number, encoding='ascii', errors='replace') as it:
            return it.read().rpartition(')')[2].split()[0] != 'Z'
    except OSError:
        return False


class Started:
    """A recorder that was started, and what it has said until now."""

    def __init__(self, words, environment, before, streams):
        streams = {'stdin': subprocess.DEVNULL, 'stdout': subprocess.PIPE, 'stderr': subprocess.PIPE, **streams}
        self.process = subprocess.Popen(words, env=environment, start_new_session=True, preexec_fn=before, **streams)
        self.said = {'stdout': b'', 'stderr': b''}
        self.readers = [threading.Thread(target=self._read, args=(name,), daemon=True) for name in self.said if getattr(self.process, name)]
        for reader in self.readers:
            reader.start()

    def _read(self, name):
        stream = getattr(self.process, name)
        while True:
            piece = os.read(stream.fileno(), 65536)
            if not piece:
                return
            self.said[name] += piece

    def says(self, text):
        """Waits until it has said this on standard error."""
        return until(lambda: text.encode() in self.said['stderr'] or self.process.poll() is not None) and text.encode() in self.said['stderr']

    def signal(self, *numbers):
        """Sends it signals."""
        for number in numbers:
            self.process.send_signal(number)

    def end(self, *numbers):
        """What it answers in the end, after these signals."""
        self.signal(*numbers)
        try:
            status = self.process.wait(process.allowed(30))
        except subprocess.TimeoutExpired:
            status = 'hangs'
            self.process.kill()
            self.process.wait()
        for reader in self.readers:
            reader.join(process.allowed(10))
        return process.Answer(status, self.said['stdout'], self.said['stderr'])


class Place:
    """A folder for logs, and the scripts beside it. Recorders that were started here end with it."""

    def __init__(self):
        self.room = tempfile.TemporaryDirectory(prefix='recorded-', dir=MEMORY)  # pylint: disable=consider-using-with
        self.path = os.path.join(self.room.name, 'logs')
        self.group = 'tested-%d-%d' % (os.getpid(), next(_groups))
        self.started = []

    def __enter__(self):
        return self

    def __exit__(self, *_):
        for started in self.started:
            if started.process.poll() is None:
                started.process.kill()
                started.process.wait()
        for number in filter(self._is_own, self.lives()):
            os.kill(number, signal.SIGKILL)
        self.room.cleanup()

    def _is_own(self, number):
        """Whether a process that a script has seen is still there."""
        try:
            with open('/proc/%d/cmdline' % number, 'rb') as it:
                return self.room.name.encode() in it.read()
        except OSError:
            return False

    def start(self, script, *words, given=None, before=None, **streams):
        """Starts a recorder over a stand-in that follows this script. `given`: further variables."""
        name = os.path.join(self.room.name, 'script%d' % (len(self.started) + 1))
        with open(name, 'w', encoding='ascii') as it:
            it.write(script.replace('LOGS', self.path))
        environment = {**process.ENVIRONMENT, 'LD_LIBRARY_PATH': LIBRARY.build(), 'CPG_STAND_IN': name, **(given or {})}
        words = words if '--group' in words else ('--group', self.group, *words)
        words = words if '--logs' in words else ('--logs', self.path, *words)
        self.started.append(Started([TOOL, *words], environment, before, streams))
        return self.started[-1]

    def calls(self, which=1):
        """What recorder `which` has called: for each call the life, the process, and the call with its answer and the rest."""
        try:
            with open(os.path.join(self.room.name, 'script%d.calls' % which), encoding='ascii') as it:
                lines = it.read().split('\n')[:-1]
        except FileNotFoundError:
            return []
        return [(int(life), int(number), call) for life, number, call in (line.split(' ', 2) for line in lines)]

    def lives(self):
        """The processes that recorders have used as lives."""
        return sorted({number for which in range(1, len(self.started) + 1) for _, number, _ in self.calls(which)})

    def goes(self, *begins, which=1, count=1):
        """Waits until a call that begins so was made so many times; with several beginnings, until each was."""
        def is_there():
            made = [call for _, _, call in self.calls(which)]
            return all(sum(call.startswith(begin) for call in made) >= count for begin in begins)
        return until(is_there)

    def go(self, which=1):
        """Lets the script go on after `await go`."""
        with open(os.path.join(self.room.name, 'script%d.go' % which), 'w', encoding='ascii'):
            pass

    def write(self, name, text):
        """Writes a log that is there before."""
        os.makedirs(self.path, exist_ok=True)
        with open(os.path.join(self.path, name), 'w', encoding='ascii') as it:
            it.write(text)

    def text(self, name):
        """The text of a log."""
        with open(os.path.join(self.path, name), encoding='ascii') as it:
            return it.read()

    def names(self):
        """The logs, in the order in which they were made."""
        if not os.path.isdir(self.path):
            return []
        return sorted(os.listdir(self.path), key=lambda name: os.stat(os.path.join(self.path, name)).st_ctime_ns)

    def name(self, number):
        """The name that the log of a process has: the node, and the life as all members tell it."""
        return '%d.%d.log' % (NODE, number % 65535 + 1)

    def entries(self, name):
        """The entries of a log, without times, checksums and comments."""
        found = [LINE.fullmatch(line)[2] for line in self.text(name).split('\n')[1:-1]]
        return [line.split(' crc=')[0] for line in found if not line.startswith('#')]

    def wrong_log(self, name, is_synced=True):
        """What is wrong with the form of a whole log, or None."""
        lines = self.text(name).split('\n')
        first, time = FIRST.fullmatch(lines[0]), ''
        if not first or self.name(int(first[2])) != name or (int(first[1]), first[4]) != (NODE, 'yes' if is_synced else 'no'):
            return '%s begins with %r' % (name, lines[0])
        if lines[-1]:
            return '%s ends in the middle of a line: %r' % (name, lines[-1])
        for number, line in enumerate(lines[1:-1], 2):
            found = LINE.fullmatch(line)
            if not found or not ENTRY.fullmatch(found[2]) and not found[2].startswith('# '):
                return '%s, line %d: %r' % (name, number, line)
            if found[1] < time:
                return '%s, line %d: the time goes back: %s comes after %s' % (name, number, found[1], time)
            time = found[1]
            if found[2].split(' ')[0] in ('quiet', 'fail') and number < len(lines) - 1:
                return '%s, line %d: this is not the last line: %s' % (name, number, found[2])
        return None
