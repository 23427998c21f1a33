"""Runs programs whose streams are files in memory, and kills those that take too long."""
import os
import resource
import select
import signal
import time
from dataclasses import dataclass

# How long a program may take by default.
SECONDS = 20
# How many bytes of a program's output are read. No row writes more.
MOST_READ = 1 << 26
ENVIRONMENT = {'PATH': '/usr/bin:/bin', 'LANG': 'C.UTF-8'}
# Signals that Python ignores, and a program that a shell starts does not.
DEFAULT_SIGNALS = [signal.SIGPIPE, signal.SIGXFSZ]

_alive = set()
# The factor for the allowed seconds, for a machine that does other work.
_patience = 1


@dataclass(frozen=True)
class Answer:
    """What a program answered: its status ('hangs' or 'signal N' if it has none), its output, its
    errors."""

    status: object
    output: bytes
    errors: bytes

    def __str__(self):
        streams = shown(self.output), shown(self.errors)
        return 'status %s, output %s, errors %s' % (self.status, *streams)


@dataclass(frozen=True)
class Usage:
    """What a run took: seconds, and the most bytes that it held at once. (Some 20 MB are Python's own: the
    system counts the process that starts the program.)"""

    seconds: float
    peak: int


def be_patient(times):
    """From now on programs may take this many times the allowed seconds."""
    global _patience  # pylint: disable=global-statement
    _patience = times


def allowed(seconds):
    """The allowed seconds, times the patience."""
    return seconds * _patience


def shown(content):
    """Bytes for a person, shortened if there are many."""
    return repr(content) if len(content) <= 160 else '%r.. (%d bytes)' % (content[:160], len(content))


def wait(pid, seconds):
    """Waits for a program, and kills it if it takes longer. Its status, and what it took."""
    begun = time.monotonic()
    handle = os.pidfd_open(pid)
    poll = select.poll()
    poll.register(handle, select.POLLIN)
    has_ended = poll.poll(allowed(seconds) * 1000)
    os.close(handle)
    if not has_ended:
        os.kill(pid, signal.SIGKILL)
    _, code, used = os.wait4(pid, 0)
    _alive.discard(pid)
    usage = Usage(time.monotonic() - begun, used.ru_maxrss * 1024)
    if not has_ended:
        return 'hangs', usage
    if os.WIFSIGNALED(code):
        return 'signal %d' % os.WTERMSIG(code), usage
    return os.WEXITSTATUS(code), usage


def start(words, streams, environment=ENVIRONMENT):
    """Starts a program. `streams` are files for its input, output and errors; one that is None is closed."""
    actions = [
        (os.POSIX_SPAWN_CLOSE, number) if file is None else (os.POSIX_SPAWN_DUP2, file, number)
        for number, file in enumerate(streams)
    ]
    pid = os.posix_spawn(words[0], words, environment, file_actions=actions, setsigdef=DEFAULT_SIGNALS)
    _alive.add(pid)
    return pid


def end_all():
    """Kills what still runs."""
    for pid in list(_alive):
        try:
            os.kill(pid, signal.SIGKILL)
        except ProcessLookupError:
            pass


def limit_memory(megabytes):
    """Limits the memory of this process, and of all that it starts: what grows without end is stopped."""
    size = megabytes << 20
    resource.setrlimit(resource.RLIMIT_AS, (size, resource.getrlimit(resource.RLIMIT_AS)[1]))


def run(words, given=b'', environment=ENVIRONMENT, seconds=SECONDS, others=None):
    """Runs a program to its end: its answer, and what it took. Its streams are files in memory; `others`
    maps the numbers of streams to other files, or to None if the program has no such stream."""
    others = others or {}
    files = [os.memfd_create(name) for name in ('input', 'output', 'errors')]
    try:
        os.pwrite(files[0], given, 0)
        streams = [others.get(number, file) for number, file in enumerate(files)]
        status, usage = wait(start(words, streams, environment), seconds)
        return Answer(status, *(os.pread(file, MOST_READ, 0) for file in files[1:])), usage
    finally:
        for file in files:
            os.close(file)
