"""The files of logs: one for each life of this node's recorder, which is only ever appended to. Whoever comes next closes the log of a life
that was killed."""
import fcntl
import os
import re
import threading
import time
from datetime import datetime, timezone

from recording.trouble import LifeOver, say

FIRST = '# totem-log 1 sends=taken ends=early transitional=late by=record/1 node=%d pid=%d group=%s sync=%s boot=%s'
OWN_FIRST = re.compile(r'# totem-log 1 .*\bby=record/1 .*\bsync=(yes|no) boot=(\S+)')
# More than any line of an entry has.
TAIL = 4096


def boot():
    """What is the same until the machine starts again."""
    try:
        with open('/proc/sys/kernel/random/boot_id', encoding='ascii') as it:
            return it.read().strip()
    except OSError:
        return 'unknown'


class Clock:
    """The time of day, which never goes back here, whatever is done to the clock."""

    def __init__(self):
        self.begun = time.time() - time.monotonic()

    def now(self):
        """The time as a line has it."""
        return datetime.fromtimestamp(self.begun + time.monotonic(), timezone.utc).strftime('%Y-%m-%dT%H:%M:%S.%fZ')


class LogFile:
    """The log of this life."""

    def __init__(self, folder, me, group, is_synced):
        self.clock = Clock()
        self.is_synced = is_synced
        self.path = os.path.join(folder, '%d.%d.log' % (me.node, me.life))
        # Lines of several threads don't mix, and their times rise.
        self.lock = threading.Lock()
        _close_others(folder, me.node, self.clock)
        try:
            self.descriptor = os.open(self.path, os.O_WRONLY | os.O_CREAT | os.O_APPEND | os.O_EXCL, 0o644)
        except FileExistsError:
            raise LifeOver('%s is there already: another process had the number %d before' % (self.path, me.process)) from None
        fcntl.flock(self.descriptor, fcntl.LOCK_EX)
        _write(self.descriptor, self.path, FIRST % (me.node, me.process, group, 'yes' if is_synced else 'no', boot()))
        _sync_folder(folder)

    def write(self, lines):
        """Appends lines, each with the time."""
        with self.lock:
            now = self.clock.now()
            for line in lines:
                _write(self.descriptor, self.path, '%s %s' % (now, line))

    def sync(self):
        """Returns when what was written is on the disk, if that is asked for."""
        if self.is_synced:
            os.fsync(self.descriptor)


def _write(descriptor, path, text):
    content = (text + '\n').encode()
    try:
        written = os.write(descriptor, content)
    except OSError as error:
        raise OSError(error.errno, error.strerror, path) from error
    if written < len(content):
        raise OSError(0, 'only a part of a line could be written: no space is left', path)


def _sync_folder(folder):
    """Lets the folder know its new file, also after a power failure."""
    descriptor = os.open(folder, os.O_RDONLY)
    try:
        os.fsync(descriptor)
    finally:
        os.close(descriptor)


def _close_others(folder, node, clock):
    """Closes the logs of earlier lives of this node that were killed."""
    for name in sorted(os.listdir(folder)):
        if re.fullmatch(r'%d\.[1-9][0-9]*\.log' % node, name):
            _close(os.path.join(folder, name), clock)


def _close(path, clock):
    """Closes a log with `fail`, if it is that of a life that was killed, and has all of its sends."""
    descriptor = os.open(path, os.O_RDWR | os.O_APPEND)
    try:
        fcntl.flock(descriptor, fcntl.LOCK_EX | fcntl.LOCK_NB)
        size = os.fstat(descriptor).st_size
        tail = os.pread(descriptor, TAIL, max(0, size - TAIL))
        if tail and not tail.endswith(b'\n'):
            say('%s ends in the middle of a line, and stays as it is: join the logs with --torn %s' % (path, _life_of(path)))
        elif tail and tail.split(b'\n')[-2].split(b' ')[1:2] not in ([b'quiet'], [b'fail']):
            _add_failure(path, descriptor, clock)
    except BlockingIOError:
        # (its recorder is alive: it records another group)
        pass
    finally:
        os.close(descriptor)


def _life_of(path):
    return ':'.join(os.path.basename(path).split('.')[:2])


def _add_failure(path, descriptor, clock):
    """Appends `fail`, unless a power failure may have taken sends away."""
    line, configuration = '', None
    with open(path, encoding='ascii', errors='replace') as it:
        first = OWN_FIRST.match(it.readline())
        for line in it:
            words = line.split(' ', 3)
            if words[1:2] == ['conf']:
                configuration = words[2]
    if not first or configuration is None:
        return
    if first[1] == 'no' and first[2] != boot():
        say('%s stays open, since its end may be lost: the machine has started again; join the logs with --torn %s' % (path, _life_of(path)))
        return
    _write(descriptor, path, '%s fail %s' % (max(clock.now(), line.split(' ', 1)[0]), configuration))
    say('%s is closed with `fail`: that life was killed' % path)
