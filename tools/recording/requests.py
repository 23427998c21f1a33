"""What the recorder is asked to do while it runs, by signals and by --for; and waiting for a daemon that is busy or not there."""
import os
import signal
import time

from recording import library
from recording.trouble import Ended, Refused, say
from recording.watch import PATIENCE

# How long it waits at first for a daemon that is not there.
SECONDS_TO_START = 2 * PATIENCE
# Signals that wait in a process that was just started until it can take them.
HELD = (signal.SIGINT, signal.SIGTERM, signal.SIGHUP, signal.SIGALRM, signal.SIGUSR1)
NO_RIGHT = 'no right to use corosync: run this as root, or allow the user in a file of /etc/corosync/uidgid.d: uidgid { uid: %d }'
NO_DAEMON = 'corosync does not answer (%s): is it running on this node? Start it (systemctl start corosync), and then this'


class Requests:
    """Signals of the process that started this one, and the time at which all are to end, if there is one."""

    def __init__(self, ends_at):
        self.ends_at = ends_at
        # How often it was asked to end the recording of all, and whether to leave.
        self.ends, self.leaves = 0, False
        signal.signal(signal.SIGUSR1, self._end)
        signal.signal(signal.SIGTERM, self._leave)
        for number in (signal.SIGINT, signal.SIGHUP):
            signal.signal(number, signal.SIG_IGN)
        signal.pthread_sigmask(signal.SIG_UNBLOCK, HELD)

    def _end(self, *_):
        self.ends += 1

    def _leave(self, *_):
        self.leaves = True

    @property
    def ends_all(self):
        """Whether the recording of all nodes is to end."""
        return self.ends > 0 or self.ends_at is not None and time.monotonic() > self.ends_at

    def wait(self):
        """Waits a little, unless this process is to end."""
        if self.leaves or self.ends_all:
            raise Ended('ended before corosync let it record')
        time.sleep(.1)

    def until(self, call, what):
        """What a call returns when the daemon is no longer too busy for it."""
        told_at = time.monotonic() + PATIENCE
        while True:
            answer = call()
            if answer:
                return answer
            if told_at and time.monotonic() > told_at:
                told_at = None
                say('for %g s corosync has been too busy to %s' % (PATIENCE, what))
            self.wait()

    def connect(self, connection, is_first):
        """Waits for the daemon: at first not for ever, but later until it is there again."""
        begun, is_told = time.monotonic(), False
        while True:
            error = connection.connect()
            if error == library.OK:
                return
            what = 'error %d of libcpg, %s' % (error, library.ERRORS.get(error, 'unknown'))
            if error == library.ACCESS:
                raise Refused(NO_RIGHT % os.geteuid())
            if is_first and time.monotonic() > begun + SECONDS_TO_START:
                raise Refused(NO_DAEMON % what)
            if not is_told:
                is_told = True
                say('waits for corosync (%s)' % what)
            self.wait()
