"""Signals that end the tools, and how what they start ends with them."""
import ctypes
import os
import signal
from contextlib import contextmanager

# An interrupt, a request to end, and a terminal that is closed.
ENDING = (signal.SIGINT, signal.SIGTERM, signal.SIGHUP)
# The option of prctl for the signal that a process gets when the one that started it has ended.
PR_SET_PDEATHSIG = 1
_LIBC = ctypes.CDLL(None, use_errno=True)


# Those that are ignored here (`nohup`, or a shell's background).
_IGNORED = [number for number in ENDING if signal.getsignal(number) == signal.SIG_IGN]


# Whether the tool ends already. (A handler that is taken away may be missed by a signal that has come before; so handlers stay, and look here.)
_is_ending = False


def on_ending(handler):
    """From now on calls the handler at each signal that ends a tool, except those that are ignored here."""
    global _is_ending  # pylint: disable=global-statement
    _is_ending = False

    def handle(*given):
        if not _is_ending:
            handler(*given)

    for number in ENDING:
        if number not in _IGNORED:
            signal.signal(number, handle)


def _end_at_once(number, _):
    signal.signal(number, signal.SIG_DFL)
    os.kill(os.getpid(), number)


def end_as_usual():
    """Lets these signals end the tool at once."""
    on_ending(_end_at_once)


def ignore_ending():
    """Ignores these signals from now on: what is left to do takes no time."""
    global _is_ending  # pylint: disable=global-statement
    _is_ending = True


def ignore_to_the_end():
    """Ignores these signals until this process has ended: nothing is left to do."""
    ignore_ending()
    # (those that have come are handled before they are held)
    with held():
        for number in ENDING:
            signal.signal(number, signal.SIG_IGN)


@contextmanager
def held():
    """Lets these signals wait: a process that is started meanwhile gets none before it says `release`."""
    before = signal.pthread_sigmask(signal.SIG_BLOCK, ENDING)
    try:
        yield
    finally:
        signal.pthread_sigmask(signal.SIG_SETMASK, before)


def release():
    """Lets these signals come."""
    signal.pthread_sigmask(signal.SIG_UNBLOCK, ENDING)


def interrupt(*_):
    """Ends what runs, as an interrupt does; a second signal doesn't end the clearing up."""
    ignore_ending()
    raise KeyboardInterrupt


def end_with_parent(number=signal.SIGTERM, parent=None):
    """Lets the system send this process a signal when the process that started it ends, however that ends."""
    _LIBC.prctl(PR_SET_PDEATHSIG, int(number), 0, 0, 0)
    if parent is not None and os.getppid() != parent:
        os.kill(os.getpid(), number)
