"""How far a proof is."""
import os
import time

from proving.telling import tell

# About how many seconds a crate takes, and a thousand bytes of its code. Only the estimate of the minutes left uses them.
SECONDS_A_CRATE, SECONDS_A_KILOBYTE = 40, 2.2


def seconds_of(crates):
    """An estimate of how long the crates take, one after the other."""
    return sum(SECONDS_A_CRATE + SECONDS_A_KILOBYTE * it.size / 1000 for it in crates)


class Progress:
    """Which crates are proved, and how long the others may take."""

    def __init__(self, crates, folder):
        self.crates, self.folder = {it.name: it for it in crates}, folder
        self.proved, self.begun, self.since = [], {}, time.monotonic()
        self.lanes = len(os.sched_getaffinity(0))

    def running(self):
        """The crates under way: `rt` has made their output folder, and they are not proved yet."""
        now = time.monotonic()
        for name in self.crates:
            if name not in self.begun and os.path.isdir(os.path.join(self.folder, 'crates', name, 'out')):
                self.begun[name] = now
        return [name for name in self.crates if name in self.begun and name not in self.proved]

    def seconds_left(self):
        """An estimate: the chain that takes longest from here, or the work left divided by the processors, whichever is more."""
        now, left, chain = time.monotonic(), {}, {}
        for name, crate in self.crates.items():
            whole = 0 if name in self.proved else seconds_of([crate])
            left[name] = max(whole - (now - self.begun.get(name, now)), 0)
            chain[name] = left[name] + max((chain[it] for it in crate.below), default=0)
        return max(max(chain.values()), sum(left.values()) / self.lanes)

    def minutes(self, seconds):
        """Minutes for a person."""
        return max(round(seconds / 60), 1)

    def tell_proved(self, name, is_kept):
        """Prints that a crate was proved, what runs now and how long the rest may take."""
        running = self.running()
        front = '%d of %d proved: %s%s' % (len(self.proved), len(self.crates), name, ', earlier' if is_kept else '')
        if len(self.proved) == len(self.crates):
            tell('%s; building and trying the program' % front)
        else:
            now = '; now %s' % ', '.join(running) if running else ''
            tell('%s%s (%d min so far, perhaps %d more)' % (
                front, now, (time.monotonic() - self.since) // 60, self.minutes(self.seconds_left())))
