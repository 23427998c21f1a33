"""What was tried, and what was wrong."""
import time


class Tally:
    """Counts of one part, and the first wrong cases of each of its sweeps."""

    def __init__(self, part, keep_going):
        self.part = part
        self.keep_going = keep_going
        self.tried = self.wrong = self.told = 0
        self.begun = time.monotonic()

    def begin(self):
        """Begins a sweep: its first three wrong cases are printed."""
        self.told = 0

    def fail(self, what, done, came, wanted):
        """Records a wrong case: with what it was tried, what was done, what came, what was expected."""
        self.wrong += 1
        self.told += 1
        if self.told <= 3 or self.keep_going:
            print('WRONG %s, %s, %s' % (self.part, what, done))
            print('  came:   %s\n  wanted: %s' % (came, wanted), flush=True)

    def judge(self, what, done, came, wanted):
        """Counts a case, and records it if something else came than was expected."""
        self.tried += 1
        if came != wanted:
            self.fail(what, done, came, wanted)

    def line(self):
        """The line that closes the part."""
        if not self.tried:
            self.fail('all of it', 'nothing was tried', 'nothing', 'a case at least')
        seconds = time.monotonic() - self.begun
        return '%-12s %7d tried, %d wrong, %6.1f s' % (self.part, self.tried, self.wrong, seconds)
