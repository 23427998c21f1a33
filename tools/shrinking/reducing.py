"""Finds few parts of a thing with which a condition still holds: leaves out parts, first in halves and then in ever smaller pieces."""
from concurrent.futures import ThreadPoolExecutor


class Trials:
    """Tries candidates, several in parallel. `holds` returns whether a candidate is acceptable; `key` identifies equal candidates
    (a candidate is not tried twice). `take` is called with each candidate that is taken; which one that is doesn't depend on how many are
    tried in parallel."""

    def __init__(self, holds, key, jobs, take):
        self.holds = holds
        self.key = key
        self.jobs = jobs
        self.take = take
        self.known = {}
        self.pool = ThreadPoolExecutor(jobs)

    def _try(self, candidate):
        key = self.key(candidate)
        if key not in self.known:
            self.known[key] = self.holds(candidate)
        return self.known[key]

    def first(self, makers):
        """Takes the first acceptable candidate. Returns its place, or None. Each maker is called when its turn comes, and may return
        None."""
        makers = list(makers)
        for begin in range(0, len(makers), self.jobs):
            some = [maker() for maker in makers[begin:begin + self.jobs]]
            there = [candidate for candidate in some if candidate is not None]
            told = iter(self.pool.map(self._try, there) if len(there) > 1 else map(self._try, there))
            for place, candidate in enumerate(some):
                if candidate is not None and next(told):
                    self.take(candidate)
                    return begin + place
        return None


def fewest(parts, build, trials):
    """Leaves out as many of the parts as possible: `build` makes a candidate from those that are kept. Returns the parts that stay: no
    candidate without one of them is acceptable."""
    size = max(1, len(parts) // 2)
    while parts:
        begin, found = 0, False
        while begin < len(parts):
            begins = range(begin, len(parts), size)
            taken = trials.first(lambda at=at: build(parts[:at] + parts[at + size:]) for at in begins)
            if taken is None:
                break
            begin = begins[taken]
            parts = parts[:begin] + parts[begin + size:]
            found = True
        if size == 1 and not found:
            return parts
        size = max(1, size // 2)
    return parts
