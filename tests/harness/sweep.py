"""Runs in which the k-th request is refused, for k = 1, 2, .. until a run meets no refusal."""
from concurrent.futures import ThreadPoolExecutor

from harness.process import Answer

# A sweep ends after this many runs that hang.
MOST_HANGING = 3
MEMORY = Answer(3, b'', b'totem: out of memory\n')


class Sweeper:
    """Sweeps over one program after the other."""

    def __init__(self, tally, jobs):
        self.tally = tally
        self.jobs = jobs

    def sweep(self, what, make, name, count, judge, follows=False):
        """Runs `make(name=k)` for each k: up to `count`, in parallel, and then further until a run meets no
        refusal.

        If `follows`, all requests after the k-th are refused too. `judge(ended)` returns what was expected
        if something else came, and None if it is right. Returns how each run ended."""
        hanging = []

        def one(number):
            if len(hanging) >= MOST_HANGING:
                return None
            k = '%d%s' % (number, '+' if follows else '')
            ended = make(**{name: k})
            if ended.answer.status == 'hangs':
                hanging.append(k)
            return k, ended

        self.tally.begin()
        with ThreadPoolExecutor(self.jobs) as pool:
            runs = [run for run in pool.map(one, range(1, count + 1)) if run]
        while (not runs or runs[-1][1].met) and len(hanging) < MOST_HANGING:
            runs.append(one(len(runs) + 1))
        for k, ended in runs:
            self.tally.tried += 1
            wanted = judge(ended)
            if wanted:
                self.tally.fail(what, '%s=%s' % (name, k), ended.answer, wanted)
        if not any(ended.met for _, ended in runs):
            self.tally.fail(what, name, 'nothing was refused', 'a refusal at least')
        return [ended for _, ended in runs]

    def sweep_alone_and_on(self, what, make, name, count, judge):
        """Two sweeps: only the k-th request is refused, and it with all that follow."""
        alone = self.sweep(what, make, name, count, judge)
        return alone + self.sweep(what, make, name, count, judge, follows=True)


def always(own):
    """Expects out of memory at each refusal, and otherwise the own answer."""
    def judge(ended):
        wanted = MEMORY if ended.met else own
        return None if ended.answer == wanted else wanted
    return judge


def one_of(*answers):
    """If something was refused, any of these answers is right; if nothing was, the last of them."""
    def judge(ended):
        right = answers if ended.met else answers[-1:]
        return None if ended.answer in right else ' or '.join(map(str, right))
    return judge
