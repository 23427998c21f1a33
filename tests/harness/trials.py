"""Runs over broken texts, and what is wrong with their answers. Several processes make them; each sends
back what it found."""
import multiprocessing
import re
import signal
import sys
from collections import Counter
from dataclasses import dataclass, field
from multiprocessing.connection import wait

from harness import process
from harness.forms import flaw

SECONDS = 10
# The memory that a run may take: a base, of which some 20 MB are Python's own, and a number of bytes for each
# byte of its input.
MOST_MEMORY = 48 << 20
MEMORY_PER_BYTE = 200
# The memory limit of the program: far above what counts as wrong, but it stops what grows without end.
MEGABYTES_GIVEN = 4096
# No more cases are tried after this many that hang.
MOST_HANGING = 3
# How many cases a process tries before it reports, and how long that may take.
CASES_AT_ONCE = 100
SECONDS_FOR_A_PART = 120
# How often cases without a report are tried.
MOST_ROUNDS = 3


@dataclass(frozen=True)
class Case:
    """A text for the program: its row, what was done to it, and the arguments."""

    row: str
    done: str
    words: tuple
    text: bytes


@dataclass
class Found:
    """The results of some cases: how many of each command and status, what was wrong, the most that a run took."""

    statuses: Counter = field(default_factory=Counter)
    wrong: list = field(default_factory=list)
    seconds: float = 0.0
    peak: int = 0
    hanging: int = 0

    def add(self, other):
        """Adds the results of other cases."""
        self.statuses.update(other.statuses)
        self.wrong += other.wrong
        self.hanging += other.hanging
        self.note(other.seconds, other.peak)

    def note(self, seconds, peak):
        """Records what a run took."""
        self.seconds, self.peak = max(self.seconds, seconds), max(self.peak, peak)

    def tell(self, what, tally):
        """Adds to the counts of the part, prints what was wrong, and sums up."""
        tally.begin()
        tally.tried += sum(self.statuses.values())
        for case, came, wanted in self.wrong:
            done = '%s: totem %s, given %r' % (case.done, ' '.join(case.words), case.text[:3000])
            tally.fail('row ' + case.row, done, came, wanted)
        if not self.statuses:
            tally.fail(what, 'no case at all', 'nothing', 'a case at least')
        counts = ', '.join(sorted('%s %s: %d' % (*key, count) for key, count in self.statuses.items()))
        print('  %s: status of %s' % (what, counts))
        print('  %s: at most %.2f s and %d MB' % (what, self.seconds, self.peak >> 20), flush=True)


class Trial:
    """Runs the program over texts."""

    def __init__(self, program):
        self.program = program
        self.found = Found()

    def answer(self, case):
        """Runs the program. If it hangs, takes too much, or answers in no known form, records that as wrong
        and returns None."""
        answer, usage = process.run([self.program, *case.words], case.text, seconds=SECONDS)
        self.found.note(usage.seconds, usage.peak)
        self.found.hanging += answer.status == 'hangs'
        most = MOST_MEMORY + MEMORY_PER_BYTE * len(case.text)
        wanted = flaw(case.words, answer)
        if not wanted and usage.peak > most:
            wanted = 'at most %d MB of memory, not %d' % (most >> 20, usage.peak >> 20)
        if wanted:
            self.found.wrong.append((case, answer, wanted))
        return None if wanted else answer

    def tried(self, case):
        """Counts the case, and runs it."""
        answer = self.answer(case)
        self.found.statuses[case.words[0], answer.status if answer else 'wrong'] += 1
        return answer

    def wants(self, case, answer, is_right, wanted):
        """Records the answer as wrong if it isn't right."""
        if answer and not is_right:
            self.found.wrong.append((case, answer, wanted))


class Stuck(Exception):
    """Processes that try cases ended, or reported nothing for too long, again and again."""


def _try_share(share, program, try_case, told):
    """Tries the cases of a share, and reports what each part of them finds. What it starts ends with it."""
    process.limit_memory(MEGABYTES_GIVEN)
    signal.signal(signal.SIGINT, signal.SIG_IGN)
    signal.signal(signal.SIGTERM, lambda *_: (process.end_all(), sys.exit(1)))
    for part in share:
        trial = Trial(program)
        for number in part:
            if trial.found.hanging < MOST_HANGING:
                try_case(trial, number)
        told.send((part, trial.found))


def _gather(readers, left, found):
    """Adds what the processes report, and takes these parts off those that are left, until no process reports anything
    more, or too much hangs. Each process has a pipe of its own and shares no lock: so the end of a process is seen, and
    none can delay another."""
    while readers and found.hanging < MOST_HANGING:
        ready = wait(readers, timeout=process.allowed(SECONDS_FOR_A_PART))
        if not ready:
            return
        for reader in ready:
            try:
                part, came = reader.recv()
            except (EOFError, OSError):
                readers.remove(reader)
                continue
            left.remove(part)
            found.add(came)


def _try_parts(jobs, left, found, *given):
    """Tries the parts that are left, in this many processes."""
    context = multiprocessing.get_context('fork')
    readers, workers = [], []
    try:
        for number in range(jobs):
            reader, told = context.Pipe(duplex=False)
            worker = context.Process(target=_try_share, args=(left[number::jobs], *given, told))
            worker.start()
            told.close()
            workers.append(worker)
            readers.append(reader)
        _gather(readers, left, found)
    finally:
        for worker in workers:
            worker.terminate()
            worker.join(SECONDS)
            worker.kill()


def side_by_side(jobs, program, try_case, count):
    """Calls `try_case(trial, number)` for the numbers below `count`, in this many processes. Returns what they find. If
    somebody killed a process, or it is stuck, its parts are tried again, a limited number of times."""
    found = Found()
    left = [range(at, min(at + CASES_AT_ONCE, count)) for at in range(0, count, CASES_AT_ONCE)]
    for _ in range(MOST_ROUNDS):
        _try_parts(jobs, left, found, program, try_case)
        if not left or found.hanging >= MOST_HANGING:
            return found
        print('  a process that tries cases ended or was stuck: %d parts are tried again' % len(left), flush=True)
    raise Stuck('%d parts of the cases were never told of' % len(left))


def left_open(report):
    """The lines of a report that list what is pending, and who waits."""
    return re.findall(rb'(?m)^(?:pending|waiting) .*$', report)


def faults(text):
    """The lines of a report, or of an explanation, that name faults."""
    return re.findall(rb'(?m)^fault .*$', text)
