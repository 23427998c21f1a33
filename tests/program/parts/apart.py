"""What the sides of a parting did alone: `totem explain --apart`, compared with plain loops over 1,000 random runs and the runs of the rows."""
import random
from functools import partial

from harness import process
from harness import rows as row_files
from harness.apart import apart_lines, delivered_by, message_lines, without_lives
from harness.recordings import World, broken_run, good_run, text_of
from parts.counts import logs_of

RUNS = 1000
# How many random runs are one case.
TOGETHER = 50


class Reunion(World):
    """A run whose processes are together at the beginning and at the end, and deliver nothing at the end. Nobody fails."""

    def chance(self, of_hundred):
        """Nobody fails, stays behind for good, or is quiet: these happen as often as this."""
        return of_hundred not in (10, 12) and super().chance(of_hundred)

    def play(self):
        """The logs."""
        self.merge(len(self.parts))
        for _ in range(self.draw.choice((2, 4, 6))):
            self.merge()
        self.merge(len(self.parts))
        logs = self.run().logs
        for log in logs:
            del log.entries[1 + max(at for at, entry in enumerate(log.entries) if entry.word == 'conf'):]
        return logs


def flaw(program, text):
    """What is wrong with what is apart in a run text."""
    audited, _ = process.run([program, 'audit'], text)
    came, _ = process.run([program, 'explain', '--apart'], text)
    verdict = 'no' if audited.status else 'yes'
    wanted = '\n'.join(apart_lines(logs_of(text), verdict, not text.startswith(b'totem-run 1\n')))
    is_right = (came.status, came.output.decode(), came.errors) == (audited.status, wanted, b'')
    return None if is_right else 'came: %s\n  wanted: %s\n  for: %s' % (came, wanted, text.decode())


def try_random(first, program):
    """What is apart in good runs and in broken ones."""
    for seed in range(first, first + TOGETHER):
        draw = random.Random(seed)
        run = good_run(draw)
        if seed % 2:
            run = broken_run(draw, run)
        wrong = flaw(program, text_of(run.logs, True))
        if wrong:
            return 'seed %d: %s' % (seed, wrong)
    return None


def try_row(text, program):
    """What is apart in the run of a row."""
    return flaw(program, text)


def try_reunions(first, program):
    """In good runs whose processes are together at the beginning and at the end, all is apart that some log lacks."""
    parted = 0
    for seed in range(first, first + TOGETHER):
        logs = Reunion(random.Random(seed)).play()
        text = text_of(logs, False)
        came, _ = process.run([program, 'explain', '--apart'], text)
        lines = came.output.decode().split('\n')
        wanted = message_lines(logs, lambda name: [log.who for log in logs if name not in delivered_by(log)], without_lives)
        parted += bool(wanted)
        if came.status or [line for line in lines if line.startswith('apart ')] != wanted:
            return 'seed %d: came: %s\n  wanted: %s\n  for: %s' % (seed, came, wanted, text.decode())
    return None if parted > TOGETHER // 5 else 'only %d runs in which a log lacks anything' % parted


def apart():
    """What the sides of a parting did alone."""
    for first in range(0, RUNS, TOGETHER):
        yield 'random runs from %d' % first, partial(try_random, first)
        yield 'reunions from %d' % first, partial(try_reunions, first)
    for row in row_files.read_judged():
        yield 'the run of %s' % row.name, partial(try_row, row.given)
