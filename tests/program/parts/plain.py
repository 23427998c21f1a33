"""Both checkers: `totem check --plain` answers byte for byte as `totem check` does, on the runs of the rows and on random runs. (The rows
of `check` ask both.)"""
import random
from functools import partial

from harness import process
from harness import rows as row_files
from harness.recordings import Run, broken_run, good_run, text_of
from parts import certificates

RUNS = 2000
# How many random runs are one case.
TOGETHER = 500
# The plain checker may take time with the cube of the entries.
MOST_ENTRIES = 400
# The faults that are named first in some of the random runs of a case. (2.4 is so seldom: rows break it.)
FAULTS = {'1.3', '1.4', '2.1', '2.2', '2.3', '3', '4', '5', '6.3', '7.1'}


def is_ready(logs, heads, event):
    """Whether each log that has this event has it next and, if it is a delivery, its message is sent before."""
    word, name = event
    if word in ('conf', 'dlv') and any(event in entries[at:] and entries[at] != event for (_, entries), at in zip(logs, heads)):
        return False
    return word != 'dlv' or not any(('send', name) in entries[at:] for (_, entries), at in zip(logs, heads))


def certificate_of(logs):
    """A line for each log. As far as there is an order that fits all logs, the numbers are one; the entries after that get numbers log by
    log."""
    heads, numbers, last = [0] * len(logs), [[] for _ in logs], 0
    while True:
        waiting = [(index, entries[at]) for index, ((_, entries), at) in enumerate(zip(logs, heads)) if at < len(entries)]
        first = next(((index, event) for index, event in waiting if is_ready(logs, heads, event)), None)
        if first is None:
            break
        last += 1
        for index, event in waiting:
            if index == first[0] or event == first[1] and event[0] in ('conf', 'dlv'):
                numbers[index].append(last)
                heads[index] += 1
    for (_, entries), row in zip(logs, numbers):
        while len(row) < len(entries):
            last += 1
            row.append(last)
    return [(name, row) for (name, _), row in zip(logs, numbers)]


def answers(program, given):
    """The checker's answer, or what is wrong with that of the plain one."""
    wanted, _ = process.run([program, 'check'], given)
    came, _ = process.run([program, 'check', '--plain'], given)
    return wanted, None if came == wanted else 'came:   %s\n  wanted: %s\n  of %r' % (came, wanted, given)


def try_run(run, program):
    """Both checkers read a run with a certificate that fits it, if any does."""
    logs = certificates.logs_of(run)
    return answers(program, run + certificates.text_of(min(int(run.split()[1]), 2), certificate_of(logs)))[1]


def lacking_run(draw, run):
    """The run without one delivery or two."""
    logs = [log.copy() for log in run.logs]
    deliveries = [(log, entry) for log in logs for entry in log.entries if entry.word == 'dlv']
    for log, entry in draw.sample(deliveries, min(len(deliveries), draw.choice((1, 1, 2)))):
        log.entries.remove(entry)
    return Run(logs, run.times)


def random_run(seed, draw):
    """A good run, one that is broken anywhere, or one that lacks deliveries, in turn."""
    run = good_run(draw)
    if seed % 3 == 1:
        return broken_run(draw, run)
    return lacking_run(draw, run) if seed % 3 == 2 else run


def try_random(first, program):
    """Random runs, good and broken, with certificates that fit them and changed ones; each fault is named for some run."""
    named = set()
    for seed in range(first, first + TOGETHER):
        draw = random.Random(seed)
        text = text_of(random_run(seed, draw).logs, True)
        lines = certificate_of(certificates.logs_of(text))
        if seed % 8 == 7:
            lines = certificates.changed(draw, lines)
        answer, wrong = answers(program, text + certificates.text_of(2, lines))
        if wrong:
            return 'seed %d: %s' % (seed, wrong)
        if answer.status == 1:
            named.add(answer.output.split()[3].decode())
    return None if named >= FAULTS else 'no run is broken first in %s' % ', '.join(sorted(FAULTS - named))


def plain():
    """The plain checker beside the other one."""
    for name in row_files.names():
        row = row_files.read(name)
        is_run = row.given and row.verb in ('audit', 'explain') and '--script' not in row.words
        if is_run and row.status in (0, 1) and row.given.count(b'\n') <= MOST_ENTRIES:
            yield 'the run of %s' % name, partial(try_run, row.given)
    for first in range(0, RUNS, TOGETHER):
        yield 'random runs from %d' % first, partial(try_random, first)
