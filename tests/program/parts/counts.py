"""What runs put to the test: `totem explain --counts`, compared with plain loops over 1,000 random runs and the runs of the rows."""
import random
from functools import partial

from harness import process
from harness import rows as row_files
from harness.counted import counted
from harness.recordings import Entry, Log, broken_run, good_run, text_of

RUNS = 1000
# How many random runs are one case.
TOGETHER = 50


def entry_of(words):
    """The entry of a line of a run text."""
    word, configuration = words[:2]
    if word == 'conf':
        return Entry(word, configuration, tuple(who_of(it) for it in words[2:]))
    service = words[2] if word == 'send' else ''
    return Entry(word, configuration, (), service, words[-1] if word in ('send', 'dlv') else '')


def who_of(text):
    """A process and its life."""
    process_number, _, life = text.partition(':')
    return int(process_number), int(life or 1)


def logs_of(text):
    """The logs of a run text that the program accepts."""
    logs = []
    for line in text.decode().split('\n')[1:-2]:
        words = line.split(' ')
        if words[0] == 'log':
            logs.append(Log(*who_of(words[1])))
        elif len(words) == 1:
            logs[-1].ending = line
        else:
            logs[-1].entries.append(entry_of(words))
    return logs


def flaw(program, text):
    """What is wrong with the counts of a run text."""
    audited, _ = process.run([program, 'audit'], text)
    came, _ = process.run([program, 'explain', '--counts'], text)
    lines = audited.output.decode().split('\n')
    stopped = lines[1].split(' ')[1] if audited.status == 1 else None
    wanted = ''.join('count %s %d\n' % it for it in counted(logs_of(text), stopped))
    is_right = (came.status, came.output.decode(), came.errors) == (audited.status, wanted, b'')
    return None if is_right else 'came: %s\n  wanted: %r\n  for: %r' % (came, wanted, text)


def try_random(first, program):
    """The counts of good runs and of broken ones."""
    for seed in range(first, first + TOGETHER):
        draw = random.Random(seed)
        run = good_run(draw)
        if seed % 2:
            run = broken_run(draw, run)
        wrong = flaw(program, text_of(run.logs, True))
        if wrong:
            return 'seed %d: %s' % (seed, wrong)
    return None


def try_row(text, program):
    """The counts of the run of a row."""
    return flaw(program, text)


def counts():
    """The counts of runs."""
    for first in range(0, RUNS, TOGETHER):
        yield 'random runs from %d' % first, partial(try_random, first)
    for row in row_files.read_judged():
        yield 'the run of %s' % row.name, partial(try_row, row.given)
