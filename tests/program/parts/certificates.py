"""Changed certificates, and what both checkers say about them: here the five tests of a certificate compare every pair of entries."""
import os
import random
from functools import partial
from itertools import combinations

from harness import process
from parts.texts import EXAMPLES

RUNS = ('first-yes.run', 'parted.run', 'process-that-comes-back.run', 'shut-down-in-order.run')
SCRIPTS = ('partition-that-heals.script', 'process-that-returns.script', 'safe-message-that-waits.script',
           'token-that-comes-twice.script')
# How many changed certificates are tried for each run.
CHANGES = 400
CERTIFICATE = b'totem-cert '


def logs_of(run):
    """The logs of a run's text: a process, and for each of its entries what it does, and the name of the configuration or message."""
    logs = []
    for line in run.decode().splitlines():
        words = line.split(' ')
        if words[0] == 'log':
            logs.append((words[1], []))
        elif words[0] in ('conf', 'fail'):
            logs[-1][1].append((words[0], words[1]))
        elif words[0] in ('send', 'dlv'):
            logs[-1][1].append((words[0], words[-1]))
    return logs


def lines_of(certificate):
    """The lines of a certificate's text: a process, and its numbers."""
    lines = [line.split(' ') for line in certificate.decode().splitlines() if line.startswith('pos ')]
    return [(words[1], [int(word) for word in words[2:]]) for words in lines]


def text_of(version, lines):
    """The text of these lines."""
    rows = ['pos %s %s' % (process_, ' '.join(map(str, numbers))) for process_, numbers in lines]
    return '\n'.join(['totem-cert %d' % version, *rows, 'end', '']).encode()


def are_one_class(one, other):
    """Whether two entries change to one configuration, or deliver one message."""
    return one == other and one[0] in ('conf', 'dlv')


def fault_of(logs, lines):
    """The first test that the numbers fail, by its number and name, or None if they certify the run."""
    if [(name, len(entries)) for name, entries in logs] != [(name, len(numbers)) for name, numbers in lines]:
        return b'1 Count'
    if any(first >= later for _, numbers in lines for first, later in combinations(numbers, 2)):
        return b'2 NotRising'
    events = [event for (_, entries), (_, numbers) in zip(logs, lines) for event in zip(entries, numbers)]
    pairs = list(combinations(events, 2))
    if any(one[0][0] == 'send' and other[0] == ('dlv', one[0][1]) and one[1] >= other[1]
           for pair in pairs for one, other in (pair, pair[::-1])):
        return b'3 SendNotBefore'
    if any(are_one_class(one, other) and number != another for (one, number), (other, another) in pairs):
        return b'4 TwinsDiffer'
    if any(number == another and not are_one_class(one, other) for (one, number), (other, another) in pairs):
        return b'5 SharedPosition'
    return None


def changed(rng, lines):
    """The lines with one change, or two. Changes that no certificate's text can express are left out."""
    lines = [(name, list(numbers)) for name, numbers in lines]
    for _ in range(rng.randint(1, 2)):
        _, numbers = rng.choice(lines)
        at = rng.randrange(len(numbers))
        everything = [number for _, some in lines for number in some]
        kind = rng.randrange(7)
        if kind == 0:
            numbers[at] = max(1, numbers[at] + rng.choice((-2, -1, 1, 2)))
        elif kind == 1:
            numbers[at] = rng.choice(everything)
        elif kind == 2 and at:
            numbers[at - 1], numbers[at] = numbers[at], numbers[at - 1]
        elif kind == 3 and len(everything) > 1:
            pair = rng.sample(everything, 2)
            other = dict(zip(pair, pair[::-1]))
            lines = [(name, [other.get(number, number) for number in some]) for name, some in lines]
        elif kind == 4 and len(lines) > 1 and rng.random() < 0.3:
            lines.pop(rng.randrange(len(lines)))
        elif kind == 5 and len(numbers) > 1 and rng.random() < 0.3:
            numbers.pop(at)
        elif kind == 6:
            lines = [(name, [2 * number + (number > numbers[at]) for number in some]) for name, some in lines]
    return lines


def try_changes(made, seed, program):
    """Has a run audited, and then checked with its certificate changed in many ways."""
    run = made(program)
    report, _ = process.run([program, 'audit'], run)
    if report.status != 0 or CERTIFICATE not in report.output:
        return 'the audit: %s' % report
    lists, _, certificate = report.output.partition(CERTIFICATE)
    logs, lines, version = logs_of(run), lines_of(certificate), int(certificate[:1])
    rng = random.Random(seed)
    for _ in range(CHANGES):
        some = changed(rng, lines)
        fault, text = fault_of(logs, some), text_of(version, some)
        wanted = (2, b'', b'totem: certificate refused: %s\n' % fault) if fault else (0, lists + b'end\n', b'')
        for words in (('check',), ('check', '--plain')):
            came, _ = process.run([program, *words], run + text)
            if (came.status, came.output, came.errors) != wanted:
                return '%s\n  came:   %s\n  wanted: %s\n  of %r' % (' '.join(words), came, wanted, text)
    return None


def read(name, _program):
    """A run of the folder `examples`."""
    with open(os.path.join(EXAMPLES, name), 'rb') as it:
        return it.read()


def played(name, program):
    """The run of a script of that folder."""
    with open(os.path.join(EXAMPLES, name), 'rb') as it:
        return process.run([program, 'sim'], it.read())[0].output


def certificates():
    """Both checkers name the first test that a changed certificate fails, and accept it if it fails none."""
    for seed, name in enumerate(RUNS + SCRIPTS):
        made = partial(read if name in RUNS else played, name)
        yield 'changed certificates of %s' % name, partial(try_changes, made, seed)
