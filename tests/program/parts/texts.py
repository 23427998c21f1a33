"""Texts in, texts out."""
import os
from functools import partial

from harness import process
from harness import rows as row_files

EXAMPLES = os.path.join(os.path.dirname(row_files.FOLDER), '..', 'examples')
# Scripts of the folder `examples`, and the report of the run that each makes.
AUDITS = {
    'broken/2.2.script': b'verdict no\nfault 2.2 3@3\nend\n',
    'broken/4.script': b'verdict no\nfault 4 3@5 3@6 2@5\nend\n',
    'broken/4-7.1.script': b'verdict no\nfault 4 3@5 3@6 2@5\nfault 7.1 3@5\nend\n',
    'broken/5.script': b'verdict no\nfault 5 3@2 3@3 2@5\nend\n',
    'broken/4-5-6.3.script': b'verdict no\nfault 4 3@6 3@8 2@6\nfault 5 3@2 3@3 2@5\nfault 6.3 3@6 3@7 2@5\nend\n',
    'broken/4-5-6.3-7.1.script': b'verdict no\nfault 4 3@6 3@8 2@6\nfault 5 3@2 3@3 2@5\nfault 6.3 3@6 3@7 2@5\nfault 7.1 3@6\nend\n',
}
# Runs of that folder, and their reports.
REPORTS = {
    'shut-down-in-order.run': b'verdict yes\ntotem-cert 2\npos 1:1 1 2 3 5\npos 2:1 1 3 4 5\npos 3:1 1 3 5\nend\n',
    'shut-down-after-a-crash.run': b'verdict no\nfault 2.1 1:1@1\nend\n',
    'no-cause.run': b'verdict no\nfault 5 1@2 2@3 3@2\nend\n',
}

# How many messages a long run has.
LONG = 20000


def wanted_of(row):
    """What a row expects, for a person."""
    if row.answer:
        return str(row.answer)
    return 'status %d, output with %r, errors with %r' % (row.status, row.output_has, row.errors_have)


def try_row(row, program):
    """Runs the program on a row."""
    came, _ = process.run([program, *row.words], row.given)
    return None if row.is_met_by(came) else 'came:   %s\n  wanted: %s' % (came, wanted_of(row))


def rows():
    """Each row gets the answer that it contains."""
    for name in row_files.names():
        for row in row_files.read_asked(name):
            yield '%s: totem %s' % (name, ' '.join(row.words)), partial(try_row, row)


def try_example(script, wanted, program):
    """Runs a script, and has the run judged."""
    with open(os.path.join(EXAMPLES, script), 'rb') as it:
        made, _ = process.run([program, 'sim'], it.read())
    came, _ = process.run([program, 'audit'], made.output)
    is_right = made.status == 0 and came.output == wanted and not came.errors
    return None if is_right else 'came:   %s, then %s\n  wanted: %r' % (made, came, wanted)


def try_example_run(run, wanted, program):
    """Has a run judged."""
    with open(os.path.join(EXAMPLES, run), 'rb') as it:
        came, _ = process.run([program, 'audit'], it.read())
    is_right = came.output == wanted and not came.errors
    return None if is_right else 'came: %s\n  wanted: %r' % (came, wanted)


def of_two(count, order):
    """A run in which process 1 sends this many messages, and delivers each at once; process 2 delivers them in this
    order."""
    sent = ''.join('send r4.1 a 4.1#%d\ndlv r4.1 4.1#%d\n' % (number, number) for number in range(1, count + 1))
    delivered = ''.join('dlv r4.1 4.1#%d\n' % number for number in order)
    logs = 'log 1\nconf r4.1 1 2\n%sopen\nlog 2\nconf r4.1 1 2\n%sopen\n' % (sent, delivered)
    return ('totem-run 1\n%send\n' % logs).encode()


def try_long(order, status, output, program):
    """A run of 20,000 messages has this report."""
    came, _ = process.run([program, 'audit'], of_two(LONG, order))
    is_right = (came.status, came.output, came.errors) == (status, output, b'')
    return None if is_right else 'came: %s' % came


def long_runs():
    """Runs of 20,000 messages, and of as many with two of them swapped."""
    numbers = list(range(1, LONG + 1))
    first = ' '.join(map(str, range(1, 2 * LONG + 2)))
    second = ' '.join(map(str, range(1, 2 * LONG + 2, 2)))
    report = 'verdict yes\ntotem-cert 1\npos 1 %s\npos 2 %s\nend\n' % (first, second)
    yield 'all in order', partial(try_long, numbers, 0, report.encode())
    exchanged = [2, 1, *numbers[2:]]
    yield 'two exchanged', partial(try_long, exchanged, 1, b'verdict no\nfault 6.1 1@3 1@4 1@5 2@2 2@3\nend\n')


def examples():
    """The runs that scripts of the examples make, and the runs of the examples, get the expected verdicts."""
    for script, wanted in AUDITS.items():
        yield script, partial(try_example, script, wanted)
    for run, wanted in REPORTS.items():
        yield run, partial(try_example_run, run, wanted)
