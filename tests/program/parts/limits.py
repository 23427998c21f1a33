"""Runs and certificates at their limits, and which refusal takes precedence there."""
from functools import partial

from harness import process

MOST_ENTRIES = 1000000
MOST_LOGS = 32
SECONDS = 60


def of_entries(count, last, ending):
    """A run whose log has this many entries, the last of them this one, and then this ending."""
    sends = ''.join('send r4.1 a 4.1#%d\n' % number for number in range(1, count - 1))
    return 'totem-run 1\nlog 1\nconf r4.1 1\n%s%s%s' % (sends, last, ending)


def of_logs(count):
    """A run of this many processes, each of them alone, without its last line."""
    return 'totem-run 1\n' + ''.join(
        'log %d\nconf r4.%d %d\nopen\n' % (number, number, number) for number in range(1, count + 1))


def members(*numbers):
    """A run whose first change has these members, and nothing after it."""
    return 'totem-run 1\nlog 1\nconf r4.1 %s' % ' '.join(map(str, numbers))


def certified(lines):
    """A run of 32 logs with a certificate of these lines, and nothing after them."""
    return of_logs(MOST_LOGS) + 'end\ntotem-cert 1\n' + lines


def numbered(count):
    """A run without logs with a certificate of one line, which has this many numbers."""
    return 'totem-run 1\nend\ntotem-cert 1\npos 1%s\nend\n' % (' 7' * count)


SEND = 'send r4.1 a 4.1#4000000\n'
FAILURE = 'fail r4.1\n'
POSITIONS = ''.join('pos %d %d\n' % (number, number) for number in range(1, MOST_LOGS + 1))
# What the text is, the text, the arguments, and what is wrong with it.
REFUSED = (
    ('a million entries and the first byte of a failure', partial(of_entries, MOST_ENTRIES, SEND, 'f'),
     'audit', 'run refused: 8 TooMany'),
    ('a million entries and the end of a log that failed', partial(of_entries, MOST_ENTRIES, SEND, 'failed\nend\n'),
     'audit', 'run refused: 8 TooMany'),
    ('a million entries, the last a failure, and one more', partial(of_entries, MOST_ENTRIES, FAILURE, 'fail r4.1\n'),
     'audit', 'run refused: 8 TooMany'),
    ('a million entries, the last a failure, and half a word', partial(of_entries, MOST_ENTRIES, FAILURE, 'fail'),
     'audit', 'run refused: 7 Truncated'),
    ('a million entries, the last a failure, and another word', partial(of_entries, MOST_ENTRIES, FAILURE, 'fall'),
     'audit', 'run refused: 2 Word'),
    ('a 33rd log whose process does not rise', lambda: of_logs(MOST_LOGS) + 'log 5\n', 'audit', 'run refused: 8 TooMany'),
    ('a 33rd log that is cut', lambda: of_logs(MOST_LOGS) + 'l', 'audit', 'run refused: 8 TooMany'),
    ('a 32nd member that does not rise, and a space', partial(members, *range(1, 32), 31, ''), 'audit',
     'run refused: 5 Members'),
    ('a 33rd member', partial(members, *range(1, 33), ''), 'audit', 'run refused: 8 TooMany'),
    ('a 33rd line of positions', partial(certified, POSITIONS + 'pos 5 1\n'), 'check', 'certificate unreadable: 6 TooMany'),
    ('32 lines of positions, cut', partial(certified, POSITIONS), 'check', 'certificate unreadable: 5 Truncated'),
    ('a million numbers', partial(numbered, MOST_ENTRIES), 'check', 'certificate refused: 1 Count'),
    ('a million numbers and one', partial(numbered, MOST_ENTRIES + 1), 'check', 'certificate unreadable: 6 TooMany'),
)
# What the text is, the text, the arguments, and the statuses that it may have.
TAKEN = (
    ('a million entries, the last a failure', partial(of_entries, MOST_ENTRIES, FAILURE, 'failed\nend\n'), 'audit', (0, 1)),
    ('32 logs', lambda: of_logs(MOST_LOGS) + 'end\n', 'audit', (0,)),
    ('32 lines of positions', partial(certified, POSITIONS + 'end\n'), 'check', (0,)),
)


def try_refused(make, verb, wanted, program):
    """The program refuses a text with this fault."""
    came, _ = process.run([program, verb], make().encode(), seconds=SECONDS)
    line = b'totem: %s\n' % wanted.encode()
    return None if (came.status, came.output, came.errors) == (2, b'', line) else 'came: %s\n  wanted: %r' % (came, line)


def try_taken(make, verb, statuses, program):
    """The program reads a text to its end."""
    came, _ = process.run([program, verb], make().encode(), seconds=SECONDS)
    return None if came.status in statuses and not came.errors else 'came: %s' % came


def limits():
    """Texts at their limits."""
    for what, make, verb, wanted in REFUSED:
        yield what, partial(try_refused, make, verb, wanted)
    for what, make, verb, statuses in TAKEN:
        yield what, partial(try_taken, make, verb, statuses)
