"""Short runs and certificates that are refused: the fault of their first wrong byte."""
from functools import partial

from harness import process

# The logs of a run that is refused, its version, and what is wrong with it.
RUNS = (
    (1, 'open\n', '2 Word'),
    (1, 'log 1\nconf r4.1  1\nopen\n', '3 Number'),
    (1, 'log 1\nfail r4.1 \nfailed\n', '2 Word'),
    (1, 'log 2\nconf r4.1 2\nopen\nlog 2\nconf r4.1 2\nopen\n', '4 Order'),
    (1, 'log 1\nopen\n', '6 End'),
    (1, 'log 1\nfailed\n', '6 End'),
    (1, 'log 1\nquiet\n', '2 Word'),
    (1, 'log 3\nconf r4.1 1 3 7\nopen\n', '9 MissingLog 1'),
    (1, 'log 1\nconf r4.1 9 12\nopen\nlog 9\nconf r4.1 7\nopen\n', '9 MissingLog 7'),
    (1, 'log 1\nconf r4.1 %s\nopen\n' % ' '.join(map(str, range(1, 33))), '9 MissingLog 2'),
    (1, 'log 1:1\nconf r4.1 1\nopen\n', '2 Word'),
    (2, 'log 1:0\nconf r4.1 1:1\nopen\n', '3 Number'),
    (2, 'log 1:65536\nconf r4.1 1:1\nopen\n', '3 Number'),
    (2, 'log 2:2\nfail r4.1\nfailed\nlog 2:2\nfail r4.1\nfailed\n', '4 Order'),
    (2, 'log 2:1\nfail r4.1\nfailed\nlog 1:2\nfail r4.1\nfailed\n', '4 Order'),
    (2, 'log 1:1\nconf r4.1 1:1 1:2\nopen\n', '5 Members'),
    (2, 'log 1:1\nconf r4.1 1:1 2:1\nopen\nlog 2:2\nfail r4.1\nfailed\n', '9 MissingLog 2:1'),
    (3, 'log 1:1\nquiet\n', '6 End'),
    (3, 'log 1:1\nconf r4.1 1:1\nquite\n', '2 Word'),
)
# The text of a certificate that is refused, and what is wrong with it.
CERTIFICATES = (
    ('totem-run 1\nend\n', '1 Header'),
    ('totem-cert 1\nlog 1 1\nend\n', '2 Word'),
    ('totem-cert 1\npos 1 1 \nend\n', '3 Number'),
    ('totem-cert 1\npos 1 1\r\nend\n', '2 Word'),
    ('totem-cert 1\npos 1 1,2\nend\n', '2 Word'),
    ('totem-cert 1\npos 1 0\nend\n', '3 Number'),
    ('totem-cert 1\npos 1  1\nend\n', '3 Number'),
    ('totem-cert 1\npos 1 4294967296\nend\n', '3 Number'),
    ('totem-cert 1\npos 65536 1\nend\n', '3 Number'),
    ('totem-cert 1\npos 2 1\npos 2 1\nend\n', '4 Order'),
    ('totem-cert 1\npos 2 1\npos 1\nend\n', '4 Order'),
    ('totem-cert 1\npos 1 1\nEnd\n', '2 Word'),
    ('totem-cert 2\npos 1 1\nend\n', '2 Word'),
    ('totem-cert 2\npos 1:0 1\nend\n', '3 Number'),
    ('totem-cert 2\npos 1:2 1\npos 1:2 2\nend\n', '4 Order'),
)


def try_refused(verb, text, wanted, program):
    """The program refuses a text with this line."""
    came, _ = process.run([program, verb], text.encode())
    is_right = (came.status, came.output, came.errors.decode()) == (2, b'', 'totem: %s\n' % wanted)
    return None if is_right else 'came: %s\n  wanted: %r' % (came, wanted)


def refused():
    """Runs for `audit`, and certificates behind a run without logs for `check`."""
    for version, logs, fault in RUNS:
        text = 'totem-run %d\n%send\n' % (version, logs)
        yield '%s: %r' % (fault, text[:60]), partial(try_refused, 'audit', text, 'run refused: ' + fault)
    for text, fault in CERTIFICATES:
        yield '%s: %r' % (fault, text), partial(
            try_refused, 'check', 'totem-run 1\nend\n' + text, 'certificate unreadable: ' + fault)
