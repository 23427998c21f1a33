"""Folders of layers that go on for a process that was killed, joined by `tools/logs join --early-ends`."""

# Process 2 was killed in r4.1 after it had handed over 4.1#2; the layer sent this on ring 8.1, which lists it.
SURVIVOR = 'conf r4.1 1 2\ndlv r4.1 4.1#1\nconf t8.1/1 1 2\nconf r8.1 1 2\ndlv r8.1 4.1#2\nsend r8.1 a 8.1#1\ndlv r8.1 8.1#1\n'
WITHOUT = SURVIVOR.replace('dlv r8.1 4.1#2\n', '')
KILLED = 'conf r4.1 1 2\nsend r4.1 a 4.1#1\ndlv r4.1 4.1#1\nsend r4.1 a 4.1#2\nfail r4.1\n'
KILLED_WITHOUT = KILLED.replace('send r4.1 a 4.1#2\n', '')

# The member there is another life.
LIVED = 'conf r4.1 1:1 2:1\ndlv r4.1 4.1#1\nconf t8.1/1 1:1\nconf r8.1 1:1 2:2\ndlv r8.1 4.1#2\n'


def _run(*logs):
    """The run of these logs, each with its ending."""
    return 'totem-run 1\n' + ''.join('log %d\n%s%s\n' % (process, *log) for process, log in enumerate(logs, 1)) + 'end\n'


def _sends(log, count, names):
    return 'logs: %s.log: sends that are left out, since others delivered the messages where it never came: %d (%s)\n' % (log, count, names)


def _deliveries(log, count, names):
    return 'logs: %s.log: deliveries that are left out, of messages whose senders never came there: %d (%s)\n' % (log, count, names)


def _begun(log, configuration):
    return 'logs: %s.log has no entry, and others list it: it is taken to have come to %s, and to have failed there\n' % (log, configuration)


# Folders by what they show: the arguments, the files, the run that they are joined to, and the messages.
EARLY_ENDS = {
    'a message that went out after its sender was killed': (
        '--early-ends', {'1.log': SURVIVOR, '2.log': KILLED}, _run((WITHOUT, 'open'), (KILLED_WITHOUT, 'failed')),
        _deliveries(1, 1, '4.1#2') + _sends(2, 1, '4.1#2')),
    'a log that is open': (
        '--early-ends', {'1.log': SURVIVOR, '2.log': KILLED.replace('fail r4.1\n', '')},
        _run((WITHOUT, 'open'), (KILLED_WITHOUT.replace('fail r4.1\n', ''), 'open')), _deliveries(1, 1, '4.1#2') + _sends(2, 1, '4.1#2')),
    'a failure that the call adds': (
        '--early-ends --failed 2', {'1.log': SURVIVOR, '2.log': KILLED.replace('fail r4.1\n', '')},
        _run((WITHOUT, 'open'), (KILLED_WITHOUT, 'failed')),
        'logs: 2.log: fail r4.1 is added\n' + _deliveries(1, 1, '4.1#2') + _sends(2, 1, '4.1#2')),
    'a delivery in the transitional configuration after it': (
        '--early-ends', {'1.log': 'conf r4.1 1 2\nconf t8.1/1 1 2\nconf r8.1 1 2\nconf t12.1/1 1\ndlv t12.1/1 4.1#1\n',
                         '2.log': 'conf r4.1 1 2\nsend r4.1 a 4.1#1\nfail r4.1\n'},
        _run(('conf r4.1 1 2\nconf t8.1/1 1 2\nconf r8.1 1 2\nconf t12.1/1 1\n', 'open'), ('conf r4.1 1 2\nfail r4.1\n', 'failed')),
        _deliveries(1, 1, '4.1#1') + _sends(2, 1, '4.1#1')),
    'a configuration that does not list the sender': (
        '--early-ends', {'1.log': SURVIVOR.replace('r8.1 1 2', 'r8.1 1'), '2.log': KILLED},
        _run((SURVIVOR.replace('r8.1 1 2', 'r8.1 1'), 'open'), (KILLED, 'failed')), ''),
    'a sender that came there': (
        '--early-ends', {'1.log': SURVIVOR, '2.log': KILLED.replace('fail r4.1', 'conf t8.1/1 1 2\nconf r8.1 1 2\nfail r8.1')},
        _run((SURVIVOR, 'open'), (KILLED.replace('fail r4.1', 'conf t8.1/1 1 2\nconf r8.1 1 2\nfail r8.1'), 'failed')), ''),
    'a sender that is quiet': (
        '--early-ends', {'1.log': SURVIVOR, '2.log': KILLED.replace('fail r4.1', 'quiet')},
        _run((SURVIVOR.replace(' 1 2', ' 1:1 2:1'), 'open'), (KILLED.replace('fail r4.1\n', '').replace(' 1 2', ' 1:1 2:1'), 'quiet')).replace(
            'run 1', 'run 3').replace('log 1', 'log 1:1').replace('log 2', 'log 2:1'), ''),
    'a sender that delivers it': (
        '--early-ends', {'1.log': SURVIVOR, '2.log': KILLED.replace('fail', 'dlv r4.1 4.1#2\nfail')},
        _run((SURVIVOR, 'open'), (KILLED.replace('fail', 'dlv r4.1 4.1#2\nfail'), 'failed')), ''),
    'another who delivers it where the sender was': (
        '--early-ends', {'1.log': SURVIVOR.replace('1 2', '1 2 3'), '2.log': KILLED.replace('1 2', '1 2 3'), '3.log': 'conf r4.1 1 2 3\ndlv r4.1 4.1#2\n'},
        _run((SURVIVOR.replace('1 2', '1 2 3'), 'open'), (KILLED.replace('1 2', '1 2 3'), 'failed'), ('conf r4.1 1 2 3\ndlv r4.1 4.1#2\n', 'open')), ''),
    'two who send it': (
        '--early-ends', {'1.log': SURVIVOR + 'send r8.1 a 4.1#2\n', '2.log': KILLED},
        _run((SURVIVOR + 'send r8.1 a 4.1#2\n', 'open'), (KILLED, 'failed')), ''),
    'a message that nobody delivers': (
        '--early-ends', {'1.log': WITHOUT, '2.log': KILLED}, _run((WITHOUT, 'open'), (KILLED, 'failed')), ''),
    'a log without an entry that others list': (
        '--early-ends', {'1.log': 'conf r4.1 1\nconf t8.1/1 1\nconf r8.1 1 2\nconf t12.1/1 1 2\nconf r12.1 1 2\n', '2.log': ''},
        _run(('conf r4.1 1\nconf t8.1/1 1\nconf r8.1 1 2\nconf t12.1/1 1 2\nconf r12.1 1 2\n', 'open'), ('conf r8.1 1 2\nfail r8.1\n', 'failed')),
        _begun(2, 'r8.1')),
    'a log without an entry, and two that list it in another order': (
        '--early-ends', {'1.log': 'conf r12.1 1 2\n', '2.log': '', '3.log': 'conf r8.3 2 3\nconf t12.1/3 3\nconf r12.1 1 2\n'},
        _run(('conf r12.1 1 2\n', 'open'), ('conf r8.3 2 3\nfail r8.3\n', 'failed'), ('conf r8.3 2 3\nconf t12.1/3 3\nconf r12.1 1 2\n', 'open')),
        _begun(2, 'r8.3')),
    'a log without an entry that nobody lists': (
        '--early-ends', {'1.log': 'conf r4.1 1\n', '2.log': ''}, _run(('conf r4.1 1\n', 'open')), 'logs: 2.log has no entry, and is left out\n'),
    'another life that came there': (
        '--early-ends', {'1.1.log': LIVED, '2.1.log': KILLED.replace('1 2', '1:1 2:1'), '2.2.log': 'conf r8.1 1:1 2:2\n'},
        'totem-run 2\nlog 1:1\n%sopen\nlog 2:1\n%sfailed\nlog 2:2\nconf r8.1 1:1 2:2\nopen\nend\n' % (LIVED, KILLED.replace('1 2', '1:1 2:1')), ''),
}
