"""Folders of layers that tell of a transitional configuration when it is over, joined by `tools/logs join --late-changes`."""

NO_GAP = 'logs: no change goes to an earlier place, since no delivery before one is past a gap\n'
ALL = 'conf r4.1 1 2 3\ndlv r4.1 4.1#1\ndlv r4.1 4.1#2\ndlv r4.1 4.1#3\ndlv r4.1 4.1#4\n'
PAIR = ALL + 'conf t8.1/1 1 2\nconf r8.1 1 2\n'


def _past(log, count, where):
    return 'logs: %s.log: deliveries from the first one past a gap on, which are now in transitional configurations: %d (%s)\n' % (log, count, where)


def _staying(log, count, names):
    return 'logs: %s.log: sends and other entries that stay in the regular configurations before: %d (%s)\n' % (log, count, names)


def _run(*logs):
    """The run of logs that are open."""
    return 'totem-run 1\n' + ''.join('log %d\n%sopen\n' % pair for pair in enumerate(logs, 1)) + 'end\n'


# Folders by what they show: the arguments, the files, the run that they are joined to, and the messages.
LATE_CHANGES = {
    'one that is alone and lacks a message of the others': (
        '--late-changes', {'1.log': PAIR, '2.log': PAIR, '3.log': 'conf r4.1 1 2 3\ndlv r4.1 4.1#1\nsend r4.1 a 4.1#3\ndlv r4.1 4.1#3\n'
                           'send r4.1 a 4.1#4\nsend r4.1 s 4.1#5\ndlv r4.1 4.1#4\nconf t8.3/3 3\nconf r8.3 3\n'},
        _run(PAIR, PAIR, 'conf r4.1 1 2 3\ndlv r4.1 4.1#1\nsend r4.1 a 4.1#3\nsend r4.1 a 4.1#4\nsend r4.1 s 4.1#5\nconf t8.3/3 3\n'
             'dlv t8.3/3 4.1#3\ndlv t8.3/3 4.1#4\nconf r8.3 3\n'), _past(3, 2, 't8.3/3: 2') + _staying(3, 2, '4.1#4, 4.1#5')),
    'one that lacks only the tail': (
        '--late-changes', {'1.log': PAIR, '2.log': PAIR, '3.log': 'conf r4.1 1 2 3\ndlv r4.1 4.1#1\ndlv r4.1 4.1#2\nconf t8.3/3 3\nconf r8.3 3\n'},
        _run(PAIR, PAIR, 'conf r4.1 1 2 3\ndlv r4.1 4.1#1\ndlv r4.1 4.1#2\nconf t8.3/3 3\nconf r8.3 3\n'), NO_GAP),
    'two that go together, one of which lacks something': (
        '--late-changes', {'1.log': ALL, '2.log': 'conf r4.1 1 2 3\ndlv r4.1 4.1#1\ndlv r4.1 4.1#3\nconf t8.2/2 2 3\n',
                           '3.log': 'conf r4.1 1 2 3\ndlv r4.1 4.1#1\ndlv r4.1 4.1#2\ndlv r4.1 4.1#3\ndlv r4.1 4.1#4\nconf t8.2/2 2 3\n'},
        _run(ALL, 'conf r4.1 1 2 3\ndlv r4.1 4.1#1\nconf t8.2/2 2 3\ndlv t8.2/2 4.1#3\n',
             'conf r4.1 1 2 3\ndlv r4.1 4.1#1\ndlv r4.1 4.1#2\nconf t8.2/2 2 3\ndlv t8.2/2 4.1#3\ndlv t8.2/2 4.1#4\n'),
        _past(2, 1, 't8.2/2: 1') + _past(3, 2, 't8.2/2: 2')),
    'logs that end there': (
        '--late-changes', {'1.log': ALL, '2.log': 'conf r4.1 1 2 3\ndlv r4.1 4.1#3\n', '3.log': 'conf r4.1 1 2 3\ndlv r4.1 4.1#3\nfail r4.1\n'},
        _run(ALL, 'conf r4.1 1 2 3\ndlv r4.1 4.1#3\n', 'conf r4.1 1 2 3\ndlv r4.1 4.1#3\nfail r4.1\n').replace('4.1\nopen', '4.1\nfailed'), NO_GAP),
    'a log that goes on after a failure': (
        '--late-changes', {'1.log': 'conf r4.1 1 2\ndlv r4.1 4.1#1\ndlv r4.1 4.1#3\n',
                           '2.log': 'conf r4.1 1 2\ndlv r4.1 4.1#3\nfail r4.1\nconf t8.2/2 2\n'},
        _run('conf r4.1 1 2\ndlv r4.1 4.1#1\ndlv r4.1 4.1#3\n', 'conf r4.1 1 2\ndlv r4.1 4.1#3\nfail r4.1\nconf t8.2/2 2\n'), NO_GAP),
    'two orders of the same messages': (
        '--late-changes', {'1.log': 'conf r4.1 1 2\ndlv r4.1 4.1#1\ndlv r4.1 4.1#2\nconf t8.1/1 1\n',
                           '2.log': 'conf r4.1 1 2\ndlv r4.1 4.1#2\ndlv r4.1 4.1#1\nconf t8.2/2 2\n'},
        _run('conf r4.1 1 2\ndlv r4.1 4.1#1\ndlv r4.1 4.1#2\nconf t8.1/1 1\n',
             'conf r4.1 1 2\ndlv r4.1 4.1#2\ndlv r4.1 4.1#1\nconf t8.2/2 2\n'), NO_GAP),
    'two that lack a message each': (
        '--late-changes', {'1.log': 'conf r4.1 1 2\ndlv r4.1 4.1#1\ndlv r4.1 4.1#3\nconf t8.1/1 1\n',
                           '2.log': 'conf r4.1 1 2\ndlv r4.1 4.1#2\ndlv r4.1 4.1#3\nconf t8.2/2 2\n'},
        _run('conf r4.1 1 2\ndlv r4.1 4.1#1\nconf t8.1/1 1\ndlv t8.1/1 4.1#3\n', 'conf r4.1 1 2\ndlv r4.1 4.1#2\nconf t8.2/2 2\ndlv t8.2/2 4.1#3\n'),
        _past(1, 1, 't8.1/1: 1') + _past(2, 1, 't8.2/2: 1')),
    'a message that comes again past the gap of another': (
        '--late-changes', {'1.log': 'conf r4.1 1 2\ndlv r4.1 4.1#1\ndlv r4.1 4.1#2\ndlv r4.1 4.1#1\n',
                           '2.log': 'conf r4.1 1 2\ndlv r4.1 4.1#1\ndlv r4.1 4.1#4\nconf t8.2/2 2\n'},
        _run('conf r4.1 1 2\ndlv r4.1 4.1#1\ndlv r4.1 4.1#2\ndlv r4.1 4.1#1\n',
             'conf r4.1 1 2\ndlv r4.1 4.1#1\ndlv r4.1 4.1#4\nconf t8.2/2 2\n'), NO_GAP),
    'what is delivered in the transitional configuration is not lacking': (
        '--late-changes', {'1.log': 'conf r4.1 1 2\ndlv r4.1 4.1#1\ndlv r4.1 4.1#2\n',
                           '2.log': 'conf r4.1 1 2\ndlv r4.1 4.1#2\nconf t8.2/2 2\ndlv t8.2/2 4.1#1\n'},
        _run('conf r4.1 1 2\ndlv r4.1 4.1#1\ndlv r4.1 4.1#2\n', 'conf r4.1 1 2\ndlv r4.1 4.1#2\nconf t8.2/2 2\ndlv t8.2/2 4.1#1\n'), NO_GAP),
    'a configuration that comes again': (
        '--late-changes', {'1.log': 'conf r4.1 1 2\ndlv r4.1 4.1#1\nconf t8.1/1 1\nconf r8.1 1\nconf t4.1/1 1\nconf r4.1 1 2\ndlv r4.1 4.1#3\n'
                           'conf t12.1/1 1\nconf r12.1 1\n', '2.log': 'conf r4.1 1 2\ndlv r4.1 4.1#2\ndlv r4.1 4.1#3\n'},
        _run('conf r4.1 1 2\ndlv r4.1 4.1#1\nconf t8.1/1 1\nconf r8.1 1\nconf t4.1/1 1\nconf r4.1 1 2\nconf t12.1/1 1\ndlv t12.1/1 4.1#3\n'
             'conf r12.1 1\n', 'conf r4.1 1 2\ndlv r4.1 4.1#2\ndlv r4.1 4.1#3\n'), _past(1, 1, 't12.1/1: 1')),
    'two configurations of one log': (
        '--late-changes', {'1.log': 'conf r4.1 1 2\ndlv r4.1 4.1#1\ndlv r4.1 4.1#2\nconf t8.1/1 1 2\nconf r8.1 1 2\ndlv r8.1 8.1#1\ndlv r8.1 8.1#2\n',
                           '2.log': 'conf r4.1 1 2\ndlv r4.1 4.1#2\nconf t8.1/2 2\nconf r8.1 1 2\ndlv r8.1 8.1#2\ndlv r8.1 8.1#3\nconf t12.2/2 2\n'},
        _run('conf r4.1 1 2\ndlv r4.1 4.1#1\ndlv r4.1 4.1#2\nconf t8.1/1 1 2\nconf r8.1 1 2\ndlv r8.1 8.1#1\ndlv r8.1 8.1#2\n',
             'conf r4.1 1 2\nconf t8.1/2 2\ndlv t8.1/2 4.1#2\nconf r8.1 1 2\nconf t12.2/2 2\ndlv t12.2/2 8.1#2\ndlv t12.2/2 8.1#3\n'),
        _past(2, 3, 't8.1/2: 1, t12.2/2: 2')),
    'a delivery that names the transitional configuration before it': (
        '--late-changes', {'1.log': 'conf r4.1 1 2\ndlv r4.1 4.1#1\ndlv r4.1 4.1#2\n',
                           '2.log': 'conf r4.1 1 2\ndlv r4.1 4.1#2\ndlv t8.2/2 4.1#3\nconf t8.2/2 2\n'},
        _run('conf r4.1 1 2\ndlv r4.1 4.1#1\ndlv r4.1 4.1#2\n', 'conf r4.1 1 2\ndlv t8.2/2 4.1#3\nconf t8.2/2 2\ndlv t8.2/2 4.1#2\n'),
        _past(2, 1, 't8.2/2: 1') + _staying(2, 1, '4.1#3')),
    'a transitional configuration that is assumed, and own sends': (
        '--transitional --late-changes --own-sends', {
            '1.log': 'conf r4.1 1 2\ndlv r4.1 4.1#1\nsend r4.1 a 4.1#2\ndlv r4.1 4.1#2\nconf r8.1 1\n',
            '2.log': 'conf r4.1 1 2\nsend r4.1 a 4.1#1\nsend r4.1 a 4.1#3\ndlv r4.1 4.1#1\ndlv r4.1 4.1#3\ndlv r4.1 4.1#4\nconf r8.2 2\n',
            '3.log': 'conf r4.1 1 2\ndlv r4.1 4.1#1\ndlv r4.1 4.1#2\ndlv r4.1 4.1#3\n'},
        _run('conf r4.1 1 2\ndlv r4.1 4.1#1\nsend r4.1 a 4.1#2\ndlv r4.1 4.1#2\nconf t8.1/1 1\nconf r8.1 1\n',
             'conf r4.1 1 2\nsend r4.1 a 4.1#1\ndlv r4.1 4.1#1\nsend r4.1 a 4.1#3\nconf t8.2/2 2\ndlv t8.2/2 4.1#3\ndlv t8.2/2 4.1#4\nconf r8.2 2\n',
             'conf r4.1 1 2\ndlv r4.1 4.1#1\ndlv r4.1 4.1#2\ndlv r4.1 4.1#3\n'),
        'logs: 1.log: transitional configurations that are assumed: 1 (t8.1/1)\n'
        'logs: 2.log: transitional configurations that are assumed: 1 (t8.2/2)\n'
        + _past(2, 2, 't8.2/2: 2') + 'logs: 2.log: sends moved to just before their own deliveries: 1 (4.1#1)\n'
        'logs: 2.log: sends moved to the end of r4.1, since it delivered the messages after it or not at all: 1 (4.1#3)\n'),
}
