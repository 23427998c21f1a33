"""Folders of layers that report no transitional configurations, joined by `tools/logs join --transitional`."""

ONE = 'conf r4.1 1 2 3\ndlv r4.1 4.1#1\nconf r8.1 1 2\nconf r12.1 1 2 3\n'
ALONE = 'conf r4.1 1 2 3\nconf r8.3 3\nconf r12.1 1 2 3\n'
ASSUMED = 'logs: %s.log: transitional configurations that are assumed: %d (%s)\n'
# Folders by what they show: the arguments, the files, the run that they are joined to, and the messages.
TRANSITIONAL = {
    'two sides that part and meet': (
        '--transitional', {'1.log': ONE, '2.log': ONE, '3.log': ALONE},
        'totem-run 1\n' + ''.join(
            'log %d\nconf r4.1 1 2 3\ndlv r4.1 4.1#1\nconf t8.1/1 1 2\nconf r8.1 1 2\nconf t12.1/1 1 2\nconf r12.1 1 2 3\nopen\n' % process
            for process in (1, 2)) + 'log 3\nconf r4.1 1 2 3\nconf t8.3/3 3\nconf r8.3 3\nconf t12.1/3 3\nconf r12.1 1 2 3\nopen\nend\n',
        ''.join(ASSUMED % it for it in ((1, 2, 't8.1/1, t12.1/1'), (2, 2, 't8.1/1, t12.1/1'), (3, 2, 't8.3/3, t12.1/3')))),
    'one whose log is open and ends before': (
        '--transitional', {'1.log': 'conf r4.1 1 2\nconf r8.1 1 2\n', '2.log': 'conf r4.1 1 2\n'},
        'totem-run 1\nlog 1\nconf r4.1 1 2\nconf t8.1/1 1 2\nconf r8.1 1 2\nopen\nlog 2\nconf r4.1 1 2\nopen\nend\n',
        ASSUMED % (1, 1, 't8.1/1')),
    'one that failed before': (
        '--transitional --failed 2', {'1.log': 'conf r4.1 1 2\nconf r8.1 1 2\n', '2.log': 'conf r4.1 1 2\n'},
        'totem-run 1\nlog 1\nconf r4.1 1 2\nconf t8.1/1 1\nconf r8.1 1 2\nopen\nlog 2\nconf r4.1 1 2\nfail r4.1\nfailed\nend\n',
        'logs: 2.log: fail r4.1 is added\n' + ASSUMED % (1, 1, 't8.1/1')),
    'one that came from elsewhere': (
        '--transitional', {'1.log': 'conf r4.1 1 2\nconf r8.1 1 2\n', '2.log': 'conf r4.1 1 2\nconf r6.2 2\nconf r8.1 1 2\n'},
        'totem-run 1\nlog 1\nconf r4.1 1 2\nconf t8.1/1 1\nconf r8.1 1 2\nopen\n'
        'log 2\nconf r4.1 1 2\nconf t6.2/2 2\nconf r6.2 2\nconf t8.1/2 2\nconf r8.1 1 2\nopen\nend\n',
        ASSUMED % (1, 1, 't8.1/1') + ASSUMED % (2, 2, 't6.2/2, t8.1/2')),
    'a log that has one already': (
        '--transitional', {'1.log': 'conf r4.1 1 2\nconf t8.1/1 1 2\nconf r8.1 1 2\n', '2.log': 'conf r4.1 1 2\nconf r8.1 1 2\n'},
        'totem-run 1\nlog 1\nconf r4.1 1 2\nconf t8.1/1 1 2\nconf r8.1 1 2\nopen\nlog 2\nconf r4.1 1 2\nconf t8.1/2 2\nconf r8.1 1 2\nopen\nend\n',
        ASSUMED % (2, 1, 't8.1/2')),
    'none that is missing': (
        '--transitional', {'1.log': 'conf r4.1 1\nconf t8.1/1 1\nconf r8.1 1\n'},
        'totem-run 1\nlog 1\nconf r4.1 1\nconf t8.1/1 1\nconf r8.1 1\nopen\nend\n',
        'logs: no transitional configuration is missing, so none is assumed\n'),
    'members with their lives': (
        '--transitional', {'1.1.log': 'conf r4.1 1:1 2:1\nconf r8.1 1:1 2:2\n', '2.1.log': 'conf r4.1 1:1 2:1\n',
                           '2.2.log': 'conf r6.2 2:2\nconf r8.1 1:1 2:2\n'},
        'totem-run 2\nlog 1:1\nconf r4.1 1:1 2:1\nconf t8.1/1 1:1\nconf r8.1 1:1 2:2\nopen\nlog 2:1\nconf r4.1 1:1 2:1\nopen\n'
        'log 2:2\nconf r6.2 2:2\nconf t8.1/2 2:2\nconf r8.1 1:1 2:2\nopen\nend\n',
        ASSUMED % ('1.1', 1, 't8.1/1') + ASSUMED % ('2.2', 1, 't8.1/2')),
    'members that get lives': (
        '--transitional --lives', {'1.log': 'conf r4.1 1 2\nconf r8.1 1 2\n', '2.log': 'conf r4.1 1 2\nfail r4.1\n',
                                   '2.2.log': 'conf r6.2 2\nconf r8.1 1 2\n'},
        'totem-run 2\nlog 1:1\nconf r4.1 1:1 2:1\nconf t8.1/1 1:1\nconf r8.1 1:1 2:2\nopen\nlog 2:1\nconf r4.1 1:1 2:1\nfail r4.1\nfailed\n'
        'log 2:2\nconf r6.2 2:2\nconf t8.1/2 2:2\nconf r8.1 1:1 2:2\nopen\nend\n',
        ASSUMED % (1, 1, 't8.1/1') + ASSUMED % ('2.2', 1, 't8.1/2') +
        'logs: life 1 is added to the members 1: no log is of another life of theirs\n'
        'logs: 2.log: member 2 is 2:1 where this log changes to the configuration: 1 (r4.1)\n'
        'logs: 2.2.log: member 2 is 2:2 where this log changes to the configuration: 3 (r6.2, t8.1/2, r8.1)\n'),
    'a send that goes to the end of its configuration': (
        '--transitional --own-sends',
        {'1.log': 'conf r4.1 1 2\nsend r4.1 a 4.1#1\nconf r8.1 1 2\nconf r12.1 1 2\n',
         '2.log': 'conf r4.1 1 2\nconf r8.1 1 2\ndlv r8.1 4.1#1\nconf r12.1 1 2\n'},
        'totem-run 1\nlog 1\nconf r4.1 1 2\nconf t8.1/1 1 2\nconf r8.1 1 2\nsend r8.1 a 4.1#1\nconf t12.1/1 1 2\nconf r12.1 1 2\nopen\n'
        'log 2\nconf r4.1 1 2\nconf t8.1/1 1 2\nconf r8.1 1 2\ndlv r8.1 4.1#1\nconf t12.1/1 1 2\nconf r12.1 1 2\nopen\nend\n',
        ASSUMED % (1, 2, 't8.1/1, t12.1/1') + ASSUMED % (2, 2, 't8.1/1, t12.1/1') +
        'logs: 1.log: sends moved to the end of r8.1, since it delivered the messages after it or not at all: 1 (4.1#1)\n'
        'logs: 1.log: sends that are now in a later configuration than the messages were taken in: 1 (4.1#1)\n'),
    'large numbers': (
        '--transitional --renumber', {'70000.log': 'conf r4.70000 70000\nconf r8.70000 70000\n'},
        'totem-run 1\nlog 1\nconf r4.1 1\nconf t8.1/1 1\nconf r8.1 1\nopen\nend\n',
        ASSUMED % (70000, 1, 't8.70000/70000') + 'logs: process 70000 becomes 1\n'),
}
