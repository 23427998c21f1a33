"""Folders whose sends are moved by `tools/logs join --own-sends`, and those that it refuses."""

ONE_OTHER = 'conf r4.1 1 2\ndlv r4.1 4.1#1\n'
# Folders by what they show: the arguments, the files, the run that they are joined to, and the messages.
SENDS = {
    'a message that went out two configurations later': (
        '--own-sends', {'1.log': 'conf r4.1 1\nsend r4.1 s 4.1#1\nconf t8.1/1 1\nconf r8.1 1\ndlv r8.1 4.1#1\n'},
        'totem-run 1\nlog 1\nconf r4.1 1\nconf t8.1/1 1\nconf r8.1 1\nsend r8.1 s 4.1#1\ndlv r8.1 4.1#1\nopen\nend\n',
        'logs: 1.log: sends moved to just before their own deliveries: 1 (4.1#1)\n'
        'logs: 1.log: sends that are now in a later configuration than the messages were taken in: 1 (4.1#1)\n'),
    'a message that was taken in a transitional configuration': (
        '--own-sends', {'1.log': 'conf r4.1 1\nconf t8.1/1 1\nsend t8.1/1 a 4.1#1\nconf r8.1 1\ndlv r8.1 4.1#1\n'},
        'totem-run 1\nlog 1\nconf r4.1 1\nconf t8.1/1 1\nconf r8.1 1\nsend r8.1 a 4.1#1\ndlv r8.1 4.1#1\nopen\nend\n',
        'logs: 1.log: sends moved to just before their own deliveries: 1 (4.1#1)\n'
        'logs: 1.log: sends that are now in a later configuration than the messages were taken in: 1 (4.1#1)\n'),
    'a send that was recorded after the delivery stays': (
        '--own-sends', {'1.log': 'conf r4.1 1\ndlv r4.1 4.1#1\nsend r4.1 a 4.1#1\n'},
        'totem-run 1\nlog 1\nconf r4.1 1\ndlv r4.1 4.1#1\nsend r4.1 a 4.1#1\nopen\nend\n',
        'logs: 1.log: sends that stay where they are, since its own deliveries come before them: 1 (4.1#1)\n'),
    'a send that was recorded a ring after the delivery stays': (
        '--own-sends', {'1.log': 'conf r4.1 1\ndlv r4.1 4.1#1\nconf t8.1/1 1\nconf r8.1 1\nsend r8.1 a 4.1#1\n'},
        'totem-run 1\nlog 1\nconf r4.1 1\ndlv r4.1 4.1#1\nconf t8.1/1 1\nconf r8.1 1\nsend r8.1 a 4.1#1\nopen\nend\n',
        'logs: 1.log: sends that stay where they are, since its own deliveries come before them: 1 (4.1#1)\n'),
    'a send that was recorded after a failure stays': (
        '--own-sends', {'1.log': 'conf r4.1 1\nfail r4.1\nsend r4.1 a 4.1#1\ndlv r4.1 4.1#1\n'},
        'totem-run 1\nlog 1\nconf r4.1 1\nfail r4.1\nsend r4.1 a 4.1#1\ndlv r4.1 4.1#1\nopen\nend\n',
        'logs: 1.log: sends that stay where they are, since they are after a failure: 1 (4.1#1)\n'),
    'a message that is delivered only after a failure': (
        '--own-sends', {'1.log': 'conf r4.1 1\nsend r4.1 a 4.1#1\nconf t8.1/1 1\nfail t8.1/1\ndlv t8.1/1 4.1#1\n'},
        'totem-run 1\nlog 1\nconf r4.1 1\nsend r4.1 a 4.1#1\nconf t8.1/1 1\nfail t8.1/1\ndlv t8.1/1 4.1#1\nopen\nend\n',
        'logs: 1.log: sends that stay where they are, since the messages were delivered after a failure, or where none can have '
        'been sent before: 1 (4.1#1)\n'),
    'a send that names another configuration stays': (
        '--own-sends', {'1.log': 'conf r4.1 1\nsend r8.1 a 4.1#1\ndlv r4.1 4.1#1\n'},
        'totem-run 1\nlog 1\nconf r4.1 1\nsend r8.1 a 4.1#1\ndlv r4.1 4.1#1\nopen\nend\n',
        'logs: 1.log: sends that stay where they are, since they name another configuration than the one in which the log is there: '
        '1 (4.1#1)\n'),
    'a send before the first change stays, though nobody delivers the message': (
        '--own-sends', {'1.log': 'send r4.1 a 4.1#1\nconf r4.1 1\n'},
        'totem-run 1\nlog 1\nsend r4.1 a 4.1#1\nconf r4.1 1\nopen\nend\n',
        'logs: 1.log: sends that stay where they are, since they are before the first change: 1 (4.1#1)\n'),
    'a send in a transitional configuration from which it delivers stays': (
        '--own-sends', {'1.log': 'conf r4.1 1\nconf t8.1/1 1\nsend t8.1/1 a 4.1#1\ndlv t8.1/1 4.1#1\n'},
        'totem-run 1\nlog 1\nconf r4.1 1\nconf t8.1/1 1\nsend t8.1/1 a 4.1#1\ndlv t8.1/1 4.1#1\nopen\nend\n',
        'logs: 1.log: sends that stay where they are, since it had left the configuration from which it delivered the messages: 1 (4.1#1)\n'),
    'a delivery after the transitional change': (
        '--own-sends', {'1.log': 'conf r4.1 1\nsend r4.1 a 4.1#1\nsend r4.1 a 4.1#2\ndlv r4.1 4.1#1\nconf t8.1/1 1\ndlv t8.1/1 4.1#2\n'},
        'totem-run 1\nlog 1\nconf r4.1 1\nsend r4.1 a 4.1#1\ndlv r4.1 4.1#1\nsend r4.1 a 4.1#2\nconf t8.1/1 1\ndlv t8.1/1 4.1#2\n'
        'open\nend\n',
        'logs: 1.log: sends moved to just before their own deliveries: 1 (4.1#1)\n'
        'logs: 1.log: sends moved to the end of r4.1, since it delivered the messages after it or not at all: 1 (4.1#2)\n'),
    'two deliveries after the transitional change, the second of whose sends is at the end already': (
        '--own-sends', {'1.log': 'conf r4.1 1\nsend r4.1 a 4.1#1\ndlv r4.1 4.1#3\nsend r4.1 a 4.1#2\nconf t8.1/1 1\ndlv t8.1/1 4.1#1\n'
                                 'dlv t8.1/1 4.1#2\n'},
        'totem-run 1\nlog 1\nconf r4.1 1\ndlv r4.1 4.1#3\nsend r4.1 a 4.1#1\nsend r4.1 a 4.1#2\nconf t8.1/1 1\ndlv t8.1/1 4.1#1\n'
        'dlv t8.1/1 4.1#2\nopen\nend\n',
        'logs: 1.log: sends moved to the end of r4.1, since it delivered the messages after it or not at all: 1 (4.1#1)\n'),
    'a send that was recorded when it was delivered after the transitional change stays': (
        '--own-sends', {'1.log': 'conf r4.1 1\nconf t8.1/1 1\nsend r4.1 a 4.1#1\ndlv t8.1/1 4.1#1\n'},
        'totem-run 1\nlog 1\nconf r4.1 1\nconf t8.1/1 1\nsend r4.1 a 4.1#1\ndlv t8.1/1 4.1#1\nopen\nend\n',
        'logs: 1.log: sends that stay where they are, since they name another configuration than the one in which the log is there: '
        '1 (4.1#1)\n'),
    'the same goes back, if the call says so': (
        '--own-sends --late-sends', {'1.log': 'conf r4.1 1\nconf t8.1/1 1\nsend r4.1 a 4.1#1\ndlv t8.1/1 4.1#1\n'},
        'totem-run 1\nlog 1\nconf r4.1 1\nsend r4.1 a 4.1#1\nconf t8.1/1 1\ndlv t8.1/1 4.1#1\nopen\nend\n',
        'logs: 1.log: sends moved to the end of r4.1, since it delivered the messages after it or not at all: 1 (4.1#1)\n'
        'logs: 1.log: sends moved back over a change, since the call says so: 1 (4.1#1)\n'),
    'what a process that failed never delivered, and another one did, stays where it was taken': (
        '--own-sends', {'1.log': 'conf r4.1 1 2\nsend r4.1 a 4.1#1\nsend r4.1 a 4.1#2\nfail r4.1\n', '2.log': ONE_OTHER},
        'totem-run 1\nlog 1\nconf r4.1 1 2\nsend r4.1 a 4.1#1\nfail r4.1\nfailed\nlog 2\nconf r4.1 1 2\ndlv r4.1 4.1#1\nopen\nend\n',
        'logs: 1.log: sends that are left out, since nobody delivered the messages: 1 (4.1#2)\n'),
    'a message without an own delivery gets no cause that it may not have': (
        '--own-sends',
        {'1.log': 'conf r4.1 1 2 3\nsend r4.1 a 4.1#2\ndlv r4.1 4.1#1\nfail r4.1\n', '2.log': 'conf r4.1 1 2 3\nsend r4.1 a 4.1#1\nfail r4.1\n',
         '3.log': 'conf r4.1 1 2 3\ndlv r4.1 4.1#2\n'},
        'totem-run 1\nlog 1\nconf r4.1 1 2 3\nsend r4.1 a 4.1#2\ndlv r4.1 4.1#1\nfail r4.1\nfailed\n'
        'log 2\nconf r4.1 1 2 3\nsend r4.1 a 4.1#1\nfail r4.1\nfailed\nlog 3\nconf r4.1 1 2 3\ndlv r4.1 4.1#2\nopen\nend\n', ''),
    'a message without an own delivery that was taken a ring before': (
        '--own-sends',
        {'1.log': 'conf r2.1 1 2\nsend r2.1 a 2.1#1\nsend r2.1 a 2.1#2\nconf t4.1/1 1 2\nconf r4.1 1 2\ndlv r4.1 2.1#2\nfail r4.1\n',
         '2.log': 'conf r2.1 1 2\nconf t4.1/1 1 2\nconf r4.1 1 2\ndlv r4.1 2.1#1\ndlv r4.1 2.1#2\n'},
        'totem-run 1\nlog 1\nconf r2.1 1 2\nconf t4.1/1 1 2\nconf r4.1 1 2\nsend r4.1 a 2.1#1\nsend r4.1 a 2.1#2\ndlv r4.1 2.1#2\n'
        'fail r4.1\nfailed\nlog 2\nconf r2.1 1 2\nconf t4.1/1 1 2\nconf r4.1 1 2\ndlv r4.1 2.1#1\ndlv r4.1 2.1#2\nopen\nend\n',
        'logs: 1.log: sends moved to just before their own deliveries: 1 (2.1#2)\n'
        'logs: 1.log: sends moved to just before a later send: 1 (2.1#1)\n'
        'logs: 1.log: sends that are now in a later configuration than the messages were taken in: 2 (2.1#1, 2.1#2)\n'),
    'what others delivered where the sender never was': (
        '--own-sends', {'1.log': 'conf r3.1 1\nsend r3.1 a 4.1#1\n', '2.log': ONE_OTHER},
        'totem-run 1\nlog 1\nconf r3.1 1\nsend r3.1 a 4.1#1\nopen\nlog 2\nconf r4.1 1 2\ndlv r4.1 4.1#1\nopen\nend\n',
        'logs: 1.log: sends that stay where they are, since it was never in the configuration in which others delivered the messages: '
        '1 (4.1#1)\n'),
    'what others delivered where the sender no longer was': (
        '--own-sends', {'1.log': 'conf r4.1 1 2\nconf t8.1/1 1\nconf r8.1 1\nsend r8.1 a 4.1#1\n', '2.log': ONE_OTHER},
        'totem-run 1\nlog 1\nconf r4.1 1 2\nconf t8.1/1 1\nconf r8.1 1\nsend r8.1 a 4.1#1\nopen\n'
        'log 2\nconf r4.1 1 2\ndlv r4.1 4.1#1\nopen\nend\n',
        'logs: 1.log: sends that stay where they are, since it had left the configuration in which others delivered the messages: 1 (4.1#1)\n'),
    'a message that was sent twice stays so': (
        '--own-sends', {'1.log': 'conf r4.1 1\nsend r4.1 a 4.1#1\nsend r4.1 s 4.1#1\ndlv r4.1 4.1#1\ndlv r4.1 4.1#1\n'},
        'totem-run 1\nlog 1\nconf r4.1 1\nsend r4.1 a 4.1#1\nsend r4.1 s 4.1#1\ndlv r4.1 4.1#1\ndlv r4.1 4.1#1\nopen\nend\n', ''),
    'a message that was sent twice and not delivered stays so': (
        '--own-sends', {'1.log': 'conf r4.1 1 2\nsend r4.1 a 4.1#1\n', '2.log': 'conf r4.1 1 2\nsend r4.1 a 4.1#1\n'},
        'totem-run 1\nlog 1\nconf r4.1 1 2\nsend r4.1 a 4.1#1\nopen\nlog 2\nconf r4.1 1 2\nsend r4.1 a 4.1#1\nopen\nend\n',
        'logs: 1.log: sends that stay where they are, since they are sent more than once, and nobody delivered the messages: 1 (4.1#1)\n'
        'logs: 2.log: sends that stay where they are, since they are sent more than once, and nobody delivered the messages: 1 (4.1#1)\n'),
    'own deliveries in another order than the sends, if the call says so': (
        '--own-sends --own-order-unknown',
        {'1.log': 'conf r4.1 1\nsend r4.1 a 4.1#1\nsend r4.1 a 4.1#2\ndlv r4.1 4.1#2\ndlv r4.1 4.1#1\n'},
        'totem-run 1\nlog 1\nconf r4.1 1\nsend r4.1 a 4.1#2\ndlv r4.1 4.1#2\nsend r4.1 a 4.1#1\ndlv r4.1 4.1#1\nopen\nend\n',
        'logs: 1.log: sends 4.1#1 (line 2) and then 4.1#2 (line 3), and delivers the first one in line 5 and the second one in line 4\n'
        'logs: 1.log: sends moved to just before their own deliveries: 1 (4.1#1)\n'),
}
ORDER = '\n  If messages were not taken in the order of their send lines, say --own-order-unknown\n'
# Folders that are refused: the arguments, the files, and the messages.
SWAPPED = {
    'own deliveries in another order than the sends': (
        '--own-sends', {'1.log': 'conf r4.1 1\nsend r4.1 a 4.1#1\nsend r4.1 a 4.1#2\ndlv r4.1 4.1#2\ndlv r4.1 4.1#1\n'},
        'logs: 1.log: sends 4.1#1 (line 2) and then 4.1#2 (line 3), and delivers the first one in line 5 and the second one in line 4' + ORDER),
    'a later message in an earlier configuration': (
        '--own-sends',
        {'1.log': 'conf r4.1 1 2\nsend r4.1 a 4.1#1\nsend r4.1 a 4.1#2\nconf t8.1/1 1 2\nconf r8.1 1 2\ndlv r8.1 4.1#1\nfail r8.1\n',
         '2.log': 'conf r4.1 1 2\ndlv r4.1 4.1#2\nconf t8.1/1 1 2\nconf r8.1 1 2\ndlv r8.1 4.1#1\n'},
        'logs: 1.log: sends 4.1#1 (line 2) and then 4.1#2 (line 3), and the second one has to come before line 3, and the first one into r8.1'
        + ORDER),
}
