"""Folders of logs one of which is lost, joined by `tools/logs join --made-up`."""

MADE_UP_FAILED = 'logs: %s is made up: it is taken to have failed before it delivered anything, in %s\n'
COPIED = 'logs: %s is made up: it is taken to have done what %s says%s: changes %d, deliveries %d, sends %s\n'
ADDED = 'logs: %s: sends that are added, since others delivered the messages and no log sends them: %s\n'
# Process 3 sends 4.1#35 and 4.1#67 on ring 4.1, and 8.1#35 on ring 8.1; its log is lost.
FIRST = 'conf r4.1 1 2 3\nsend r4.1 a 4.1#33\ndlv r4.1 4.1#33\nsend r4.1 a 4.1#65\ndlv r4.1 4.1#65\ndlv r4.1 4.1#35\n' \
    'conf t8.1/1 1 2 3\ndlv t8.1/1 4.1#67\nconf r8.1 1 2 3\ndlv r8.1 8.1#35\n'
SECOND = 'conf r4.1 1 2 3\ndlv r4.1 4.1#33\ndlv r4.1 4.1#65\ndlv r4.1 4.1#35\nconf t8.1/1 1 2 3\ndlv t8.1/1 4.1#67\nconf r8.1 1 2 3\n' \
    'dlv r8.1 8.1#35\n'
LOST = {'1.log': FIRST, '2.log': SECOND}
COPY = 'conf r4.1 1 2 3\ndlv r4.1 4.1#33\ndlv r4.1 4.1#65\nsend r4.1 a 4.1#35\ndlv r4.1 4.1#35\nsend r4.1 a 4.1#67\nconf t8.1/1 1 2 3\n' \
    'dlv t8.1/1 4.1#67\nconf r8.1 1 2 3\nsend r8.1 a 8.1#35\ndlv r8.1 8.1#35\n'
LEFT = 'conf r4.1 1 2 3\ndlv r4.1 4.1#7\nconf t8.1/1 1 2\nconf r8.1 1 2\n'
# Folders by what they show: the arguments, the files, the run that they are joined to, and the messages.
MADE_UP = {
    'one that did as another one did': (
        '--made-up 3=as-2', LOST, 'totem-run 1\nlog 1\n%sopen\nlog 2\n%sopen\nlog 3\n%sopen\nend\n' % (FIRST, SECOND, COPY),
        COPIED % ('3.log', '2.log', '', 3, 5, '3 (4.1#35, 4.1#67, 8.1#35)')),
    'one that failed': (
        '--made-up 3=failed-before', {'1.log': LEFT, '2.log': LEFT},
        'totem-run 1\nlog 1\n%sopen\nlog 2\n%sopen\nlog 3\nconf r4.1 1 2 3\nsend r4.1 a 4.1#7\nfail r4.1\nfailed\nend\n' % (LEFT, LEFT),
        MADE_UP_FAILED % ('3.log', 'r4.1') + ADDED % ('3.log', '1 (4.1#7)') + 'logs: 3.log: fail r4.1 is added\n'),
    'one that did as another one did, as long as the changes of that one list it': (
        '--made-up 3=as-1', {'1.log': 'conf r2.1 1\nconf t4.1/1 1\n' + LEFT, '2.log': LEFT},
        'totem-run 1\nlog 1\nconf r2.1 1\nconf t4.1/1 1\n%sopen\nlog 2\n%sopen\nlog 3\nconf r4.1 1 2 3\nsend r4.1 a 4.1#7\ndlv r4.1 4.1#7\nopen\n'
        'end\n' % (LEFT, LEFT), COPIED % ('3.log', '1.log', ', up to its change to t8.1/1, which does not list it', 1, 1, '1 (4.1#7)')),
    'messages whose names say another sender': (
        '--made-up 3=as-2',
        {'1.log': 'conf r4.1 1 2 3\nsend r4.1 a 4.1#33\nsend r4.1 a 4.1#65\n', '2.log': 'conf r4.1 1 2 3\ndlv r4.1 4.1#97\ndlv r4.1 4.1#35\n'},
        'totem-run 1\nlog 1\nconf r4.1 1 2 3\nsend r4.1 a 4.1#33\nsend r4.1 a 4.1#65\nopen\nlog 2\nconf r4.1 1 2 3\ndlv r4.1 4.1#97\n'
        'dlv r4.1 4.1#35\nopen\nlog 3\nconf r4.1 1 2 3\ndlv r4.1 4.1#97\nsend r4.1 a 4.1#35\ndlv r4.1 4.1#35\nopen\nend\n',
        COPIED % ('3.log', '2.log', '', 1, 2, '1 (4.1#35)')),
    'one of two lives, and the other one has a log': (
        '--lives --made-up 2:1=as-1', {'1.log': 'conf r4.1 1 2\ndlv r4.1 4.1#2\nconf t8.1/1 1\nconf r8.1 1 2\n', '2.2.log': 'conf r8.1 1 2\n'},
        'totem-run 2\nlog 1:1\nconf r4.1 1:1 2:1\ndlv r4.1 4.1#2\nconf t8.1/1 1:1\nconf r8.1 1:1 2:2\nopen\n'
        'log 2:1\nconf r4.1 1:1 2:1\nsend r4.1 a 4.1#2\ndlv r4.1 4.1#2\nopen\nlog 2:2\nconf r8.1 1:1 2:2\nopen\nend\n',
        COPIED % ('2.1.log', '1.log', ', up to its change to t8.1/1, which does not list it', 1, 1, '1 (4.1#2)') +
        'logs: life 1 is added to the members 1: no log is of another life of theirs\n'
        'logs: 2.1.log: member 2 is 2:1 where this log changes to the configuration: 1 (r4.1)\n'
        'logs: 2.2.log: member 2 is 2:2 where this log changes to the configuration: 1 (r8.1)\n'),
    'one that is quiet, too, and another one that was lost': (
        '--made-up 3=as-1 --quiet all --made-up 2=as-1', {'1.log': 'conf r4.1 1 2 3\n'},
        'totem-run 3\nlog 1:1\nconf r4.1 1:1 2:1 3:1\nquiet\nlog 2:1\nconf r4.1 1:1 2:1 3:1\nquiet\nlog 3:1\nconf r4.1 1:1 2:1 3:1\nquiet\nend\n',
        ''.join(COPIED % ('%d.log' % number, '1.log', '', 1, 0, '0') for number in (3, 2)) +
        ''.join('logs: %d.log: is closed as quiet\n' % number for number in (1, 2, 3))),
    'one that failed beside a quiet log that left it behind': (
        '--made-up 3=failed-before --quiet 1,2', {'1.log': LEFT, '2.log': LEFT},
        ('totem-run 3\nlog 1\n%squiet\nlog 2\n%squiet\nlog 3\nconf r4.1 1 2 3\nsend r4.1 a 4.1#7\nfail r4.1\nfailed\nend\n' % (LEFT, LEFT))
        .replace('log 1', 'log 1:1').replace('log 2', 'log 2:1').replace('log 3', 'log 3:1').replace(' 1 2', ' 1:1 2:1').replace('2:1 3\n', '2:1 3:1\n'),
        MADE_UP_FAILED % ('3.log', 'r4.1') + ADDED % ('3.log', '1 (4.1#7)') + 'logs: 3.log: fail r4.1 is added\n'
        'logs: 1.log: is closed as quiet\nlogs: 2.log: is closed as quiet\n'),
}
# What is refused: the arguments, the files, and the message.
MADE_UP_REFUSED = {
    'what says no way': ('--made-up 3', LOST, 'logs: --made-up 3: say 3=failed-before, or 3=as-2 if it did what 2 did; with lives 3:1=as-2:1\n'),
    'no other one': ('--made-up 3=as-', LOST, "logs: '' is not a process: say 2, or 2:1 for life 1 of 2\n"),
    'two at once': ('--made-up 3,4=failed-before', LOST, 'logs: --made-up 3,4=failed-before: say 3=failed-before, or '),
    'one that has a log': ('--made-up 2=as-1', LOST, 'logs: --made-up 2: there is a log of it, 2.log\n'),
    'one that has a log without an entry': ('--made-up 3=as-1', {**LOST, '3.log': ''}, 'logs: --made-up 3: there is a log of it, 3.log\n'),
    'one twice': ('--made-up 3=as-1 --made-up 3=failed-before', LOST, 'logs: --made-up 3: there is a log of it, 3.log\n'),
    'one that is nowhere a member': ('--made-up 4=failed-before', LOST, 'logs: --made-up 4: no regular configuration lists it\n'),
    'one that is no member where the other one is': (
        '--made-up 4=as-1', LOST, 'logs: --made-up 4: no change of 1.log lists it, so it did not do as that one\n'),
    'one that did as one without a log': ('--made-up 3=as-4', LOST, 'logs: there is no log of process 4\n'),
    'one that did as one whose log is made up': ('--made-up 3=as-2 --made-up 2=as-1', {'1.log': FIRST}, 'logs: there is no log of process 2\n'),
    'a life where there are none': ('--made-up 3:1=as-2', LOST, 'logs: --made-up: the logs have no lives, so say 3, not 3:1\n'),
    'no life where there are some': (
        '--lives --made-up 3=as-2', LOST, 'logs: --made-up: say which life of 3 is meant, such as 3:1\n'),
    'one that failed beside a quiet log that did not leave it behind': (
        '--made-up 3=failed-before --quiet 1', LOST, 'logs: --made-up 3: 1.log is quiet, and ends in r8.1, which lists it; then all members end '
        'there (2.1). Leave 1.log open, or say 3=as-1\n'),
    'two that may have sent one message': (
        '--made-up 3=failed-before --made-up 2=as-1', {'1.log': LEFT},
        'logs: 4.1#7: nobody sends it, both 3.log and 2.log may have, and its name does not say who\n'),
    'a torn one that may have sent the message, too': (
        '--made-up 3=as-1 --torn 2', {'1.log': LEFT, '2.log': 'conf r4.1 1 2 3\n'},
        'logs: 4.1#7: nobody sends it, both 2.log and 3.log may have, and its name does not say who\n'),
    'one whose end is torn, too': ('--made-up 3=as-1 --torn 3', LOST, 'logs: there is no log of process 3\n'),
}
