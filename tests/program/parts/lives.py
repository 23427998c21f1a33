"""Folders whose members get lives from `tools/logs join --lives`, and those of which it asks for a life."""
from parts.joined import MISSING

ONE = 'logs: life 1 is added to the members 1: no log is of another life of theirs\n'
NO_LOG = 'logs: there is no log of 2:1, a member of r4.1 (1.log, line 1)\n' + MISSING.format('2:1')
# Folders by what they show: the arguments, the files, the run that they are joined to, and the messages.
LIVES = {
    'the life whose log changes to the configuration': (
        '--lives',
        {'1.1.log': 'conf r4.1 1 2\nconf t8.1/1 1\nconf r8.1 1 2\n', '2.1.log': 'conf r4.1 1 2\nfail r4.1\n', '2.2.log': 'conf r8.1 1 2\n'},
        'totem-run 2\nlog 1:1\nconf r4.1 1:1 2:1\nconf t8.1/1 1:1\nconf r8.1 1:1 2:2\nopen\n'
        'log 2:1\nconf r4.1 1:1 2:1\nfail r4.1\nfailed\nlog 2:2\nconf r8.1 1:1 2:2\nopen\nend\n',
        ONE + 'logs: 2.1.log: member 2 is 2:1 where this log changes to the configuration: 1 (r4.1)\n'
        'logs: 2.2.log: member 2 is 2:2 where this log changes to the configuration: 1 (r8.1)\n'),
    'a file without a life is that of life 1': (
        '--lives', {'1.log': 'conf r4.1 1 2\n', '2.log': 'conf r4.1 1 2\nquiet\n'},
        'totem-run 3\nlog 1:1\nconf r4.1 1:1 2:1\nopen\nlog 2:1\nconf r4.1 1:1 2:1\nquiet\nend\n',
        'logs: life 1 is added to the members 1, 2: no log is of another life of theirs\n'),
    'the only life that is possible, though it never came': (
        '--lives', {'1.log': 'conf r4.1 1 2\n', '2.log': 'conf r5.2 2\n'},
        'totem-run 2\nlog 1:1\nconf r4.1 1:1 2:1\nopen\nlog 2:1\nconf r5.2 2:1\nopen\nend\n',
        'logs: r4.1: member 2, which never came, is 2:1: no log is of another life\n'
        'logs: life 1 is added to the members 1, 2: no log is of another life of theirs\n'),
    'the only life that is possible, since the call says that the others are absent': (
        '--lives --absent 2:1-2', {'1.1.log': 'conf r4.1 1 2\n', '2.3.log': 'conf r5.2 2\n'},
        'totem-run 2\nlog 1:1\nconf r4.1 1:1 2:3\nopen\nlog 2:3\nconf r5.2 2:3\nopen\nend\n',
        'logs: r4.1: member 2, which never came, is 2:3: no log is of another life\n' + ONE +
        'logs: 2.3.log: member 2 is 2:3 where this log changes to the configuration: 1 (r5.2)\n'),
    'a life that comes everywhere, though no log is of the life before': (
        '--lives', {'1.log': 'conf r4.1 1 2\n', '2.2.log': 'conf r4.1 1 2\n'},
        'totem-run 2\nlog 1:1\nconf r4.1 1:1 2:2\nopen\nlog 2:2\nconf r4.1 1:1 2:2\nopen\nend\n',
        ONE + 'logs: 2.2.log: member 2 is 2:2 where this log changes to the configuration: 1 (r4.1)\n'
        'logs: there is no log of 2:1: taken for a member of no configuration\n'),
    'the life that it is in the configuration before': (
        '--lives',
        {'1.1.log': 'conf r4.1 1 2\nconf t8.1/1 1 2\nconf r8.1 1 2\n', '2.1.log': 'conf r4.1 1 2\nfail r4.1\n', '2.2.log': 'conf r9.2 2\n'},
        'totem-run 2\nlog 1:1\nconf r4.1 1:1 2:1\nconf t8.1/1 1:1 2:1\nconf r8.1 1:1 2:1\nopen\n'
        'log 2:1\nconf r4.1 1:1 2:1\nfail r4.1\nfailed\nlog 2:2\nconf r9.2 2:2\nopen\nend\n',
        'logs: t8.1/1: member 2, which never came, is 2:1: so it is in r4.1, before or after it\n'
        'logs: r8.1: member 2, which never came, is 2:1: so it is in r4.1, before or after it\n' + ONE +
        'logs: 2.1.log: member 2 is 2:1 where this log changes to the configuration: 1 (r4.1)\n'
        'logs: 2.2.log: member 2 is 2:2 where this log changes to the configuration: 1 (r9.2)\n'),
    'the life that the call says, though there is no log of it': (
        '--lives --member r4.1=2:1', {'1.log': 'conf r4.1 1 2\n', '2.2.log': 'conf r6.2 2\n'},
        'totem-run 2\nlog 1:1\nconf r4.1 1:1 2:1\nopen\nlog 2:2\nconf r6.2 2:2\nopen\nend\n',
        'logs: r4.1: member 2, which never came, is 2:1: the call says so\n' + ONE +
        'logs: 2.2.log: member 2 is 2:2 where this log changes to the configuration: 1 (r6.2)\n' + NO_LOG),
    'the life that ran when the configuration was changed to': (
        '--lives --clock FOLDER/times',
        {'1.log': 'conf r4.1 1 2\n', '2.1.log': 'conf r5.2 2\n', '2.2.log': 'conf r6.2 2\n',
         'times': '1 start 2:1\n5 start 2:2\n6.5 conf r4.1\n'},
        'totem-run 2\nlog 1:1\nconf r4.1 1:1 2:2\nopen\nlog 2:1\nconf r5.2 2:1\nopen\nlog 2:2\nconf r6.2 2:2\nopen\nend\n',
        'logs: r4.1: member 2, which never came, is 2:2: by the clock\n' + ONE +
        'logs: 2.1.log: member 2 is 2:1 where this log changes to the configuration: 1 (r5.2)\n'
        'logs: 2.2.log: member 2 is 2:2 where this log changes to the configuration: 1 (r6.2)\n'),
    'the life that ran when the configuration was changed to, by dates': (
        '--lives --clock FOLDER/times',
        {'1.log': '2026-11-29T07:45:30Z conf r4.1 1 2\n', '2.1.log': 'conf r5.2 2\n', '2.2.log': 'conf r6.2 2\n',
         'times': '2026-11-29T07:45:27Z start 2:1\n2026-11-29T08:45:28.5+01:00 start 2:2\n2026-11-29T07:45:28.75Z conf r4.1\n'},
        'totem-run 2\nlog 1:1\nconf r4.1 1:1 2:2\nopen\nlog 2:1\nconf r5.2 2:1\nopen\nlog 2:2\nconf r6.2 2:2\nopen\nend\n',
        'logs: left out of the logs: times 1\nlogs: r4.1: member 2, which never came, is 2:2: by the clock\n' + ONE +
        'logs: 2.1.log: member 2 is 2:1 where this log changes to the configuration: 1 (r5.2)\n'
        'logs: 2.2.log: member 2 is 2:2 where this log changes to the configuration: 1 (r6.2)\n'),
    'the only life that ran beside that which changes to it': (
        '--lives --clock FOLDER/times',
        {'1.1.log': 'conf r4.1 1 2\nfail r4.1\n', '2.1.log': 'conf r5.2 2\n', '2.2.log': 'conf r6.2 2\n',
         'times': '0 start 1:1\n1 start 2:1\n4 end 1:1\n4.5 end 2:1\n5 start 2:2\n'},
        'totem-run 2\nlog 1:1\nconf r4.1 1:1 2:1\nfail r4.1\nfailed\nlog 2:1\nconf r5.2 2:1\nopen\nlog 2:2\nconf r6.2 2:2\nopen\nend\n',
        'logs: r4.1: member 2, which never came, is 2:1: by the clock\n' + ONE +
        'logs: 2.1.log: member 2 is 2:1 where this log changes to the configuration: 1 (r5.2)\n'
        'logs: 2.2.log: member 2 is 2:2 where this log changes to the configuration: 1 (r6.2)\n'),
    'a clock with configurations of other logs': (
        '--lives --clock FOLDER/times', {'1.log': 'conf r4.1 1\n', 'times': '1 start 1:1\n2 conf r4.2\n3 conf r4.1\n2 conf r4.3\n'},
        'totem-run 2\nlog 1:1\nconf r4.1 1:1\nopen\nend\n',
        'logs: the clock file has times of configurations to which no log changes: 2 (r4.2, r4.3)\n' + ONE),
    'a life that the call says, and that did not run then, by the clock': (
        '--lives --member r4.1=2:1 --clock FOLDER/times',
        {'1.log': 'conf r4.1 1 2\n', '2.2.log': 'conf r6.2 2\n', 'times': '0 start 1:1\n1 end 1:1\n2 start 2:1\n'},
        'totem-run 2\nlog 1:1\nconf r4.1 1:1 2:1\nopen\nlog 2:2\nconf r6.2 2:2\nopen\nend\n',
        'logs: r4.1: member 2, which never came, is 2:1: the call says so\n'
        'logs: r4.1: member 2 is taken for 2:1, which did not run then, by the clock\n' + ONE +
        'logs: 2.2.log: member 2 is 2:2 where this log changes to the configuration: 1 (r6.2)\n' + NO_LOG),
    'two lives that change to one configuration, and did not run at one time by the clock': (
        '--lives --clock FOLDER/times',
        {'1.log': 'conf r4.1 1 2\n', '2.1.log': 'conf r2.2 2\n', '2.2.log': 'conf r4.1 1 2\n', 'times': '0 start 1:1\n3 end 1:1\n5 start 2:2\n'},
        'totem-run 2\nlog 1:1\nconf r4.1 1:1 2:2\nopen\nlog 2:1\nconf r2.2 2:1\nopen\nlog 2:2\nconf r4.1 1:1 2:2\nopen\nend\n',
        'logs: r4.1: the logs of 1:1 and 2:2 change to it, and by the clock the first one ended before the second one began\n' + ONE +
        'logs: 2.1.log: member 2 is 2:1 where this log changes to the configuration: 1 (r2.2)\n'
        'logs: 2.2.log: member 2 is 2:2 where this log changes to the configuration: 1 (r4.1)\n'),
    'two lives that change to one configuration': (
        '--lives', {'1.1.log': 'conf r4.1 1\nfail r4.1\n', '1.2.log': 'conf r4.1 1\n'},
        'totem-run 2\nlog 1:1\nconf r4.1 1:1\nfail r4.1\nfailed\nlog 1:2\nconf r4.1 1:2\nopen\nend\n',
        'logs: 1.1.log: member 1 is 1:1 where this log changes to the configuration: 1 (r4.1)\n'
        'logs: 1.2.log: member 1 is 1:2 where this log changes to the configuration: 1 (r4.1)\n'
        'logs: r4.1: lives 1 and 2 of process 1 change to it: a ring came again; in other logs it is life 1\n'),
}
TWO_LIVES = {'1.log': 'conf r3.1 1\nconf t4.1/1 1\nconf r4.1 1 2\n', '2.1.log': 'conf r5.2 2\n', '2.2.log': 'conf r6.2 2\n'}
# The log of 2:1 is lost: r4.1 has it as a member, and 2:2 came to r12.1.
LOST = {
    '1.log': 'conf r4.1 1 2\nsend r4.1 s 4.1#1\nconf t8.1/1 1\ndlv t8.1/1 4.1#1\nconf r8.1 1\nconf t12.1/1 1\nconf r12.1 1 2\n',
    '2.2.log': 'conf r10.2 2\nconf t12.1/2 2\nconf r12.1 1 2\n',
}
# Folders whose lives can't be found: the arguments, the files, and the messages.
UNKNOWN = {
    'a member of whom no life is known': (
        '--lives', TWO_LIVES,
        'logs: 1.log, line 3: which life of 2 is a member of r4.1? No log of it changes there: 2:1 or 2:2\n  Name each with --member '),
    'a member without any log': ('--lives', {'1.log': 'conf r4.1 1 2\n'}, '1.log, line 1: which life of 2 is a member of r4.1? '
                                 'No log of it changes there: there is no log of it\n  Name each with --member CONFIGURATION=P:L, or give the '
                                 'times of the lives with --clock FILE\n  If you know what 2 did, --made-up 2:1=failed-before or '
                                 '--made-up 2:1=as-Q:1 makes up a log (docs/OWN-LOGS.md#a-lost-log)\n'),
    'all members without any log, however often they are listed': (
        '--lives', {'1.log': ''.join('conf r%d.1 1 2 3 4 %d\n' % (4 * number, 10 + number) for number in range(1, 30)), '3.1.log': 'conf r9.3 3\n',
                    '3.2.log': 'conf r10.3 3\n'},
        'logs: 1.log, line 1: which life of 2 is a member of r4.1? No log of it changes there: there is no log of it\n'
        '  1.log, line 1: which life of 4 is a member of r4.1? No log of it changes there: there is no log of it\n' +
        ''.join('  1.log, line %d: which life of %d is a member of r%d.1? No log of it changes there: there is no log of it\n' % (
            number, 10 + number, 4 * number) for number in range(1, 30)) +
        '  1.log, line 1: which life of 3 is a member of r4.1? No log of it changes there: 3:1 or 3:2\n'),
    'a life whose log may be lost': (
        '--lives', LOST,
        'logs: 1.log, line 1: which life of 2 is a member of r4.1? No log of it changes there: 2:1 or 2:2\n'
        '  Name each with --member CONFIGURATION=P:L, or give the times of the lives with --clock FILE\n'
        '  There is no log of 2:1: if it was a member of no configuration, say --absent 2:1\n'),
    'many lives whose logs may be lost': (
        '--lives --absent 2:3', {'1.log': 'conf r4.1 1 2\n', '2.9.log': 'conf r5.2 2\n'},
        'No log of it changes there: 2:1 or 2:2 or 2:4 or 2:5 or .. or 2:9\n'
        '  Name each with --member CONFIGURATION=P:L, or give the times of the lives with --clock FILE\n'
        '  There is no log of 2:1 or 2:2 or 2:4 or 2:5 or .. or 2:8: if it was a member of no configuration, say --absent 2:1-2,2:4-8\n'),
    'a life whose log has no entry': (
        '--lives', {'1.log': 'conf r4.1 1 2\n', '2.1.log': 'conf r5.2 2\n', '2.2.log': ''},
        'which life of 2 is a member of r4.1? No log of it changes there: 2:1 or 2:2\n'),
    'a life without a log that the clock names and the call says is absent': (
        '--lives --absent 2:1 --clock FOLDER/times', {'1.log': 'conf r4.1 1 2\n', 'times': '1 start 2:1\n2 conf r4.1\n'},
        'which life of 2 is a member of r4.1? No log of it changes there: there is no log of it\n'),
    'the only life of which there is a log, and that did not run then, by the clock': (
        '--lives --clock FOLDER/times',
        {'1.log': 'conf r4.1 1 2\n', '2.log': 'conf r2.2 2\nfail r2.2\n', 'times': '1 start 2:1\n2 end 2:1\n5 conf r4.1\n'},
        'which life of 2 is a member of r4.1? No log of it changes there: 2:1, none of which ran then, by the clock\n'),
    'a life that is a member of the next configuration, and did not run then, by the clock': (
        '--lives --clock FOLDER/times',
        {'1.log': 'conf r4.1 1 2\nconf t8.1/1 1 2\nconf r8.1 1 2\n', '2.2.log': 'conf r8.1 1 2\n', 'times': '5 start 2:2\n1 conf r4.1\n'},
        'logs: 1.log, line 1: which life of 2 is a member of r4.1? No log of it changes there: 2:1 or 2:2\n'
        '  1.log, line 2: which life of 2 is a member of t8.1/1? No log of it changes there: 2:1 or 2:2\n'),
    'two lives in the configuration before': (
        '--lives', {'1.log': 'conf r4.1 1 2\nconf t8.1/1 1 2\n', '2.1.log': 'conf r4.1 1 2\n', '2.2.log': 'conf r4.1 1 2\n'},
        'logs: 1.log, line 2: which life of 2 is a member of t8.1/1? No log of it changes there: 2:1 or 2:2\n'),
    'lives that differ before and after': (
        '--lives', {'1.log': 'conf r4.1 1 2\nconf t8.1/1 1 2\nconf r8.1 1 2\n', '2.1.log': 'conf r4.1 1 2\nfail r4.1\n',
                    '2.2.log': 'conf r8.1 1 2\n'},
        'logs: 1.log, line 2: which life of 2 is a member of t8.1/1? No log of it changes there: 2:1 or 2:2\n'),
    'a life that is said to be absent, and has a log': ('--lives --absent 2:1', TWO_LIVES, 'logs: --absent 2:1: there is a log of it\n'),
    'a process that is said to be absent': ('--lives --absent 2', TWO_LIVES, 'logs: --absent 2: say which life of it, such as 2:1\n'),
    'a clock that does not tell': ('--lives --clock FOLDER/times', {**TWO_LIVES, 'times': '1 start 2:1\n'}, 'which life of 2 is a member'),
    'a clock with a life without a start, which may have run': (
        '--lives --clock FOLDER/times', {**TWO_LIVES, 'times': '1 start 2:1\n6 conf r4.1\n'},
        'which life of 2 is a member of r4.1? No log of it changes there: 2:1 or 2:2\n'),
    'a line of a clock that is none': (
        '--lives --clock FOLDER/times', {**TWO_LIVES, 'times': '1 start 2:1\n2 begin 2:2\n'}, '/times, line 2: a line is TIME start '),
    'a time of a clock that is none': (
        '--lives --clock FOLDER/times', {**TWO_LIVES, 'times': '2026-11-31T07:45:27Z start 2:1\n'}, '/times, line 1: a line is TIME start '),
    'a clock with a life past its range': (
        '--lives --clock FOLDER/times', {**TWO_LIVES, 'times': '5 start 2:65536\n'}, '/times, line 1: life 65536 is past 65535\n'),
    'a clock in which a life starts twice': (
        '--lives --clock FOLDER/times', {**TWO_LIVES, 'times': '1 start 2:1\n2 start 2:1\n'},
        '/times, line 2: life 2:1 has a start already, in line 1\n'),
    'a clock in which a life ends before it starts': (
        '--lives --clock FOLDER/times', {**TWO_LIVES, 'times': '2 start 2:1\n1 end 2:1\n'},
        '/times, line 2: life 2:1 ends before it starts\n'),
    'a clock in which lives run side by side': (
        '--lives --clock FOLDER/times', {**TWO_LIVES, 'times': '2 start 2:1\n3 start 2:2\n4 end 2:1\n'},
        '/times, line 2: life 2:2 starts before life 2:1 has started and ended\n'),
    'a clock in which a later life ends first': (
        '--lives --clock FOLDER/times', {**TWO_LIVES, 'times': '3 end 2:1\n2 end 2:2\n'},
        '/times, line 2: life 2:2 ends before life 2:1 has started and ended\n'),
    'a clock in which a life changes before it starts': (
        '--lives --clock FOLDER/times', {**TWO_LIVES, 'times': '2 start 2:1\n1 conf r5.2\n'},
        '/times, line 2: r5.2 is before the start of 2:1, whose log changes to it\n'),
    'a clock in which a life changes behind its end': (
        '--lives --clock FOLDER/times', {**TWO_LIVES, 'times': '2 start 2:1\n3 end 2:1\n4 conf r5.2\n'},
        '/times, line 3: r5.2 is after the end of 2:1, whose log changes to it\n'),
    'a member that the call names and is known': ('--lives --member r5.2=2:2', TWO_LIVES, 'logs: --member r5.2=2:2: '),
    'two members that the call names as one': ('--lives --member r4.1=2:2,2:1', TWO_LIVES, 'logs: --member r4.1=2:2,2:1: '),
    'members that have lives already': ('--lives', {'1.1.log': 'conf r4.1 1:1\n'}, '1.1.log, line 1: a member has a life already'),
}
