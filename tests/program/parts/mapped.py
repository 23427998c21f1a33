"""Lines of logs with more than entries, and the way back from the entries of a run to the lines, by `tools/logs where`."""
import os
import re
import subprocess
import tempfile
import zlib
from functools import partial

from harness import process
from parts.joined import EXAMPLES, TOOL, join, try_folder, try_refused, write_files

ONE = 'totem-run 1\nlog 1\nconf r4.1 1\n%sopen\nend\n'
# Folders whose lines have more than entries: the arguments, the files, the run that they are joined to, and the messages.
LINES = {
    'blank lines and comments': (
        '', {'1.log': '# node 1\n\nconf r4.1 1\n \t\n\t# dlv r4.1 4.1#9\nsend r4.1 a 4.1#1\n#\n'}, ONE % 'send r4.1 a 4.1#1\n',
        'logs: left out of the logs: blank lines and comments 5\n'),
    'times of each form, in their order': (
        '', {'1.log': '1795938327 conf r4.1 1\n1795938327.5 send r4.1 a 4.1#1\n2026-11-29T07:45:27.50Z dlv r4.1 4.1#1\n'
                      'send r4.1 a 4.1#2\n2026-11-29T05:15:28-02:30 send r4.1 a 4.1#3\n2026-11-29T08:45:28.000000001+01:00 # later\n'},
        ONE % 'send r4.1 a 4.1#1\ndlv r4.1 4.1#1\nsend r4.1 a 4.1#2\nsend r4.1 a 4.1#3\n',
        'logs: left out of the logs: blank lines and comments 1, times 5\n'),
    'a failure and a claim with times, and blank lines after them': (
        '', {'1.log': '1 conf r4.1 1\n2 quiet\n\n', '2.log': '1 conf r4.1 1\n2 fail r4.1\n\n'},
        'totem-run 3\nlog 1:1\nconf r4.1 1:1\nquiet\nlog 2:1\nconf r4.1 1:1\nfail r4.1\nfailed\nend\n',
        'logs: left out of the logs: blank lines and comments 2, times 4\n'),
    'a log with comments alone': (
        '', {'1.log': 'conf r4.1 1\n', '2.log': '# node 2 did not start\n'}, ONE % '',
        'logs: left out of the logs: blank lines and comments 1\nlogs: 2.log has no entry, and is left out\n'),
    'checksums that are the same': (
        '', {'1.log': 'conf r4.1 1\nsend r4.1 a 4.1#1\ndlv r4.1 4.1#1 crc=0123abcd\n', '2.log': 'conf r4.1 1\n5.25 dlv r4.1 4.1#1 crc=0123ABCD\n',
             '3.log': 'conf r4.1 1\ndlv r4.1 4.1#1\n'},
        (ONE % 'send r4.1 a 4.1#1\ndlv r4.1 4.1#1\n')[:-4] + ''.join('log %d\nconf r4.1 1\ndlv r4.1 4.1#1\nopen\n' % log for log in (2, 3)) + 'end\n',
        'logs: left out of the logs: times 1, checksums 2\n'),
}
NO_TIME = 'logs: 1.log, line 2: this is not a time: %s (such as '
NO_CHECKSUM = 'logs: 1.log, line 2: a checksum is crc= and 8 hexadecimal digits, after a delivery: '
# Folders that are refused: the arguments, the files, and the messages. The numbers are those of the lines in the files.
LINES_REFUSED = {
    'a time that goes back': (
        '', {'1.log': '2026-11-29T07:45:27.5Z conf r4.1 1\n\n2026-11-29T07:45:27.49Z send r4.1 a 4.1#1\n'},
        'logs: 1.log, line 3: the time goes back: 2026-11-29T07:45:27.49Z comes after 2026-11-29T07:45:27.5Z\n'),
    'a time that goes back, though it looks later': (
        '', {'1.log': '2026-11-29T07:45:27Z conf r4.1 1\n2026-11-29T08:45:26+01:00 # x\n'}, 'logs: 1.log, line 2: the time goes back: '),
    'a time that goes back after a line without one': ('', {'1.log': '5 conf r4.1 1\ndlv r4.1 4.1#1\n4.9 dlv r4.1 4.1#2\n'},
                                                       'logs: 1.log, line 3: the time goes back: 4.9 comes after 5\n'),
    'a line after others with more than entries': (
        '', {'1.log': '# one\n1 conf r4.1 1\n\n2 conf t8.1/1 1\nnothing\n'}, 'logs: 1.log, line 5: this is not an entry: nothing '),
    'members after a comment': ('', {'1.log': '#\nconf r4.1 2 1\n'}, 'logs: 1.log, line 2: members are not in ascending order: '),
    'a claim after a comment, and a line after it': ('', {'1.log': '#\nconf r4.1 1\nquiet\nsend'}, 'logs: 1.log, line 3: quiet is not the last '),
    'a claim with a time, and a line after it': ('', {'1.log': '1 conf r4.1 1\n2 quiet\n3 conf'}, 'logs: 1.log, line 2: quiet is not the last '),
    'two claims': ('', {'1.log': 'conf r4.1 1\n1 quiet\n\nquiet\n'}, 'logs: 1.log, line 2: quiet is not the last line\n'),
    'a claim after a failure and a blank line': (
        '', {'1.log': 'conf r4.1 1\nfail r4.1\n\n7 quiet\n\n'}, 'logs: 1.log, line 4: quiet comes after a failure\n'),
    'a life that is asked for': (
        '--lives', {'1.log': '#\n#\nconf r4.1 1 2\n', '2.1.log': 'conf r5.2 2\n', '2.2.log': 'conf r6.2 2\n'},
        'logs: 1.log, line 3: which life of 2 is a member of r4.1?'),
    'sends in another order, after comments': (
        '--own-sends', {'1.log': '#\nconf r4.1 1\nsend r4.1 a 4.1#1\n#\nsend r4.1 a 4.1#2\n#\ndlv r4.1 4.1#2\ndlv r4.1 4.1#1\n'},
        'logs: 1.log: sends 4.1#1 (line 3) and then 4.1#2 (line 5), and delivers the first one in line 8 and the second one in line 7\n'),
    'no place to cut, after comments and moved sends': (
        '--own-sends --trim', {
            '1.log': '#\nconf r4.1 1 2\nsend r4.1 a 4.1#1\nconf t8.1/1 1 2\nconf r8.1 1 2\nconf t12.1/1 1 2\nconf r12.1 1 2\ndlv r12.1 4.1#1\n',
            '2.log': 'conf r4.1 1 2\nconf t12.1/1 1 2\nconf r12.1 1 2\n#\nconf t8.1/1 1 2\nconf r8.1 1 2\n'},
        'logs: r12.1 is no place to cut: t8.1/1 comes before it in 1.log (line 4), and after it in 2.log (line 5)\n'),
    'two checksums of a message': (
        '', {'1.log': 'conf r4.1 1\n\ndlv r4.1 4.1#1 crc=0123abcd\n', '2.log': 'conf r4.1 1\ndlv r4.1 4.1#1\n',
             '3.log': 'conf r4.1 1\ndlv r4.1 4.1#1 crc=0123abce\n'},
        'logs: 4.1#1 has two checksums: crc=0123abcd in 1.log, line 3, and crc=0123abce in 3.log, line 2\n'),
    'many messages with two checksums': (
        '', {'%d.log' % log: 'conf r4.1 1 2\n' + ''.join('dlv r4.1 4.1#%d crc=0000000%d\n' % (number, log) for number in range(1, 26)) for log in (1, 2)},
        '  4.1#20 has two checksums: crc=00000001 in 1.log, line 21, and crc=00000002 in 2.log, line 21\n  .. and 5 more\n'),
    'a checksum after a send': ('', {'1.log': 'conf r4.1 1\nsend r4.1 a 4.1#1 crc=0123abcd\n'}, NO_CHECKSUM),
    'a checksum of seven digits': ('', {'1.log': 'conf r4.1 1\ndlv r4.1 4.1#1 crc=0123abc\n'}, NO_CHECKSUM),
    'a checksum that is no number': ('', {'1.log': 'conf r4.1 1\ndlv r4.1 4.1#1 crc=0123abcg\n'}, NO_CHECKSUM),
    **{'the time %s' % time: ('', {'1.log': '#\n%s conf r4.1 1\n' % time}, NO_TIME % time) for time in (
        '2026-13-29T07:45:27Z', '2026-11-31T07:45:27Z', '0000-11-29T07:45:27Z', '2026-11-29T24:45:27Z', '2026-11-29T07:60:27Z',
        '2026-11-29T07:45:61Z', '2026-11-29T07:45:27', '2026-11-29T07:45:27.Z', '2026-11-29T07:45:27+1:00', '2026-11-29T07:45:27+24:00',
        '2026-11-29', '07:45:27', '1795938327.', '1e9', '1795938327.0123456789', '1234567890123')},
}

# Runs with their maps: the arguments, the files, the map, and what is said of some places.
MAPS = {
    'rows of lines, of a log without an entry, and one that was cut off': (
        '', {'1.log': 'conf r4.1 1 2\nsend r4.1 a 4.1#1\n\ndlv r4.1 4.1#1\n', '2.log': '', '10.log': 'conf r4.1 1 2\ndlv'},
        'totem-map 1\nlog 1 1.log\n1-2 1\n3 4\nlog 10 10.log\n1 1\nend\n',
        ('1@1 1@3 10@1', '1@1: 1.log, line 1\n1@3: 1.log, line 4\n10@1: 10.log, line 1\n')),
    'times, and an entry without one': (
        '', {'1.log': '# x\n1.50 conf r4.1 1\n2026-11-29T08:45:27.25+01:00 send r4.1 a 4.1#1\ndlv r4.1 4.1#1\n'},
        'totem-map 1\nlog 1 1.log\n1 2 1.50\n2 3 2026-11-29T08:45:27.25+01:00\n3 4\nend\n',
        ('1@2 1@3 1@2', '1@2: 1.log, line 3, 2026-11-29T08:45:27.25+01:00\n1@3: 1.log, line 4\n1@2: 1.log, line 3, 2026-11-29T08:45:27.25+01:00\n')),
    'an entry that is added, and lives that are written': (
        '--failed 2 --quiet 1', {'1.log': 'conf r4.1 1 2\n', '2.log': 'conf r4.1 1 2\n'},
        'totem-map 1\nlog 1:1 1.log\n1 1\nlog 2:1 2.log\n1 1\n2 added\nend\n',
        ('2:1@2 2:1@1', '2:1@2: added by join after the last line of 2.log\n2:1@1: 2.log, line 1\n')),
    'a place without the life that its process has': (
        '--quiet all', {'1.log': '\nconf r4.1 1\n'}, 'totem-map 1\nlog 1:1 1.log\n1 2\nend\n', ('1@1', '1:1@1: 1.log, line 2\n')),
    'logs that are made up': (
        '--made-up 2=as-1 --made-up 3=failed-before', {'1.log': '#\nconf r4.1 1 2 3\ndlv r4.1 4.1#1\nsend r4.1 a 4.1#1\n'},
        'totem-map 1\nlog 1 1.log\n1-3 2\nlog 2 2.log\n1-2 made up\nlog 3 3.log\n1-2 made up\nend\n',
        ('2@2 1@2 3@2', '2@2: made up by join: there is no 2.log\n1@2: 1.log, line 3\n3@2: made up by join: there is no 3.log\n')),
    'an entry that is added and left out again': (
        '--failed 2 --trim', {'1.log': 'conf r4.1 1 2\n', '2.log': 'conf r4.1 1 2\n'},
        'totem-map 1\nlog 1 1.log\n1 1\nlog 2 2.log\n1 1\nend\n', ('2@1', '2@1: 2.log, line 1\n')),
    'sends that are moved and left out': (
        '--own-sends', {'1.log': 'conf r4.1 1 2\n1 send r4.1 a 4.1#1\n2 send r4.1 a 4.1#2\n3 send r4.1 a 4.1#3\n4 dlv r4.1 4.1#1\n\n5 conf t8.1/1 1\n'
                                 '6 dlv t8.1/1 4.1#2\n', '2.log': 'conf r4.1 1 2\n'},
        'totem-map 1\nlog 1 1.log\n1 1\n2 2 1\n3 5 4\n4 3 2\n5 7 5\n6 8 6\nlog 2 2.log\n1 1\nend\n',
        ('1@4 1@5', '1@4: 1.log, line 3, 2\n1@5: 1.log, line 7, 5\n')),
    'a transitional configuration that is assumed': (
        '--transitional', {'1.log': '# of libcpg\n1.5 conf r4.1 1\n2 dlv r4.1 4.1#1\n3 conf r8.1 1\ndlv r8.1 8.1#1\n'},
        'totem-map 1\nlog 1 1.log\n1 2 1.5\n2 3 2\n3 added 4\n4 4 3\n5 5\nend\n',
        ('1@3 1@4', '1@3: added by join before line 4 of 1.log\n1@4: 1.log, line 4, 3\n')),
    'parts after one that is assumed': (
        '--transitional --cut FOLDER/parts --entries 3', {'1.log': 'conf r4.1 1\nconf r8.1 1\nconf r12.1 1\n'},
        'totem-map 1\nrun part-1.run\nlog 1 1.log\n1 1\n2 added 2\n3 2\nrun part-2.run\nlog 1 1.log\n1 2\n2 added 3\n3 3\nend\n',
        ('--part 2 1@2 1@3', '1@2: added by join before line 3 of 1.log\n1@3: 1.log, line 3\n')),
    'sends that are added at a torn end': (
        '--torn 1', {'1.log': 'conf r4.1 1 2\n', '2.log': '#\nconf r4.1 1 2\ndlv r4.1 4.1#1\n'},
        'totem-map 1\nlog 1 1.log\n1 1\n2 added\n3 added\nlog 2 2.log\n1-2 2\nend\n',
        ('1@2 1@3', '1@2: added by join after the last line of 1.log\n1@3: added by join after the last line of 1.log\n')),
    'a change that goes to an earlier place': (
        '--late-changes', {'1.log': 'conf r4.1 1 2\n1 dlv r4.1 4.1#2\n\n2 send r4.1 a 4.1#3\n3 dlv r4.1 4.1#3\n4 conf t8.1/1 1\n5 conf r8.1 1\n',
                           '2.log': 'conf r4.1 1 2\ndlv r4.1 4.1#1\ndlv r4.1 4.1#2\n'},
        'totem-map 1\nlog 1 1.log\n1 1\n2 4 2\n3 6 4\n4 2 1\n5 5 3\n6 7 5\nlog 2 2.log\n1-3 1\nend\n',
        ('1@2 1@3 1@4', '1@2: 1.log, line 4, 2\n1@3: 1.log, line 6, 4\n1@4: 1.log, line 2, 1\n')),
    'an assumed change that goes to an earlier place': (
        '--transitional --late-changes', {'1.log': 'conf r4.1 1 2\ndlv r4.1 4.1#2\nsend r4.1 a 4.1#3\nconf r8.1 1\n',
                                          '2.log': 'conf r4.1 1 2\ndlv r4.1 4.1#1\ndlv r4.1 4.1#2\n'},
        'totem-map 1\nlog 1 1.log\n1 1\n2 3\n3 added 2\n4 2\n5 4\nlog 2 2.log\n1-3 1\nend\n',
        ('1@3 1@4', '1@3: added by join before line 2 of 1.log\n1@4: 1.log, line 2\n')),
    'a send that goes to before such a change': (
        '--late-changes --own-sends', {
            '1.log': 'conf r4.1 1 2\nsend r4.1 a 4.1#3\ndlv r4.1 4.1#1\ndlv r4.1 4.1#2\ndlv r4.1 4.1#3\nconf t8.1/1 1\nconf r8.1 1\n',
            '2.log': 'conf r4.1 1 2\ndlv r4.1 4.1#1\ndlv r4.1 4.1#4\ndlv r4.1 4.1#2\n'},
        'totem-map 1\nlog 1 1.log\n1 1\n2 3\n3 2\n4 6\n5-6 4\n7 7\nlog 2 2.log\n1-4 1\nend\n',
        ('1@3 1@4 1@5', '1@3: 1.log, line 2\n1@4: 1.log, line 6\n1@5: 1.log, line 4\n')),
    'messages that went out after their sender was killed': (
        '--early-ends', {'1.log': 'conf r4.1 1 2\n1 dlv r4.1 4.1#1\n2 conf t8.1/1 1\n3 conf r8.1 1 2\n\n4 dlv r8.1 4.1#3\n5 dlv r8.1 4.1#2\n6 conf t12.1/1 1\n',
                         '2.log': 'conf r4.1 1 2\nsend r4.1 a 4.1#2\nsend r4.1 a 4.1#1\ndlv r4.1 4.1#1\nfail r4.1\n'},
        'totem-map 1\nlog 1 1.log\n1 1\n2 2 1\n3 3 2\n4 4 3\n5 6 4\n6 8 6\nlog 2 2.log\n1 1\n2-4 3\nend\n',
        ('1@5 1@6 2@2', '1@5: 1.log, line 6, 4\n1@6: 1.log, line 8, 6\n2@2: 2.log, line 3\n')),
    'new numbers': (
        '--renumber', {'70000.log': 'conf r4.70000 70000\n', '9.log': '\nconf r4.70000 70000\n'},
        'totem-map 1\nlog 1 9.log\n1 2\nlog 2 70000.log\n1 1\nend\n', ('2@1 1@1', '2@1: 70000.log, line 1\n1@1: 9.log, line 2\n')),
    'parts': (
        '--cut FOLDER/parts --entries 4 --failed 1', {'1.log': 'conf r4.1 1\nconf t8.1/1 1\n\nconf r8.1 1\n#\nsend r8.1 a 8.1#1\n'},
        'totem-map 1\nrun part-1.run\nlog 1 1.log\n1-2 1\n3 4\nrun part-2.run\nlog 1 1.log\n1 4\n2 6\n3 added\nend\n',
        ('--part 2 1@1 1@3', '1@1: 1.log, line 4\n1@3: added by join after the last line of 1.log\n')),
}
GOOD = 'totem-map 1\nlog 1 %08x 1.log\n1-2 1\n3 4 1.5\n4 added\nlog 2:7 %08x 2.7.log\n1 1\nend\n' % (
    zlib.crc32(b'conf r4.1 1\nsend r4.1 a 4.1#1\ndlv r4.1 4.1#1\nfail r4.1\n'), zlib.crc32(b'conf r4.1 1\n'))
PARTS = 'totem-map 1\nrun part-1.run\nlog 1 01234567 1.log\n1 1\nrun part-2.run\nlog 1 89abcdef 1.log\n1-2 1\nend\n'
# Maps that are broken, or have no such place: the map, the arguments, and the message.
BROKEN = {
    'an entry after the last one': (GOOD, '1@1 1@5', 'logs: MAP, line 2: log 1 has 4 entries, so there is no 1@5\n'),
    'a process with two lives': (GOOD.replace('log 1 ', 'log 2:9 '), '2@1', 'logs: MAP has several lives of 2, so say which one: 2:9@1 or 2:7@1\n'),
    'a life that is not there': (GOOD, '2:8@1', 'logs: MAP has no log 2:8, so there is no 2:8@1: its logs are 1, 2:7\n'),
    'an entry after the last one of the only life': (GOOD, '2@2', 'logs: MAP, line 6: log 2:7 has 1 entries, so there is no 2:7@2\n'),
    'a log that is not there': (GOOD, '3@1', 'logs: MAP has no log 3, so there is no 3@1: its logs are 1, 2:7\n'),
    'no map': (GOOD[6:], '1@1', 'logs: MAP, line 1: this is no map: its first line is not `totem-map 1`\n'),
    'nothing': ('', '1@1', 'logs: MAP, line 1: the map ends without the line `end`\n'),
    'no end': (GOOD[:-4], '1@1', 'logs: MAP, line 8: the map ends without the line `end`\n'),
    'an end that was cut off': (GOOD[:-1], '1@1', 'logs: MAP, line 8: the line is cut off\n'),
    'a line after the end': (GOOD + '\n', '1@1', 'logs: MAP, line 9: the map goes on after its end\n'),
    'a blank line': (GOOD.replace('log 2', '\nlog 2'), '1@1', 'logs: MAP, line 6: this line does not belong here: \n'),
    'entries that are left out': (GOOD.replace('3 4', '4 4'), '1@1', 'logs: MAP, line 4: the entries of log 1 are not in their order\n'),
    'entries that come twice': (GOOD.replace('3 4', '2 4'), '1@1', 'logs: MAP, line 4: the entries of log 1 are not in their order\n'),
    'entries in falling order': (GOOD.replace('1-2', '1-0'), '1@1', 'logs: MAP, line 3: this line does not belong here: 1-0 1\n'),
    'an entry after one that was added': (GOOD.replace('4 added', '4 added\n5 5'), '1@1', 'logs: MAP, line 6: the entries of log 1 are not in '),
    'a time of several entries': (GOOD.replace('1-2 1', '1-2 1 1.5'), '1@1', 'logs: MAP, line 3: this line does not belong here: 1-2 1 1.5\n'),
    'several entries that were added before a line': (GOOD.replace('4 added', '4-5 added 7'), '1@1', 'logs: MAP, line 5: this line does not belong '),
    'several entries that were added': (GOOD.replace('4 added', '4-5 added'), '1@1', 'logs: MAP, line 5: this line does not belong here: '),
    'a time that is none': (GOOD.replace('1.5', '1.5.1'), '1@3', 'logs: MAP, line 4: this is no time: 1.5.1\n'),
    'a log without an entry': (GOOD.replace('\n1 1\n', '\n'), '1@1', 'logs: MAP, line 7: log 2:7 has no entry\n'),
    'a log that comes twice': (GOOD.replace('2:7 ', '1 '), '1@1', 'logs: MAP, line 6: log 1 comes twice\n'),
    'a row without a log': (GOOD.replace(GOOD.split('\n')[1] + '\n', ''), '1@1', 'logs: MAP, line 2: this line does not belong here: 1-2 1\n'),
    'a part after a log': (GOOD.replace('log 2:7', 'run part-1.run\nlog 2:7'), '1@1', 'logs: MAP, line 6: this line does not belong here: '),
    'parts in another order': (PARTS.replace('part-2', 'part-3'), '--part 1 1@1', 'logs: MAP, line 5: this line does not belong here: '),
    'a part that is not said': (PARTS, '1@1', 'logs: MAP is the map of 2 parts: say --part 1, or which one it is\n'),
    'a part that is not there': (PARTS, '--part 3 1@1', 'logs: MAP has no part 3: --part is 1 to 2\n'),
    'a part of one run': (GOOD, '--part 1 1@1', 'logs: MAP is the map of one run: leave --part out\n'),
    'an entry of another part': (PARTS, '--part 1 1@2', 'logs: MAP, line 3: log 1 has 1 entries, so there is no 1@2\n'),
}
RUN = 'totem-run 2\nlog 1\nconf r4.1 1\nsend r4.1 a 4.1#1\ndlv r4.1 4.1#1\nfail r4.1\nfailed\nlog 2:7\nconf r4.1 1\nopen\nend\n'
# Runs that a map does not fit: the run, and the message.
OTHERS = {
    'another entry': (RUN.replace('dlv r4.1 4.1#1', 'dlv r4.1 4.1#2'), 'logs: MAP, line 2: the map does not fit RUN: it was made for other entries of log 1\n'),
    'entries in another order': (
        RUN.replace('send r4.1 a 4.1#1\ndlv r4.1 4.1#1', 'dlv r4.1 4.1#1\nsend r4.1 a 4.1#1'),
        'logs: MAP, line 2: the map does not fit RUN: it was made for other entries of log 1\n'),
    'more entries': (RUN.replace('fail r4.1\nfailed', 'conf r4.1 1\nfail r4.1\nfailed'),
                     'logs: MAP, line 2: the map does not fit RUN: it has 4 entries of log 1, and the run 5\n'),
    'fewer entries of the last log': (RUN.replace('2:7\nconf r4.1 1\n', '2:7\n'),
                                      'logs: MAP, line 6: the map does not fit RUN: it has 1 entries of log 2:7, and the run 0\n'),
    'another log': (RUN.replace('2:7', '2:8'), 'logs: MAP does not fit RUN, line 8: the map has no log 2:8\n'),
    'a log less': (RUN[:RUN.index('log 2:7')] + 'end\n', 'logs: MAP, line 6: the map does not fit RUN, which has no log 2:7\n'),
}
# Folders of the examples, and the arguments with which each is joined.
TAGGED = (
    ('own-logs', ''), ('own-logs', '--failed 3 --quiet all'), ('logs/sent-when-taken', '--own-sends'), ('logs/sent-when-ordered', ''),
    ('logs/sent-when-ordered', '--cut PARTS --entries 5'), ('logs/lost-tail', '--trim'), ('logs/large-numbers', '--renumber'),
    ('logs/taken-and-lost', '--own-sends'), ('logs/sent-when-delivered-late', '--own-sends --late-sends'),
    ('logs/own-order', '--own-sends --own-order-unknown --trim'), ('logs/lives', '--lives --clock FOLDER/times'),
    ('logs/sent-again', '--own-sends --cut PARTS --entries 5'), ('corosync/delivered-twice', ''),
)


def where(words, folder):
    """The status, the output and the errors of the tool that finds entries, called in a folder."""
    came = subprocess.run([TOOL, 'where', *words], cwd=folder, stdin=subprocess.DEVNULL, capture_output=True, env=process.ENVIRONMENT,
                          timeout=process.allowed(process.SECONDS), check=False)
    return process.Answer(came.returncode, came.stdout, came.stderr)


def _words(path, words):
    """The arguments with the map in its place."""
    words = words.split()
    return [*words[:2], path, *words[2:]] if words[0] == '--part' else [path, *words]


def without_sums(text, runs):
    """A map without the CRC-32 of the logs, which are those of these runs, in their order; or None if they are others."""
    logs = [log.split('\n') for run in runs for log in run.split('\nlog ')[1:]]
    wanted = [zlib.crc32(''.join(line + '\n' for line in lines[1:] if ' ' in line).encode()) for lines in logs]
    found = [int(found, 16) for found in re.findall(r'(?m)^log \S+ ([0-9a-f]{8}) ', text)]
    return re.sub(r'(?m)^(log \S+) [0-9a-f]{8} ', r'\1 ', text) if found == wanted else None


def runs_of(came, parts):
    """The runs that were written, in their order."""
    runs = [came.output.decode()] if not os.path.isdir(parts) else []
    for number in range(1, len(os.listdir(parts)) + 1) if not runs else ():
        with open(os.path.join(parts, 'part-%d.run' % number), encoding='ascii') as it:
            runs.append(it.read())
    return runs


def try_map(words, files, wanted, asked, _program):
    """A folder gets this map, which says this of some places, also beside the run."""
    with tempfile.TemporaryDirectory() as folder:
        write_files(folder, files)
        path = os.path.join(folder, 'map')
        came = join([*words.replace('FOLDER', folder).split(), '--map', path], folder)
        if came.status:
            return 'came: %s' % came
        with open(path, encoding='ascii') as it:
            made = it.read()
        runs = runs_of(came, os.path.join(folder, 'parts'))
        write_files(folder, {'run': runs[-1]})
        made = without_sums(made, runs)
        found = where(_words(path, asked[0]), folder)
        fits = where(['--run', 'run', *_words(path, asked[0])], folder) if '--part' not in asked[0] else \
            where(['--run', 'parts/part-2.run', *_words(path, asked[0])], folder)
    is_right = made == wanted and found == process.Answer(0, asked[1].encode(), b'') and fits.status == 0
    return None if is_right else 'came: %s\n  %r\n  %s\n  %s\n  wanted: %r' % (came, made, found, fits, wanted)


def try_broken(text, words, said, _program):
    """A map is refused, or has no such place, and nothing is written."""
    with tempfile.TemporaryDirectory() as folder:
        write_files(folder, {'MAP': text})
        came = where(_words('MAP', words), folder)
    is_right = (came.status, came.output) == (1, b'') and came.errors.decode().startswith(said) and came.errors.count(b'\n') == 1
    return None if is_right else 'came: %s\n  wanted: %r' % (came, said)


def try_fit(_program):
    """With the run, the entries are printed too."""
    with tempfile.TemporaryDirectory() as folder:
        write_files(folder, {'MAP': GOOD, 'RUN': RUN})
        came = where(['--run', 'RUN', 'MAP', '2:7@1', '1@3', '1@4'], folder)
    wanted = b'2:7@1: 2.7.log, line 1: conf r4.1 1\n1@3: 1.log, line 4, 1.5: dlv r4.1 4.1#1\n' \
        b'1@4: added by join after the last line of 1.log: fail r4.1\n'
    return None if came == process.Answer(0, wanted, b'') else 'came: %s\n  wanted: %r' % (came, wanted)


def try_other(text, said, _program):
    """A run that the map does not fit is refused, and nothing is written."""
    with tempfile.TemporaryDirectory() as folder:
        write_files(folder, {'MAP': GOOD, 'RUN': text})
        came = where(['--run', 'RUN', 'MAP', '1@1'], folder)
    return None if came == process.Answer(1, b'', said.encode()) else 'came: %s\n  wanted: %r' % (came, said)


def try_missing(_program):
    """Files that are not there."""
    with tempfile.TemporaryDirectory() as folder:
        write_files(folder, {'MAP': GOOD})
        came = [where(words, folder) for words in (['no', '1@1'], ['--run', 'no', 'MAP', '1@1'])]
    return None if came == [process.Answer(1, b'', b'logs: no: No such file or directory\n')] * 2 else 'came: %s, %s' % tuple(came)


def try_words(words, said, _program):
    """Usage errors get the usage, and the allowed values."""
    came = where(words.split(), EXAMPLES)
    is_right = (came.status, came.output) == (64, b'') and came.errors.startswith(b'usage: logs ') and said.encode() in came.errors
    return None if is_right else 'came: %s' % came


def try_refused_map(_program):
    """If logs can't be joined, no map is written; and none over a log."""
    with tempfile.TemporaryDirectory() as folder:
        write_files(folder, {'1.log': 'conf r4.1 1\n', '2.log': 'conf r5.2 2\n'})
        path = os.path.join(folder, 'map')
        refused = join(['--trim', '--map', path], folder)
        over = join(['--map', os.path.join(folder, '1.log')], folder)
        twice = join(['--map', path, '--changes', path], folder)
        nowhere = join(['--map', os.path.join(folder, 'no', 'map')], folder)
        left = sorted(os.listdir(folder))
    came = (refused, over, twice, nowhere)
    is_right = [it.status for it in came] == [1, 64, 64, 1] and not any(it.output for it in came) and left == ['1.log', '2.log']
    return None if is_right else 'came: %s, %s, %s, %s, and %r' % (*came, left)


def tagged_files(folder):
    """The files of a folder with a tag before each line of a log that no other line has, and the lines by their tags."""
    files, lines = {}, {}
    for name in sorted(os.listdir(folder)):
        with open(os.path.join(folder, name), encoding='ascii') as it:
            text = it.read()
        if name.endswith('.log'):
            tagged = []
            for line in text.splitlines(keepends=True):
                tag = '%d.%03d' % (len(lines), 7 * len(lines) % 1000)
                lines[tag] = line.rstrip('\n')
                tagged.append('# %s\n' % line.rstrip() if len(lines) % 3 == 0 else '')
                tagged.append('%s %s' % (tag, line))
            text = ''.join(tagged)
        files[name] = text
    return files, lines


def bare(line, is_numbered_anew):
    """What an option does not change of an entry: not the configuration of a send, nor lives; of new numbers only what is no number of a process
    or ring."""
    words = line.split(' ')
    words = [words[0], *words[2:]] if words[0] == 'send' else words
    if is_numbered_anew:
        return [re.sub(r'[0-9]+\.[0-9]+|/[0-9]+', '', word) if '.' in word else '' for word in words]
    return [re.sub(r':[0-9]+$', '', word) for word in words]


def try_tagged(name, words, _program):
    """Each line has a tag of its own, and each entry of the run has the tag of the line that has this entry."""
    with tempfile.TemporaryDirectory() as folder:
        files, lines = tagged_files(os.path.join(EXAMPLES, name))
        write_files(folder, files)
        path, parts = os.path.join(folder, 'map'), os.path.join(folder, 'parts')
        came = join([*words.replace('FOLDER', folder).replace('PARTS', parts).split(), '--map', path], folder)
        if came.status:
            return 'came: %s' % came
        for number, text in enumerate(runs_of(came, parts), 1):
            wrong = _wrong_tags(folder, files, lines, text, ['--part', str(number)] if 'PARTS' in words else [], '--renumber' in words)
            if wrong:
                return wrong
    return None


def _wrong_tags(folder, files, lines, text, part, is_numbered_anew):
    """What is wrong with the tags of the entries of a run, or None."""
    entries, who, seen = {}, '', set()
    for line in text.splitlines()[1:-1]:
        if line.startswith('log '):
            who, count = line[4:], 0
        elif ' ' in line:
            count += 1
            entries['%s@%d' % (who, count)] = line
    came = where([*part, 'map', *entries], folder)
    told = came.output.decode().splitlines()
    if came.status or len(told) != len(entries):
        return 'came: %s' % came
    for (place, entry), line in zip(entries.items(), told):
        found = re.fullmatch(r'(\S+): (\S+), line (\d+), (\S+)', line)
        if not found and 'added by join' in line and entry.startswith('fail '):
            continue
        own = files[found[2]].splitlines()[int(found[3]) - 1] if found else ''
        if not found or found[1] != place or found[4] in seen or own != '%s %s' % (found[4], lines[found[4]]) \
                or bare(lines[found[4]], is_numbered_anew) != bare(entry, is_numbered_anew):
            return 'where says %r of %r, and this line is %r' % (line, entry, own)
        seen.add(found[4])
    return None


def try_stream(number, path, _program):
    """If the output or standard error accepts no more or is closed, the status says so."""
    with tempfile.TemporaryDirectory() as folder:
        write_files(folder, {'MAP': GOOD})
        file = os.open(path, os.O_RDWR) if path else None
        place = '1@1' if number == 1 else '1@9'
        came, _ = process.run([TOOL, 'where', os.path.join(folder, 'MAP'), place], others={number: file}, environment=os.environ)
        if file is not None:
            os.close(file)
    is_told = number == 2 or came.errors == b'logs: write failed\n'
    return None if came.status == 4 and is_told and not came.output else 'came: %s' % came


def mapped():
    """Lines with more than entries, and maps."""
    for what, (words, files, wanted, told) in LINES.items():
        yield what, partial(try_folder, words, files, wanted, told)
    for what, (words, files, said) in LINES_REFUSED.items():
        yield what, partial(try_refused, words, files, said)
    for what, (words, files, wanted, asked) in MAPS.items():
        yield 'a map: %s' % what, partial(try_map, words, files, wanted, asked)
    for what, (text, words, said) in BROKEN.items():
        yield 'a broken map: %s' % what, partial(try_broken, text, words, said)
    yield 'a run that the map fits', try_fit
    for what, (text, said) in OTHERS.items():
        yield 'a run that the map does not fit: %s' % what, partial(try_other, text, said)
    yield 'files that are not there', try_missing
    for words, said in (('', 'MAP'), ('map', 'PLACE'), ('map 2', "'2' is not a place: say 2@1543, or 2:1@1543"), ('map 2@0', 'is not a place'),
                        ('map 2:@1', 'is not a place'), ('map 0@1', 'is not a place'), ('--part 0 map 2@1', '--part is 1 or more'),
                        ('--nothing map 2@1', '--nothing')):
        yield 'the words where %s' % words, partial(try_words, words, said)
    yield 'no map where logs are refused', try_refused_map
    for name, words in TAGGED:
        yield 'tags of %s %s' % (name, words), partial(try_tagged, name, words)
    for number, name in ((1, 'output'), (2, 'standard error')):
        yield 'a full device as %s of where' % name, partial(try_stream, number, '/dev/full')
        yield 'a closed %s of where' % name, partial(try_stream, number, None)
