"""Logs of one's own, joined to a run by `tools/logs join`."""
import bz2
import gzip
import lzma
import os
import re
import subprocess
import tempfile
from functools import partial

from harness import process
from harness import rows as row_files

REPOSITORY = os.path.join(os.path.dirname(row_files.FOLDER), '..')
EXAMPLES = os.path.join(REPOSITORY, 'examples')
TOOL = os.path.join(REPOSITORY, 'tools', 'logs')

# What is told after the members without a log.
MISSING = 'logs: totem refuses a run that has members without a log (MissingLog). If you know what {0} did, --made-up {0}=failed-before or ' \
    '--made-up {0}=as-Q makes up a log (docs/OWN-LOGS.md#a-lost-log)\n'
# The run of the folder `own-logs`, whose third log ends in the middle of a line.
OWN_LOGS = b"""totem-run 1
log 1
conf r4.1 1 2 3
send r4.1 a 4.1#1
dlv r4.1 4.1#1
dlv r4.1 4.1#2
conf t8.1/1 1 2
conf r8.1 1 2
send r8.1 s 8.1#1
dlv r8.1 8.1#1
open
log 2
conf r4.1 1 2 3
dlv r4.1 4.1#1
send r4.1 a 4.1#2
dlv r4.1 4.1#2
conf t8.1/1 1 2
conf r8.1 1 2
dlv r8.1 8.1#1
open
log 3
conf r4.1 1 2 3
dlv r4.1 4.1#1
open
end
"""
# How the report of that run begins.
OWN_REPORT = b"""verdict yes
pending 3 4.1#2
waiting 3 r4.1 1
waiting 3 r4.1 2
totem-cert 1
"""

# What is told last if an option, or a first line, asks for something that can hide something: of what a yes says nothing.
HIDES = {
    '--made-up': 'what these processes did otherwise than the logs say that are made up',
    '--failed': 'what a process still had to deliver, if it did not fail (3, 7.1)',
    '--torn': 'whether anybody sent the messages whose sends are added (1.3), and safe messages among them (7.1, 7.2)',
    '--quiet': 'agreed messages of others that a quiet log lacks at its end',
    '--lives': 'lives that the layer confused (2.3, 2.4)',
    '--own-sends': '3, but for messages that others delivered and their sender did not, and 1.3 for those that a process itself delivers, '
                   'since sends stand at their own deliveries',
    '--own-order-unknown': 'messages of one process that were reordered (5)',
    '--late-sends': 'messages that got their place in a transitional configuration (2.2)',
    '--transitional': 'processes that the layer wrongly counted as gone on together (2.4, 4)',
    '--early-ends': 'messages of a process that was gone (1.3, 4, 5, 6)',
    '--late-changes': 'messages that were lost at the end of a configuration, and whose senders did not go along (5, 6.3)',
    '--trim': 'what comes after the cut',
    '--cut': 'names that come again in another part (1.1, 1.4, 2.3)',
}

# Folders by what they show: the arguments, the files, the run that they are joined to, and the messages.
FOLDERS = {
    'ten comes behind two, and a failure closes a log': (
        '', {'10.log': 'conf r4.2 2 10\nfail r4.2\n', '2.log': 'conf r4.2 2 10\n', 'notes.txt': 'no log\n'},
        'totem-run 1\nlog 2\nconf r4.2 2 10\nopen\nlog 10\nconf r4.2 2 10\nfail r4.2\nfailed\nend\n', ''),
    'lives': (
        '', {'1.1.log': 'conf r4.1 1:1\nfail r4.1\n', '1.2.log': 'conf r8.1 1:2\n'},
        'totem-run 2\nlog 1:1\nconf r4.1 1:1\nfail r4.1\nfailed\nlog 1:2\nconf r8.1 1:2\nopen\nend\n', ''),
    'quiet logs, whose processes get the life 1': (
        '', {'1.log': 'conf r4.1 1 2\nquiet\n', '2.log': 'conf r4.1 1 2\n'},
        'totem-run 3\nlog 1:1\nconf r4.1 1:1 2:1\nquiet\nlog 2:1\nconf r4.1 1:1 2:1\nopen\nend\n', ''),
    'quiet logs of lives': (
        '', {'1.1.log': 'conf r4.1 1:1\nquiet\n'},
        'totem-run 3\nlog 1:1\nconf r4.1 1:1\nquiet\nend\n', ''),
    'a word quiet that was cut off is no claim': (
        '', {'1.log': 'conf r4.1 1\nquiet'},
        'totem-run 1\nlog 1\nconf r4.1 1\nopen\nend\n', 'logs: 1.log: the last line was cut off, and is left out\n'),
    'a log without an entry is left out': (
        '', {'1.log': 'conf r4.1 1\n', '2.log': 'con'},
        'totem-run 1\nlog 1\nconf r4.1 1\nopen\nend\n',
        'logs: 2.log: the last line was cut off, and is left out\nlogs: 2.log has no entry, and is left out\n'),
    'numbers at their greatest': (
        '', {'65535.log': 'conf r4294967295.65535 65535\nsend r4294967295.65535 s 4294967295.65535#4294967295\n'},
        'totem-run 1\nlog 65535\nconf r4294967295.65535 65535\nsend r4294967295.65535 s 4294967295.65535#4294967295\nopen\nend\n', ''),
    'a send in a transitional configuration': (
        '', {'1.log': 'conf r4.1 1\nconf t8.1/1 1\nsend t8.1/1 a 4.1#1\n'},
        'totem-run 1\nlog 1\nconf r4.1 1\nconf t8.1/1 1\nsend t8.1/1 a 4.1#1\nopen\nend\n', ''),
    'a file whose name only looks like that of a log': (
        '', {'1.log': 'conf r4.1 1\n', '1.log.1': 'conf r2.1 1\n', 'notes.txt': 'no log\n'},
        'totem-run 1\nlog 1\nconf r4.1 1\nopen\nend\n', "logs: not read, since their names do not end with .log: '1.log.1'\n"),
    'a process that is known to have failed fails where it stood': (
        '--failed 2', {'1.log': 'conf r4.1 1 2\n', '2.log': 'conf r4.1 1 2\nconf t8.1/1 1 2\ndlv t8.1/1 4.'},
        'totem-run 1\nlog 1\nconf r4.1 1 2\nopen\nlog 2\nconf r4.1 1 2\nconf t8.1/1 1 2\nfail t8.1/1\nfailed\nend\n',
        'logs: 2.log: the last line was cut off, and is left out\nlogs: 2.log: fail t8.1/1 is added\n'),
    'lives that are known to have failed': (
        '--failed 1:1,2 --failed 3', {'1.1.log': 'conf r4.1 1:1 2:1 3:4\n', '1.2.log': 'conf r8.1 1:2\n',
                                      '2.1.log': 'conf r4.1 1:1 2:1 3:4\n', '3.4.log': 'conf r4.1 1:1 2:1 3:4\nfail r4.1\n'},
        'totem-run 2\nlog 1:1\nconf r4.1 1:1 2:1 3:4\nfail r4.1\nfailed\nlog 1:2\nconf r8.1 1:2\nopen\n'
        'log 2:1\nconf r4.1 1:1 2:1 3:4\nfail r4.1\nfailed\nlog 3:4\nconf r4.1 1:1 2:1 3:4\nfail r4.1\nfailed\nend\n',
        'logs: 1.1.log: fail r4.1 is added\nlogs: 2.1.log: fail r4.1 is added\nlogs: 3.4.log ends with fail already\n'),
    'all that did not fail are quiet': (
        '--failed 2 --quiet all', {'1.log': 'conf r4.1 1 2 3\n', '2.log': 'conf r4.1 1 2 3\n', '3.log': 'conf r4.1 1 2 3\nquiet\n'},
        'totem-run 3\nlog 1:1\nconf r4.1 1:1 2:1 3:1\nquiet\nlog 2:1\nconf r4.1 1:1 2:1 3:1\nfail r4.1\nfailed\n'
        'log 3:1\nconf r4.1 1:1 2:1 3:1\nquiet\nend\n',
        'logs: 2.log: fail r4.1 is added\nlogs: 1.log: is closed as quiet\n'),
    'one that is known to be quiet': (
        '--quiet 2', {'1.log': 'conf r4.1 1 2\n', '2.log': 'conf r4.1 1 2\n'},
        'totem-run 3\nlog 1:1\nconf r4.1 1:1 2:1\nopen\nlog 2:1\nconf r4.1 1:1 2:1\nquiet\nend\n',
        'logs: 2.log: is closed as quiet\n'),
}

MANY = ''.join('conf r%d.1 1 %d %d\n' % (4 * number, 2 * number, 2 * number + 1) for number in range(1, 26))
# Folders whose names have a pattern, and those with members that have no log.
NAMES = {
    'names with a pattern': (
        '--pattern node{P}.log', {'node10.log': 'conf r4.2 2 10\n', 'node2.log': 'conf r4.2 2 10\nfail\n', '3.log': 'nothing\n', 'node.txt': ''},
        'logs: node2.log, line 2: this is not an entry: fail '),
    'a number with a leading zero': (
        '--pattern node{P}.log', {'node01.log': 'conf r4.1 1\n', 'node2.log': 'conf r4.1 1\n'},
        'logs: node01.log: the number is not a process, or not a life: they are written without leading zeros\n'),
    'two names of one life': (
        '--pattern a{P}.log --pattern b{P}', {'a1.log': 'conf r4.1 1\n', 'b1': 'conf r4.1 1\n'}, 'logs: a1.log and b1 are two logs of one life\n'),
    'no name with a pattern': ('--pattern node{P}.log --pattern {P}', {'1.log': 'conf r4.1 1\n'}, ' has no file node{P}.log or {P}\n'),
    'a life past its range, in a pattern': (
        '--pattern {L}of{P}', {'65536of1': 'conf r4.1 1:1\n'}, 'logs: 65536of1: life 65536 is past 65535\n'),
    'a process past its range, in a pattern': ('--pattern p{P}', {'p65536': ''}, 'logs: p65536: process 65536 is past 65535; --renumber '),
}
FOLDERS.update({
    'names with a pattern, and others': (
        '--pattern node{P}.log', {'node10.log': 'conf r4.2 2 10\n', 'node2.log': 'conf r4.2 2 10\n', '3.log': 'no entry', 'node.txt': 'x'},
        'totem-run 1\nlog 2\nconf r4.2 2 10\nopen\nlog 10\nconf r4.2 2 10\nopen\nend\n',
        "logs: not read, since their names have no --pattern: '3.log', 'node.txt'\n"),
    'patterns with lives': (
        '--pattern {L}.of.{P}+ --pattern {P}(first)', {'2.of.1+': 'conf r8.1 1:2\n', '1.of.1+': 'conf r4.1 1:1\nfail r4.1\n'},
        'totem-run 2\nlog 1:1\nconf r4.1 1:1\nfail r4.1\nfailed\nlog 1:2\nconf r8.1 1:2\nopen\nend\n', ''),
    'a zero that belongs to the pattern': (
        '--pattern node0{P} --pattern node{P}', {'node01': 'conf r4.1 1 10\n', 'node10': 'conf r4.1 1 10\n'},
        'totem-run 1\nlog 1\nconf r4.1 1 10\nopen\nlog 10\nconf r4.1 1 10\nopen\nend\n', ''),
    'members without a log': (
        '', {'1.log': '#\nconf r4.1 1 2\nconf r8.1 1 2 3\n', '3.log': '', '4.log': 'conf r4.1 1 2 7\n'},
        'totem-run 1\nlog 1\nconf r4.1 1 2\nconf r8.1 1 2 3\nopen\nlog 4\nconf r4.1 1 2 7\nopen\nend\n',
        'logs: left out of the logs: blank lines and comments 1\nlogs: 3.log has no entry, and is left out\n'
        'logs: there is no log of 2, a member of r4.1 (1.log, line 2)\nlogs: there is no log of 3, a member of r8.1 (1.log, line 3)\n'
        'logs: there is no log of 7, a member of r4.1 (4.log, line 1)\n' + MISSING.format(2)),
    'all members without a log, however many': (
        '', {'1.log': MANY}, 'totem-run 1\nlog 1\n%sopen\nend\n' % MANY,
        ''.join('logs: there is no log of %d, a member of r%d.1 (1.log, line %d)\n' % (number, number // 2 * 4, number // 2)
                for number in range(2, 52)) + MISSING.format(2)),
    'members without a log, with lives': (
        '', {'2.1.log': 'conf r4.1 1:1 2:1\nconf r8.1 1:2 2:1\n'},
        'totem-run 2\nlog 2:1\nconf r4.1 1:1 2:1\nconf r8.1 1:2 2:1\nopen\nend\n',
        'logs: there is no log of 1:1, a member of r4.1 (2.1.log, line 1)\nlogs: there is no log of 1:2, a member of r8.1 (2.1.log, line 2)\n' + MISSING.format('1:1')),
})

ONE = {'1.log': 'conf r4.1 1\n'}
# Folders that are refused: the arguments, the files, and the messages.
REFUSED = {
    'no log': ('', {'notes.txt': 'none\n'}, 'has no file P.log or P.L.log'),
    'no entry at all': ('', {'1.log': ''}, 'logs: 1.log has no entry, and is left out\nlogs: no log has an entry\n'),
    'logs with lives and without': (
        '', {'1.log': 'conf r4.1 1\n', '2.1.log': 'conf r4.1 2:1\n'}, 'logs: 2.1.log has a life, and 1.log has none'),
    'two logs of one life': (
        '', {'1.log': 'conf r4.1 1\n', '1.1.log': 'conf r4.1 1:1\n'}, 'logs: 1.1.log and 1.log are two logs of one life\n'),
    'two logs of one life, where lives are added': (
        '--lives', {'1.log': 'conf r4.1 1\n', '1.1.log': 'conf r4.1 1\n'}, 'logs: 1.1.log and 1.log are two logs of one life\n'),
    'a name with a leading zero': ('', {**ONE, '02.log': 'conf r4.1 2\n'}, 'logs: 02.log: the name is not a process: '),
    'a name that is not a process': ('', {**ONE, 'node.log': ''}, 'logs: node.log: the name is not a process: '),
    'a process past its range': ('', {'65536.log': ''}, 'logs: 65536.log: process 65536 is past 65535; --renumber '),
    'a line that is not an entry': ('', {**ONE, '2.log': 'conf r4.1 1\nnothing\n'}, 'logs: 2.log, line 2: this is not an entry: '),
    'a line of another kind': ('', {'1.log': 'nothing\n'}, 'logs: 1.log, line 1: this is not an entry: nothing (a line begins with conf, send, dlv, '
                               'fail or quiet)\n'),
    'a run in place of a log': ('', {**ONE, '2.log': 'totem-run 1\nlog 1\n'}, 'logs: 2.log is a run, made of logs already: ./totem audit < '),
    'a log that is packed': ('', {'1.log.gz': 'x', '1.txt': ''}, 'logs: 1.log.gz is compressed (gzip): unpack it first\n'),
    'a log that is packed beside another one': ('', {**ONE, '2.3.log.xz': 'x'}, 'logs: 2.3.log.xz is compressed (xz): unpack it first\n'),
    'a packed log with a pattern': ('--pattern n{P}', {'n1': 'conf r4.1 1 2\n', 'n2.zst': 'x'}, 'logs: n2.zst is compressed (zstd): unpack it first\n'),
    'a line with a blank at its end': (
        '', {'1.log': 'conf r4.1 1\ndlv r4.1 4.1#1 \n'},
        "logs: 1.log, line 2: this is not an entry: 'dlv r4.1 4.1#1 ', with a blank at its end (such as dlv "),
    'a line that begins well': (
        '', {'1.log': 'conf r4.1 1\nsend r4.1 4.1#1\nquiet\n'},
        'logs: 1.log, line 2: this is not an entry: send r4.1 4.1#1 (such as send '),
    'a change without members': (
        '', {'1.log': 'conf t4.1/1\n'},
        'logs: 1.log, line 1: a change must name its members: conf t4.1/1 (if it is the first callback of the layer, '),
    'a leading zero': ('', {'1.log': 'conf r4.1 1\ndlv r4.1 4.1#01\n'}, 'logs: 1.log, line 2: this is not an entry: '),
    'line ends of another system': ('', {'1.log': 'conf r4.1 1\r\n'}, 'logs: 1.log, line 1: the line ends with a carriage return'),
    'quiet before the last line': (
        '', {'1.log': 'conf r4.1 1\nquiet\nsend r4.1 a 4.1#1\n'}, 'logs: 1.log, line 2: quiet is not the last line\n'),
    'quiet before a line that was cut off': (
        '', {'1.log': 'conf r4.1 1\nquiet\nsend'}, 'logs: 1.log, line 2: quiet is not the last line\n'),
    'quiet after a failure': ('', {'1.log': 'conf r4.1 1\nfail r4.1\nquiet\n'}, 'logs: 1.log, line 3: quiet comes after a failure\n'),
    'members that are not in ascending order': (
        '', {'1.log': 'conf r4.1 2 1\n'}, 'logs: 1.log, line 1: members are not in ascending order: 1 comes after 2\n'),
    '33 members': (
        '', {'1.log': 'conf r4.1 %s\n' % ' '.join(map(str, range(1, 34)))}, 'logs: 1.log, line 1: a configuration has 32 members'),
    'a member past its range': ('', {'1.log': 'conf r4.1 1 65536\n'}, 'logs: 1.log, line 1: process 65536 is past 65535'),
    'a ring past its range': ('', {'1.log': 'conf r4294967296.1 1\n'}, 'logs: 1.log, line 1: ring number 4294967296 is past 4294967295'),
    'a message past its range': (
        '--renumber', {'1.log': 'conf r4.1 1\nsend r4.1 a 4.1#4294967296\n'}, 'logs: 1.log, line 2: message number 4294967296 is past '),
    'a member with a life, in a log without': ('', {'1.log': 'conf r4.1 1:1\n'}, 'logs: 1.log, line 1: a member has a life, and the name '),
    'a member without a life, in a log with one': (
        '', {'1.1.log': 'conf r4.1 1\n'}, 'logs: 1.1.log, line 1: a member has no life, and the name '),
    'a failure of a process without a log': ('--failed 2', ONE, 'logs: there is no log of process 2\n'),
    'a failure of what is not a process': ('--failed two', ONE, "logs: 'two' is not a process"),
    'a failure of one of two lives': (
        '--failed 1', {'1.1.log': 'conf r4.1 1:1\n', '1.2.log': 'conf r8.1 1:2\n'}, 'logs: process 1 has 2 lives with a log: say which'),
    'a failure of a quiet process': ('--failed 1', {'1.log': 'conf r4.1 1\nquiet\n'}, 'logs: 1.log says that it is quiet, and the call'),
    'a quiet process that failed, beside all': (
        '--failed 2 --quiet all --quiet 2', {**ONE, '2.log': 'conf r4.1 1\n'}, 'logs: 2.log ends with fail, and the call says that it is quiet'),
    'a quiet process without a log, beside all': ('--quiet all --quiet 2', ONE, 'logs: there is no log of process 2\n'),
    'a quiet process that failed': ('--quiet 1', {'1.log': 'conf r4.1 1\nfail r4.1\n'}, 'logs: 1.log ends with fail, and the call '),
    '33 logs': ('', {'%d.log' % number: 'conf r4.1 1\n' for number in range(1, 34)}, 'logs: there are 33 logs, and a run has 32 at most'),
}


def join(words, folder):
    """The status, the output and the errors of the tool over a folder."""
    came = subprocess.run([TOOL, 'join', *words, folder], stdin=subprocess.DEVNULL, capture_output=True,
                          env=process.ENVIRONMENT, timeout=process.allowed(process.SECONDS), check=False)
    return process.Answer(came.returncode, came.stdout, came.stderr)


def write_files(folder, files):
    """Writes files into a folder."""
    for name, text in files.items():
        with open(os.path.join(folder, name), 'w', encoding='ascii', newline='') as it:
            it.write(text)


def join_files(words, files):
    """The same over these files, in a folder of their own; FOLDER in the arguments is that folder."""
    with tempfile.TemporaryDirectory() as folder:
        write_files(folder, files)
        return join([word.replace('FOLDER', folder) for word in words.split()], folder)


def try_own_logs(program):
    """The folder of the examples is joined as its three logs say, and the run's report begins as in docs/OWN-LOGS.md."""
    made = join([], os.path.join(EXAMPLES, 'own-logs'))
    if (made.status, made.output) != (0, OWN_LOGS) or made.errors != b'logs: 3.log: the last line was cut off, and is left out\n':
        return 'came: %s' % made
    came, _ = process.run([program, 'audit'], made.output)
    return None if came.output.startswith(OWN_REPORT) and not came.errors else 'came: %s' % came


def with_worth(words, told):
    """What is told of these logs, and of what a yes then says nothing."""
    first_lines = re.findall(r'(?m)^logs: as the first lines of the logs say: (.*)$', told)
    asked = ' '.join([words, *first_lines]).split()
    hidden = ['%s (%s)' % (what, option) for option, what in HIDES.items() if option in asked]
    return told + ('logs: as joined, a yes says nothing of: %s\n' % '; '.join(hidden) if hidden else '')


def try_folder(words, files, wanted, told, _program):
    """These files are joined to this run, with these messages."""
    came, told = join_files(words, files), with_worth(words, told)
    is_right = came == process.Answer(0, wanted.encode(), told.encode())
    return None if is_right else 'came:   %s\n  wanted: %r, and told %r' % (came, wanted, told)


def try_refused(words, files, said, _program):
    """These files are refused, with nothing written."""
    came = join_files(words, files)
    is_right = (came.status, came.output) == (1, b'') and said.encode() in came.errors
    return None if is_right else 'came: %s\n  wanted: %r' % (came, said)


def try_too_long(_program):
    """A log of 1,000,001 entries is refused, and so is one of 1,000,000 that is to get a failure after them."""
    for count, words in ((1000001, ''), (1000000, '--failed 1')):
        came = join_files(words, {'1.log': 'conf r4.1 1\n' + 'dlv r4.1 4.1#1\n' * (count - 1)})
        if (came.status, came.output) != (1, b'') or b'1.log has 1000001 entries, ' not in came.errors or b'--cut makes several runs' not in came.errors:
            return 'came: %s' % came
    return None


def try_no_file(make, _program):
    """What is called like a log and is no file is refused, and not read."""
    with tempfile.TemporaryDirectory() as folder:
        make(os.path.join(folder, '1.log'))
        came = join((), folder)
    return None if came == process.Answer(1, b'', b'logs: 1.log is not a file\n') else 'came: %s' % came


# What contents are that are no text, and what is said of them.
CONTENTS = {
    'is compressed (gzip): unpack it first': gzip.compress(b'conf r4.1 1\n'),
    'is compressed (xz): unpack it first': lzma.compress(b'conf r4.1 1\n'),
    'is compressed (zstd): unpack it first': b'\x28\xb5\x2f\xfd\x04\x58\x61\n',
    'is compressed (bzip2): unpack it first': bz2.compress(b'conf r4.1 1\n'),
    'begins with a byte order mark: save it without one': b'\xef\xbb\xbfconf r4.1 1\n',
    'is in UTF-16: save it in ASCII': 'conf r4.1 1\n'.encode('utf-16'),
}


def try_content(content, said, _program):
    """A log that is no text is named, and so is a run that `tools/shrink` can't read for that."""
    with tempfile.TemporaryDirectory() as folder:
        path = os.path.join(folder, '1.log')
        with open(path, 'wb') as it:
            it.write(content)
        came = [join((), folder), process.run([os.path.join(os.path.dirname(TOOL), 'shrink'), '--program', '/bin/true', path])[0]]
    wanted = [process.Answer(1, b'', b'%s: %s %s\n' % (tool, name.encode(), said.encode())) for tool, name in ((b'logs', '1.log'), (b'shrink', path))]
    return None if came == wanted else 'came: %s\n  wanted: %s' % (came, wanted)


def try_beside(_program):
    """A packed copy of a log that is there is only told."""
    came = join_files('', {**ONE, '1.log.gz': 'x'})
    told = b"logs: not read, since their names do not end with .log: '1.log.gz'\n"
    return None if (came.status, came.errors) == (0, told) else 'came: %s' % came


def try_inner(_program):
    """A folder of folders names them, and a run in its place is named."""
    with tempfile.TemporaryDirectory() as folder:
        for name in ('sub', 'srp'):
            os.mkdir(os.path.join(folder, name))
        told = 'logs: %s has no file P.log or P.L.log. In it are folders, one of which may have them: srp, sub\n' % folder
        came = join((), folder)
    if came != process.Answer(1, b'', told.encode()):
        return 'came: %s' % came
    path = os.path.join(EXAMPLES, 'first-yes.run')
    came = join((), path)
    return None if came.status == 64 and came.errors.endswith(('is a run, made of logs already: ./totem audit < %s\n' % path).encode()) else 'came: %s' % came


def try_full_map(_program):
    """If the map can't be written after the run, the status says so, and the message does not blame the logs."""
    came = join(('--map', '/dev/full'), os.path.join(EXAMPLES, 'own-logs'))
    is_right = (came.status, came.output) == (4, OWN_LOGS) and \
        came.errors.endswith(b'logs: /dev/full: No space left on device: the run is written, and its map is not\n')
    return None if is_right else 'came: %s' % came


def try_words(words, _program):
    """Usage errors get the usage."""
    came = join(words.split(), os.path.join(EXAMPLES, 'own-logs'))
    is_right = (came.status, came.output) == (64, b'') and came.errors.startswith(b'usage: logs ')
    return None if is_right else 'came: %s' % came


def try_no_folder(_program):
    """If there is no folder, the tool prints its usage."""
    came = join([], '/no/such/folder')
    is_right = (came.status, came.output) == (64, b'') and came.errors.startswith(b'usage: logs join ')
    return None if is_right else 'came: %s' % came


def try_help(_program):
    """The help explains each of the options."""
    came = join(['--help'], EXAMPLES)
    words = (b'--failed', b'--quiet', b'--lives', b'--member', b'--clock', b'--absent', b'--own-sends', b'--own-order-unknown', b'--late-sends',
             b'--made-up', b'--renumber', b'--table', b'--cut', b'--entries', b'--trim', b'--changes', b'--map', b'--pattern', b'tools/logs join FOLDER > my.run')
    return None if came.status == 0 and all(word in came.output for word in words) else 'came: %s' % came


def try_stream(number, path, _program):
    """If the output or standard error accepts no more or is closed, the status says so, and no run is whole."""
    file = os.open(path, os.O_RDWR) if path else None
    came, _ = process.run([TOOL, 'join', os.path.join(EXAMPLES, 'own-logs')], others={number: file}, environment=os.environ)
    if file is not None:
        os.close(file)
    is_told = number == 2 or came.errors.endswith(b'logs: write failed\n')
    return None if came.status == 4 and is_told and not came.output else 'came: %s' % came


def try_written(_program):
    """A log that is written while the run is made from it is reported, with status 1."""
    with tempfile.TemporaryDirectory() as folder:
        path, pipe = os.path.join(folder, '1.log'), os.path.join(folder, 'changes')
        write_files(folder, {'1.log': 'conf r4.1 1\n' + 'dlv r4.1 4.1#1\n' * 20000})
        os.mkfifo(pipe)
        # The tool waits here, before it writes the run, until somebody reads its list of changes.
        started = subprocess.Popen([TOOL, 'join', '--changes', pipe, folder], stdout=subprocess.PIPE, stderr=subprocess.PIPE, env=process.ENVIRONMENT)
        with open(pipe, 'rb') as it:
            os.utime(path, (1, 1))
            it.read()
        output, errors = started.communicate(timeout=process.allowed(process.SECONDS))
    is_right = started.returncode == 1 and b'logs: 1.log was written while the run was made from it: ' in errors
    return None if is_right else 'came: %s' % process.Answer(started.returncode, output, errors)


def try_changes(_program):
    """Everything that is changed, inferred or left out is in the list."""
    files = {'1.1.log': 'conf r4.1 1 2\nsend r4.1 a 4.1#1\nsend r4.1 a 4.1#2\nconf t8.1/1 1\nconf r8.1 1\ndlv r8.1 4.1#1\nco',
             '2.1.log': 'conf r2.2 2\n', '3.log': ''}
    with tempfile.TemporaryDirectory() as folder:
        write_files(folder, files)
        path = os.path.join(folder, 'changes')
        came = join(['--lives', '--own-sends', '--failed', '2', '--quiet', '1', '--changes', path], folder)
        with open(path, encoding='ascii') as it:
            lines = it.read()
    wanted = '1.1.log, line 7: left out: co\n3.log: left out\n2.1.log, end: fail r2.2 is added\n2.1.log, end: failed in place of open\n' \
        '1.1.log, end: quiet in place of open\nr4.1: member 1 is 1:1\nr4.1: member 2 is 2:1\nt8.1/1: member 1 is 1:1\nr8.1: member 1 is 1:1\n' \
        'r2.2: member 2 is 2:1\n1.1.log, line 2: moved to just before line 6, as send r8.1 a 4.1#1: send r4.1 a 4.1#1\n' \
        '1.1.log, line 3: left out: send r4.1 a 4.1#2\n'
    is_right = came.status == 0 and lines == wanted and ('logs: all changes are written to %s\n' % path).encode() in came.errors
    return None if is_right else 'came: %s, and %r' % (came, lines)


def joined():
    """Folders of logs, each joined to a run, or refused."""
    yield 'the folder own-logs', try_own_logs
    for what, (words, files, wanted, told) in FOLDERS.items():
        yield what, partial(try_folder, words, files, wanted, told)
    for what, (words, files, said) in {**REFUSED, **NAMES}.items():
        yield what, partial(try_refused, words, files, said)
    yield 'logs that are too long', try_too_long
    for what, make in (('a pipe', os.mkfifo), ('a device', partial(os.symlink, '/dev/zero')), ('a folder', os.mkdir)):
        yield '%s that is called like a log' % what, partial(try_no_file, make)
    for said, content in CONTENTS.items():
        yield 'a log that %s' % said, partial(try_content, content, said)
    yield 'a packed copy of a log', try_beside
    yield 'a folder of folders, and a run', try_inner
    yield 'a map on a full device', try_full_map
    for words in ('--nothing', '--fail 1', '--clock times', '--member r4.1=1:1', '--absent 2:1', '--own-order-unknown', '--late-sends',
                  '--table table', '--entries 5', '--cut /', '--cut /no/such/folder --entries 1', '--cut=', '--lives --clock=', '--changes=',
                  '--renumber --table one --changes ./one', '--lives --clock one --changes ./one',
                  '--lives --renumber --clock one --table one', '--map=', '--map one --changes ./one', '--lives --clock one --map one',
                  '--pattern=', '--pattern node.log', '--pattern {P}{L}', '--pattern {P}-{P}', '--pattern {P}.{L}.{L}', '--pattern a/{P}',
                  '--changes %s' % os.path.join(EXAMPLES, 'own-logs', '1.log')):
        yield 'the words %s' % words, partial(try_words, words)
    yield 'no folder', try_no_folder
    yield 'help', try_help
    for number, name in ((1, 'output'), (2, 'standard error')):
        yield 'a full device as %s' % name, partial(try_stream, number, '/dev/full')
        yield 'a closed %s' % name, partial(try_stream, number, None)
    yield 'all changes in a list', try_changes
    yield 'a log that is written meanwhile', try_written
