"""What `tools/logs join` adds, moves, renumbers and cuts."""
import os
import tempfile
from functools import partial

from harness import process
from parts.early_ends import EARLY_ENDS
from parts.joined import EXAMPLES, join, join_files, try_folder, try_refused, with_worth, write_files
from parts.first_lines import FIRST_LINES, FIRST_LINES_REFUSED
from parts.late_changes import LATE_CHANGES
from parts.lives import LIVES, UNKNOWN
from parts.made_up import MADE_UP, MADE_UP_REFUSED
from parts.sends import SENDS, SWAPPED
from parts.torn import HANGS, TORN, TORN_REFUSED
from parts.transitional import TRANSITIONAL

LARGE = 4294967300
# Folders whose processes and rings are renumbered.
NUMBERS = {
    'processes of 32 bits, and rings past their range': (
        '--renumber --failed 33686018',
        {'16843009.log': 'conf r7.16843009 16843009 33686018\nsend r7.16843009 a 7.16843009#9\nconf t%d.16843009/16843009 16843009\n'
                         'dlv t%d.16843009/16843009 7.16843009#9\n' % (LARGE, LARGE),
         '33686018.log': 'conf r7.16843009 16843009 33686018\n'},
        'totem-run 1\nlog 1\nconf r1.1 1 2\nsend r1.1 a 1.1#9\nconf t2.1/1 1\ndlv t2.1/1 1.1#9\nopen\n'
        'log 2\nconf r1.1 1 2\nfail r1.1\nfailed\nend\n',
        'logs: 33686018.log: fail r7.16843009 is added\nlogs: process 16843009 becomes 1\nlogs: process 33686018 becomes 2\n'
        'logs: ring number 7 becomes 1\nlogs: ring number %d becomes 2\n' % LARGE),
    'only the rings': (
        '--renumber', {'3.log': 'conf r%d.3 3\n' % LARGE}, 'totem-run 1\nlog 3\nconf r1.3 3\nopen\nend\n',
        'logs: ring number %d becomes 1\n' % LARGE),
    'lives': (
        '--renumber --lives', {'70000.2.log': 'conf r5.70000 70000\n'}, 'totem-run 2\nlog 1:2\nconf r5.1 1:2\nopen\nend\n',
        'logs: 70000.2.log: member 70000 is 70000:2 where this log changes to the configuration: 1 (r5.70000)\n'
        'logs: there is no log of 70000:1: taken for a member of no configuration\n'
        'logs: process 70000 becomes 1\n'),
    'nothing that is past its range': (
        '--renumber', {'3.log': 'conf r9.3 3\n'}, 'totem-run 1\nlog 3\nconf r9.3 3\nopen\nend\n',
        'logs: no number is past what a run may have: none is changed\n'),
}

# Process 2 fails on ring 8.1; its next life comes to ring 12.1.
THREE_RINGS = {
    '1.1.log': 'conf r4.1 1:1 2:1\nsend r4.1 a 4.1#1\ndlv r4.1 4.1#1\nconf t8.1/1 1:1 2:1\nconf r8.1 1:1 2:1\n'
               'conf t12.1/1 1:1\nconf r12.1 1:1 2:2\nsend r12.1 a 12.1#1\ndlv r12.1 12.1#1\n'
               'send r12.1 a 12.1#2\ndlv r12.1 12.1#2\nquiet\n',
    '2.1.log': 'conf r4.1 1:1 2:1\ndlv r4.1 4.1#1\nconf t8.1/1 1:1 2:1\nconf r8.1 1:1 2:1\nfail r8.1\n',
    '2.2.log': 'conf r11.2 2:2\nconf t12.1/2 2:2\nconf r12.1 1:1 2:2\ndlv r12.1 12.1#1\ndlv r12.1 12.1#2\nquiet\n',
}
FIRST = 'totem-run 3\nlog 1:1\nconf r4.1 1:1 2:1\nsend r4.1 a 4.1#1\ndlv r4.1 4.1#1\nconf t8.1/1 1:1 2:1\nconf r8.1 1:1 2:1\nopen\n' \
    'log 2:1\nconf r4.1 1:1 2:1\ndlv r4.1 4.1#1\nconf t8.1/1 1:1 2:1\nconf r8.1 1:1 2:1\nopen\nend\n'
SECOND = 'totem-run 3\nlog 1:1\nconf r8.1 1:1 2:1\nconf t12.1/1 1:1\nconf r12.1 1:1 2:2\nopen\n' \
    'log 2:1\nconf r8.1 1:1 2:1\nfail r8.1\nfailed\nlog 2:2\nconf r11.2 2:2\nconf t12.1/2 2:2\nconf r12.1 1:1 2:2\nopen\nend\n'
THIRD = 'totem-run 3\nlog 1:1\nconf r12.1 1:1 2:2\nsend r12.1 a 12.1#1\ndlv r12.1 12.1#1\nsend r12.1 a 12.1#2\n' \
    'dlv r12.1 12.1#2\nquiet\nlog 2:2\nconf r12.1 1:1 2:2\ndlv r12.1 12.1#1\ndlv r12.1 12.1#2\nquiet\nend\n'
# Two logs, the second of which has lost its tail.
LOST_TAIL = {
    '1.log': 'conf r4.1 1 2\ndlv r4.1 4.1#1\nconf t8.1/1 1 2\nconf r8.1 1 2\ndlv r8.1 8.1#1\nquiet\n',
    '2.log': 'conf r4.1 1 2\nsend r4.1 a 4.1#1\ndlv r4.1 4.1#1\nconf t8.1/1 1 2\nconf r8.1 1 2\n',
}
TRIMMED = {
    'a tail that was lost': (
        '--trim', LOST_TAIL,
        'totem-run 1\nlog 1\nconf r4.1 1 2\ndlv r4.1 4.1#1\nconf t8.1/1 1 2\nconf r8.1 1 2\nopen\n'
        'log 2\nconf r4.1 1 2\nsend r4.1 a 4.1#1\ndlv r4.1 4.1#1\nconf t8.1/1 1 2\nconf r8.1 1 2\nopen\nend\n',
        'logs: 1.log: entries left out after its change to r8.1: 1\n'
        'logs: 1.log: is open after its change to r8.1, and no longer quiet\n'),
    'quiet and failed logs that end there, and are open': (
        '--trim', {'1.log': 'conf r4.1 1 2\nquiet\n', '2.log': 'conf r4.1 1 2\nfail r4.1\n'},
        'totem-run 1\nlog 1\nconf r4.1 1 2\nopen\nlog 2\nconf r4.1 1 2\nopen\nend\n',
        'logs: 1.log: is open after its change to r4.1, and no longer quiet\nlogs: 2.log: entries left out after its change to r4.1: 1\n'
        'logs: 2.log: is open after its change to r4.1, and no longer failed\n'),
    'a failure that the call adds, and that is left out': (
        '--trim --failed 2', {'1.log': 'conf r4.1 1 2\n', '2.log': 'conf r4.1 1 2\n'},
        'totem-run 1\nlog 1\nconf r4.1 1 2\nopen\nlog 2\nconf r4.1 1 2\nopen\nend\n',
        'logs: 2.log: fail r4.1 is added\nlogs: 2.log: is open after its change to r4.1, and no longer failed\n'),
    'a message that is sent again after the cut': (
        '--trim', {'1.log': 'conf r4.1 1\nsend r4.1 a 4.1#1\ndlv r4.1 4.1#1\nconf t8.1/1 1\nconf r8.1 1\nsend r8.1 a 4.1#1\n'},
        'totem-run 1\nlog 1\nconf r4.1 1\nsend r4.1 a 4.1#1\ndlv r4.1 4.1#1\nconf t8.1/1 1\nconf r8.1 1\nopen\nend\n',
        'logs: 1.log: entries left out after its change to r8.1: 1\n'
        'logs: 1.log: sends 4.1#1 in the part that is left out, and a log does so in the part that stays: a name came again, and no part shows '
        'it\n'),
    'a process that failed, and changes to nothing': (
        '--trim', {'1.log': 'fail r4.1\n', '2.log': 'conf r4.1 1 2\nconf t8.2/2 2\nconf r8.2 2\ndlv r8.2 8.2#1\n'},
        'totem-run 1\nlog 1\nfail r4.1\nfailed\nlog 2\nconf r4.1 1 2\nconf t8.2/2 2\nconf r8.2 2\nopen\nend\n',
        'logs: 2.log: entries left out after its change to r8.2: 1\n'),
    'a process that failed is not waited for': (
        '--trim', {'1.log': 'conf r4.1 1 2\nconf t8.1/1 1\nconf r8.1 1\ndlv r8.1 8.1#1\n', '2.log': 'conf r4.1 1 2\nfail r4.1\n'},
        'totem-run 1\nlog 1\nconf r4.1 1 2\nconf t8.1/1 1\nconf r8.1 1\nopen\nlog 2\nconf r4.1 1 2\nfail r4.1\nfailed\nend\n',
        'logs: 1.log: entries left out after its change to r8.1: 1\n'),
    'one that is still there is': (
        '--trim', {'1.log': 'conf r4.1 1 2\nconf t8.1/1 1\nconf r8.1 1\n', '2.log': 'conf r4.1 1 2\n'},
        'totem-run 1\nlog 1\nconf r4.1 1 2\nopen\nlog 2\nconf r4.1 1 2\nopen\nend\n',
        'logs: 1.log: entries left out after its change to r4.1: 2\n'),
}
NOT_CUT = {
    'no change in common': (
        '--trim', {'1.log': 'conf r4.1 1\n', '2.log': 'conf r5.2 2\n'}, 'logs: there is no regular configuration to which all'),
    'a configuration before the last common change in one log, and after it in another': (
        '--trim', {'1.log': 'conf r4.1 1 2\nconf t8.1/1 1 2\nconf r8.1 1 2\nconf t12.1/1 1 2\nconf r12.1 1 2\n',
                   '2.log': 'conf r4.1 1 2\nconf t12.1/1 1 2\nconf r12.1 1 2\nconf t8.1/1 1 2\nconf r8.1 1 2\n'},
        'logs: r12.1 is no place to cut: t8.1/1 comes before it in 1.log (line 2), and after it in 2.log (line 4)\n'),
    'a log that is open after a trim, and so is not before a cut': (
        '--trim --failed 5,7 --cut FOLDER/parts --entries 2', {'5.log': 'conf r8.5 5\nconf t12.5/5 5\nconf r12.5 5\n', '7.log': 'conf r4.7 7\n'},
        'logs: no part fits between the beginning and the end, the next change of all that are still there: 5.log has 4 entries\n'),
    'a log that is too long between two common changes': (
        '--cut FOLDER/parts --entries 2', {'1.log': 'conf r4.1 1\ndlv r4.1 4.1#1\ndlv r4.1 4.1#2\n'},
        'logs: no part fits between r4.1 and the end, the next change of all that are still there: 1.log has 3 entries\n'),
}


def try_cut(words, files, wanted, told, _program):
    """These files are cut into these parts, with these messages; nothing is written to the output."""
    with tempfile.TemporaryDirectory() as folder:
        write_files(folder, files)
        made = os.path.join(folder, 'parts')
        came = join([*words.split(), '--cut', made], folder)
        parts = {}
        for name in sorted(os.listdir(made)) if os.path.isdir(made) else ():
            with open(os.path.join(made, name), encoding='ascii') as it:
                parts[name] = it.read()
        left = sorted(set(os.listdir(folder)) - set(files))
    is_right = (came.status, came.output, left) == (0, b'', ['parts']) and list(parts.values()) == wanted and \
        list(parts) == ['part-%d.run' % number for number in range(1, len(wanted) + 1)] and told in came.errors.decode()
    return None if is_right else 'came: %s, and %r\n  wanted: %r, and told %r' % (came, parts, wanted, told)


def try_table(_program):
    """The table of numbers is written whole, even if only its first lines are printed."""
    with tempfile.TemporaryDirectory() as folder:
        write_files(folder, {'%d.log' % (70000 + number): 'conf r4.70001 70001\n' for number in range(1, 26)})
        table = os.path.join(folder, 'table')
        came = join(['--renumber', '--table', table], folder)
        with open(table, encoding='ascii') as it:
            lines = it.read()
    wanted = ''.join('process %d becomes %d\n' % (70000 + number, number) for number in range(1, 26))
    told = b'logs: process 70020 becomes 20\nlogs: .. and 5 more of the same kind\n'
    is_right = came.status == 0 and lines == wanted and told in came.errors
    return None if is_right else 'came: %s, and %r' % (came, lines)


def try_nothing_made(_program):
    """If logs can't be cut, no folder is made."""
    with tempfile.TemporaryDirectory() as folder:
        write_files(folder, {'1.log': 'conf r4.1 1\nnothing\n'})
        came = join(['--cut', os.path.join(folder, 'parts')], folder)
        left = os.listdir(folder)
    return None if came.status == 1 and left == ['1.log'] else 'came: %s, and %r' % (came, left)


# Folders of the examples that are refused as they are: the arguments, and the messages (docs/OWN-LOGS.md).
ASKED = {
    'first-callback': ('', 'logs: 1.log, line 1: a change must name its members: conf t5.1/1 (if it is the first callback of the layer, '
                       'leave the line out)\n'),
    'lives': ('--lives', 'logs: 1.1.log, line 3: which life of 2 is a member of r8.1? No log of it changes there: 2:1 or 2:2 or 2:3\n'
              '  Name each with --member CONFIGURATION=P:L, or give the times of the lives with --clock FILE\n'),
    'large-numbers': ('', 'logs: 167772161.log: process 167772161 is past 65535; --renumber renumbers processes\n'),
    'ring-again': ('', 'logs: 1.1.log, line 1: a member has no life, and the name of the file has one: --lives adds lives to members\n'),
}


def try_asked(folder, words, told, _program):
    """A folder of the examples is refused, with this message."""
    came = join(words.split(), os.path.join(EXAMPLES, 'logs', folder))
    return None if came == process.Answer(1, b'', told.encode()) else 'came: %s\n  wanted: %r' % (came, told)


# Folders of the examples in which an option hides something: the arguments, and what is told of it (docs/OWN-LOGS.md).
HIDDEN = {
    'lost-last-life': ('--lives', 'logs: r12.1: member 2, which never came, is 2:1: no log is of another life\n'),
    'lost-first-life': ('--lives --absent 2:1', 'logs: r4.1: member 2, which never came, is 2:2: no log is of another life\n'),
    'another-life': ('--lives', 'logs: 2.2.log: member 2 is 2:2 where this log changes to the configuration: 1 (r4.1)\n'),
    'taken-and-lost': ('--own-sends', 'logs: 1.log: sends that are left out, since nobody delivered the messages: 1 (4.1#1)\n'),
    'sent-when-taken': ('--own-sends', 'logs: 1.log: sends that are now in a later configuration than the messages were taken in: 1 (4.1#33)\n'),
    'sent-between-rings': ('--own-sends', 'logs: 1.log: sends that are now in a later configuration than the messages were taken in: 1 (8.1#1)\n'),
    'gained-cause': ('--own-sends', 'logs: 1.log: sends moved to just before their own deliveries: 1 (4.1#2)\n'),
    'own-order': ('--own-sends --own-order-unknown', 'logs: 1.log: sends 4.1#1 (line 2) and then 4.1#2 (line 3), and delivers the first one in '
                  'line 5 and the second one in line 4\n'),
    'sent-when-delivered-late': ('--own-sends --late-sends', 'logs: 1.log: sends moved back over a change, since the call says so: 1 (4.1#1)\n'),
    'delivered-after-a-kill': ('--early-ends', 'logs: 2.log: sends that are left out, since others delivered the messages where it never came: 1 (4.1#2)\n'),
    'lost-before-a-change': ('--late-changes', 'logs: 2.log: deliveries from the first one past a gap on, which are now in transitional '
                             'configurations: 1 (t8.2/2: 1)\n'),
    'nobody-sent': ('--torn 1', 'logs: 1.log: sends that are added, since others delivered the messages and no log sends them: 1 (4.1#1)\n'),
    'lost-log': ('--made-up 3=failed-before', 'logs: 3.log is made up: it is taken to have failed before it delivered anything, in r4.1\n'),
    'lost-tail': ('--trim', 'logs: 1.log: entries left out after its change to r8.1: 1\n'),
    'sent-again': ('--cut FOLDER --entries 5',
                   'logs: 1.log: sends 4.1#1 in part 2, and a log does so in part 1: a name came again, and no part shows it\n'),
}


def try_hidden(name, words, told, _program):
    """A folder of the examples is joined, and this is told."""
    with tempfile.TemporaryDirectory() as folder:
        words = words.replace('FOLDER', os.path.join(folder, 'parts')).split()
        came = join(words, os.path.join(EXAMPLES, 'logs', name))
    return None if came.status == 0 and told.encode() in came.errors else 'came: %s\n  wanted: %r' % (came, told)


def try_parts(program):
    """A folder of the examples is cut into two parts, each of which is a yes."""
    with tempfile.TemporaryDirectory() as folder:
        made = os.path.join(folder, 'parts')
        came = join(['--cut', made, '--entries', '5'], os.path.join(EXAMPLES, 'logs', 'sent-when-ordered'))
        texts = []
        for name in sorted(os.listdir(made)) if came.status == 0 else ():
            with open(os.path.join(made, name), 'rb') as it:
                texts.append(it.read())
    reports = [process.run([program, 'audit'], text)[0].output for text in texts]
    is_right = len(reports) == 2 and all(report.startswith(b'verdict yes\ntotem-cert 2\n') for report in reports)
    return None if is_right else 'came: %s, and %r' % (came, reports)


def long_logs(rings, members, is_moved):
    """Two logs with 20,000 messages of the second process, half of them delivered on each of two rings. Their sends are where the first
    ring begins, or each just before the own delivery."""
    half = 10000
    names = ['%d.1#%d' % (rings[0], number) for number in range(1, 2 * half + 1)]
    start = 'conf r%d.1 %s\n' % (rings[0], members)
    change = 'conf t%d.1/1 %s\nconf r%d.1 %s\n' % (rings[1], members, rings[1], members)
    taken = '' if is_moved else ''.join('send r%d.1 a %s\n' % (rings[0], name) for name in names)
    other, own = [], []
    for ring, part in zip(rings, (names[:half], names[half:])):
        other.append(''.join('dlv r%d.1 %s\n' % (ring, name) for name in part))
        own.append(''.join('send r{0}.1 a {1}\ndlv r{0}.1 {1}\n'.format(ring, name) for name in part) if is_moved else other[-1])
    return start + other[0] + change + other[1], start + taken + own[0] + change + own[1]


def try_long(_program):
    """Logs of many blocks: the sends are moved, and processes and rings renumbered."""
    first, second = long_logs((4300000000, 4300000004), '1 70000', False)
    came = join_files('--own-sends --renumber', {'1.log': first, '70000.log': second})
    wanted = 'totem-run 1\nlog 1\n%sopen\nlog 2\n%sopen\nend\n' % long_logs((1, 2), '1 2', True)
    return None if (came.status, came.output.decode()) == (0, wanted) else 'came: %s' % came


def try_end(words, files, told, _program):
    """This is told of the logs, beside the times that are left out."""
    came, told = join_files(words, files), with_worth(words, told)
    kept = [line for line in came.errors.decode().splitlines(keepends=True) if not line.startswith('logs: left out of the logs: ')]
    return None if came.status == 0 and ''.join(kept) == told else 'came: %s\n  wanted: %r' % (came, told)


def mended():
    """Added lives, moved sends and changes, new numbers, cut logs."""
    for folders in (LIVES, SENDS, TRANSITIONAL, EARLY_ENDS, LATE_CHANGES, FIRST_LINES, TORN, MADE_UP, NUMBERS, TRIMMED):
        for what, (words, files, wanted, told) in folders.items():
            yield what, partial(try_folder, words, files, wanted, told)
    for what, (words, files, told) in HANGS.items():
        yield 'the end: %s' % what, partial(try_end, words, files, told)
    for folders in (UNKNOWN, SWAPPED, NOT_CUT, FIRST_LINES_REFUSED, TORN_REFUSED, MADE_UP_REFUSED):
        for what, (words, files, said) in folders.items():
            yield what, partial(try_refused, words, files, said)
    yield 'cut at each common change', partial(try_cut, '--entries 5', THREE_RINGS, [FIRST, SECOND, THIRD], '')
    yield 'cut as seldom as can be', partial(try_cut, '--entries 7', THREE_RINGS, [
        FIRST.replace('conf r8.1 1:1 2:1\nopen\nlog', 'conf r8.1 1:1 2:1\nconf t12.1/1 1:1\nconf r12.1 1:1 2:2\nopen\nlog')
        .replace('conf r8.1 1:1 2:1\nopen\nend\n', 'conf r8.1 1:1 2:1\nfail r8.1\nfailed\n' + SECOND[SECOND.index('log 2:2'):]), THIRD], '')
    trimmed = TRIMMED['a tail that was lost']
    yield 'cut, and the tail left out', partial(try_cut, '--trim', LOST_TAIL, [trimmed[2]], trimmed[3])
    yield 'a configuration that comes again in another part', partial(
        try_cut, '--entries 3', {'1.log': 'conf r4.1 1\nconf t8.1/1 1\nconf r8.1 1\nconf t4.1/1 1\nconf r4.1 1\n'},
        ['totem-run 1\nlog 1\nconf r4.1 1\nconf t8.1/1 1\nconf r8.1 1\nopen\nend\n',
         'totem-run 1\nlog 1\nconf r8.1 1\nconf t4.1/1 1\nconf r4.1 1\nopen\nend\n'],
        'logs: 1.log: changes to r4.1 in part 2, and a log does so in part 1: a name came again, and no part shows it\n')
    yield 'a message that is sent again in another part', partial(
        try_cut, '--entries 5', {'1.log': 'conf r4.1 1\nsend r4.1 a 4.1#1\ndlv r4.1 4.1#1\nconf t8.1/1 1\nconf r8.1 1\nsend r8.1 a 4.1#1\n'
                                          'dlv r8.1 4.1#1\n'},
        ['totem-run 1\nlog 1\nconf r4.1 1\nsend r4.1 a 4.1#1\ndlv r4.1 4.1#1\nconf t8.1/1 1\nconf r8.1 1\nopen\nend\n',
         'totem-run 1\nlog 1\nconf r8.1 1\nsend r8.1 a 4.1#1\ndlv r8.1 4.1#1\nopen\nend\n'],
        'logs: 1.log: sends 4.1#1 in part 2, and a log does so in part 1: a name came again, and no part shows it\n')
    for folder, (words, told) in ASKED.items():
        yield 'the folder %s' % folder, partial(try_asked, folder, words, told)
    for folder, (words, told) in HIDDEN.items():
        yield 'what %s hides in %s' % (words, folder), partial(try_hidden, folder, words, told)
    yield 'parts that are judged', try_parts
    yield 'long logs', try_long
    yield 'a long table', try_table
    yield 'no folder where logs are not cut', try_nothing_made
