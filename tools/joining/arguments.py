"""The arguments of `tools/logs`."""
import argparse
import os
from itertools import combinations

from joining import folder, where
from joining.entries import MOST_ENTRIES
from running import names
from running.words import Words

DESCRIPTION = """Makes one run from the logs of several processes:

    tools/logs join FOLDER > my.run
    ./totem audit < my.run

FOLDER has a file P.log for each process P, with one line for each entry, as docs/OWN-LOGS.md describes. If processes come back, it has
a file P.L.log for each life L of process P. A last line that was cut off is left out. A log is closed with `failed` if its last
entry is a failure, with `quiet` if that is its last line, otherwise with `open`.

A line may have a time before it (2026-11-29T07:45:27.25Z, 2026-11-29T08:45:27.25+01:00, or in seconds, 1795938327.25), which must not go
back within a file; a delivery may have a checksum of 8 hexadecimal digits after it (dlv r4.1 4.1#7 crc=0123abcd), which must be the
same in all logs. Times, checksums, blank lines, and comments, which begin with #, do not go into the run (such logs are rewritten into the
folder for temporary files).

The first line of a log may say how it was recorded. This is then done as if the option had been given, and told:

    # totem-log 1 sends=taken ends=early transitional=late

sends=taken stands for --own-sends, ends=early for --early-ends, transitional=late for --late-changes and transitional=untold for
--transitional."""
EXAMPLES = """For example, for a cluster in which process 2 was killed and the others were shut down cleanly:

    tools/logs join --failed 2 --quiet all FOLDER

for processes that came back, whose layer names members without lives, and whose sends were recorded when the layer took them:

    tools/logs join --lives --own-sends FOLDER

for logs whose way back is wanted, from a place in the report (fault 1.4 2:1@1543 ..) to the file, the line and its time:

    tools/logs join --map my.map FOLDER > my.run
    tools/logs where my.map 2:1@1543

for a cluster in which node 2 lost power, so that its log lacks its last lines:

    tools/logs join --torn 2 FOLDER

and for logs that are too long for one run:

    tools/logs join --cut parts FOLDER && for part in parts/*.run; do ./totem explain < $part > $part.txt || echo "$part: status $?"; done

What is changed, inferred or left out is reported on standard error, a few of each kind by name; --changes FILE lists all. docs/OWN-LOGS.md,
"What each option may change", says what each option can hide. The status is 0, or 1 if the logs can't be joined (then nothing is written), 4
if the output or standard error fails, 64 for a usage error."""
WHERE = """Finds the line of a log from which an entry of a run came, with the time of the line if it has one:

    tools/logs join --map my.map FOLDER > my.run
    ./totem audit < my.run                            (it says, for example, fault 1.4 2:1@1543 2:1@1577)
    tools/logs where my.map 2:1@1543 2:1@1577

For a send that --own-sends moved this is the line in which it was recorded. An entry that --failed, --torn, --made-up or --transitional
added has no line."""
NAME = """Puts the names of nodes beside the numbers of processes in an explanation on standard input:

    ./totem explain < my.run | tools/logs name nodes.txt

Each line of the file is a number and a name, such as `2 db-west`. Lines may become longer than 79 columns. (In a script take the status of
totem, as by `set -o pipefail`.) The status is 0, 4 if a stream fails, or 64 for a usage error."""
WHERE_STATUS = """The status is 0, or 1 if the map is broken, has no such place or does not fit the run (then nothing is written), 4 if the
output or standard error fails, 64 for a usage error."""


def _add_words_of_ends(join):
    join.add_argument('--failed', action='append', metavar='LIST',
                      help='these processes are known to have failed (they crashed, or were killed): their logs get `fail`. '
                      'A list is 2, or 2,3:1 with lives')
    join.add_argument('--torn', action='append', metavar='LIST',
                      help='the last lines of the logs of these processes are lost, as after a power failure: their logs get a `send` for each '
                      'message that no log sends and others delivered in the configuration in which the log ends, and `fail`')
    join.add_argument('--made-up', action='append', metavar='P=HOW',
                      help='there is no log of process P (P:L with lives), and one is made up: with 3=failed-before it failed before it delivered '
                      'anything, with 3=as-2 it did what 2 did. Its messages are those that no log sends')
    join.add_argument('--quiet', action='append', metavar='LIST',
                      help='for these nothing more was to come (they were shut down cleanly): their logs are closed as quiet. '
                      '`all` are those that did not fail')


def _add_words_of_lives(join):
    join.add_argument('--lives', action='store_true',
                      help='add to each member the life that it is: the life whose log changes to the configuration')
    join.add_argument('--member', action='append', metavar='CONF=P:L', default=[],
                      help='with --lives: member P of a configuration, which never came there, is life L, as in r26.1=3:2')
    join.add_argument('--clock', metavar='FILE',
                      help='with --lives: when lives began and ended, for members that never came. Lines are TIME start P:L, '
                      'TIME end P:L, TIME conf CONF')
    join.add_argument('--absent', action='append', metavar='LIST',
                      help='with --lives: these lives have no log and were a member of no configuration, as in 2:1 or 2:1-6')


def _add_words_of_sends(join):
    join.add_argument('--own-sends', action='store_true',
                      help="move each send forward to just before its sender's own delivery: for logs in which a message counts as sent "
                      'when the layer takes it (the logs are rewritten into the folder for temporary files)')
    join.add_argument('--own-order-unknown', action='store_true',
                      help='with --own-sends: the layer may deliver the messages of a process in another order than that of their send lines')
    join.add_argument('--late-sends', action='store_true',
                      help='with --own-sends: a send line that was written when its sender delivered the message in a transitional '
                      'configuration goes back to the end of the regular one before it')


def _add_words_of_changes(join):
    join.add_argument('--transitional', action='store_true',
                      help='for a layer that reports no transitional configurations: add them, assuming that those who change straight from one '
                      'regular configuration to the next went there together')
    join.add_argument('--late-changes', action='store_true',
                      help='for a layer that tells of a transitional configuration when it is over, such as libcpg: it begins before the first '
                      'delivery past a gap, that is, of a message before which another log delivers one that this log never does')
    join.add_argument('--early-ends', action='store_true',
                      help='for a layer that goes on for a while for a process that was killed, such as libcpg: messages are left out which it sent '
                      'only then, in configurations that list the process and to which its log never came')


def _add_words_of_parts(join):
    join.add_argument('--cut', metavar='NEW_FOLDER',
                      help='write several runs, NEW_FOLDER/part-1.run and so on, cut where all that are still there change to one '
                      'regular configuration')
    join.add_argument('--entries', type=int, metavar='N', help='with --cut: no log of a part has more entries (1000000)')
    join.add_argument('--trim', action='store_true',
                      help='leave out what comes after the last regular configuration to which all that are still there change: '
                      'for logs whose ends were lost')


def _add_words_of_join(join):
    join.add_argument('folder', metavar='FOLDER')
    join.add_argument('--as-written', action='store_true',
                      help='do nothing of what the first lines of the logs say (# totem-log 1 ..)')
    join.add_argument('--pattern', action='append', metavar='NAME',
                      help='the files are not called P.log or P.L.log, but so, with {P} for the process, and {L} for the life if they have one: '
                      "--pattern 'node{P}.log'. With several patterns, a file has the name of one of them")
    _add_words_of_ends(join)
    _add_words_of_lives(join)
    _add_words_of_sends(join)
    _add_words_of_changes(join)
    join.add_argument('--renumber', action='store_true',
                      help='give new numbers to all processes if one is past 65535, and to all rings if one is past 4294967295, in the same way '
                      'in all logs')
    join.add_argument('--table', metavar='FILE', help='with --renumber: write which number became which')
    _add_words_of_parts(join)
    join.add_argument('--changes', metavar='FILE', help='write a list of everything that is changed, inferred or left out')
    join.add_argument('--map', metavar='FILE', help='write where each entry of the run came from, for `logs where`')


def _place(word):
    """A place of a report."""
    if not where.PLACE.fullmatch(word):
        raise argparse.ArgumentTypeError('%r is not a place: say 2@1543, or 2:1@1543 if the run has lives' % word)
    return word


def _add_words_of_where(parser):
    parser.add_argument('map', metavar='MAP', help='what --map wrote when the run was made')
    parser.add_argument('places', metavar='PLACE', nargs='+', type=_place, help='a place, as a report names it')
    parser.add_argument('--part', type=int, metavar='N', help='the places are in the run part-N.run of --cut')
    names.add_word(parser)
    parser.add_argument('--run', metavar='FILE', help='the run: look whether the map fits it, and print the entries too')


def _is_log(path, asked):
    """Whether a path is that of a file of the folder that may be a log."""
    logs = [os.path.join(asked.folder, name) for name in os.listdir(asked.folder) if '.log' in name or folder.fits(name, asked.pattern)]
    return os.path.exists(path) and any(os.path.samefile(path, log) for log in logs if os.path.exists(log))


def _check_files(join, asked):
    """Refuses files that are no files, or would overwrite one that is read or another one that is written."""
    for word in ('clock', 'table', 'cut', 'changes', 'map'):
        if getattr(asked, word) == '':
            join.error('--%s is empty' % word)
    for word in ('table', 'changes', 'map'):
        if getattr(asked, word) and _is_log(getattr(asked, word), asked):
            join.error('--%s would overwrite %s' % (word, getattr(asked, word)))
    for one, other in combinations(('clock', 'table', 'changes', 'map'), 2):
        if getattr(asked, one) and getattr(asked, other) and os.path.realpath(getattr(asked, one)) == os.path.realpath(getattr(asked, other)):
            join.error('--%s and --%s are one file' % (one, other))
    if asked.cut and os.path.lexists(asked.cut):
        join.error('%s is there already: --cut makes a new folder' % asked.cut)


def _begins_as_run(path):
    with open(path, 'rb') as it:
        return it.read(10) == b'totem-run '


def _check_join(join, asked):
    """Refuses arguments of `join` that do not go together."""
    if not os.path.isdir(asked.folder):
        is_run = os.path.isfile(asked.folder) and _begins_as_run(asked.folder)
        join.error('%s is %s' % (asked.folder, 'a run, made of logs already: ./totem audit < ' + asked.folder if is_run else 'not a folder'))
    for pattern in asked.pattern or ():
        if not folder.is_pattern(pattern):
            join.error('--pattern %s: a pattern is the name of a file, with {P} for the process and perhaps {L} for the life, such as node{P}.log '
                       'or node{P}-{L}.log' % pattern)
    for word, needs in (('member', 'lives'), ('clock', 'lives'), ('absent', 'lives'), ('own_order_unknown', 'own_sends'),
                        ('late_sends', 'own_sends'), ('table', 'renumber'), ('entries', 'cut')):
        if getattr(asked, word) not in (None, False, []) and getattr(asked, needs) in (None, False):
            join.error('--%s goes with --%s' % (word.replace('_', '-'), needs.replace('_', '-')))
    _check_files(join, asked)
    if asked.entries is not None and not 2 <= asked.entries <= MOST_ENTRIES:
        join.error('--entries is 2 to %d' % MOST_ENTRIES)


def read_words(words):
    """What the arguments ask for."""
    form = argparse.RawDescriptionHelpFormatter
    parser = Words(prog='logs', allow_abbrev=False, formatter_class=form,
                   description='Works on folders of logs. `logs join --help`, `logs where --help` and `logs name --help` explain how.')
    commands = parser.add_subparsers(dest='command', metavar='join | where | name', required=True)
    join = commands.add_parser('join', allow_abbrev=False, help='make one run from the logs of several processes',
                               description=DESCRIPTION, epilog=EXAMPLES, formatter_class=form)
    _add_words_of_join(join)
    finding = commands.add_parser('where', allow_abbrev=False, help='find the line of a log from which an entry of a run came',
                                  description=WHERE, epilog=WHERE_STATUS, formatter_class=form)
    _add_words_of_where(finding)
    naming = commands.add_parser('name', allow_abbrev=False, help='put the names of nodes beside the numbers of processes in an explanation',
                                 description=NAME, formatter_class=form)
    naming.add_argument('names', metavar='FILE', type=names.read, help='the names: a line is a number and a name, such as `2 db-west`')
    asked = parser.parse_args(words)
    if asked.command == 'join':
        _check_join(join, asked)
    elif asked.command == 'where' and asked.part is not None and asked.part < 1:
        finding.error('--part is 1 or more')
    return asked
