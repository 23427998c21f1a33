"""Lines of a log: what an entry looks like (docs/SPECIFICATIONS.md, "Run text"), and what is wrong with a line that is not an entry."""
import re

from joining.trouble import shown

MOST_PROCESS = 65535
MOST_LIFE = 65535
MOST_NUMBER = 4294967295
MOST_MEMBERS = 32
MOST_LOGS = 32
MOST_ENTRIES = 1000000


# Numbers that are surely in range, also those of processes; numbers that are in range (up to MOST_NUMBER, up to MOST_PROCESS); numbers of
# any size.
SMALL, SMALL_PROCESS = rb'[1-9][0-9]{0,8}', rb'[1-9][0-9]{0,3}'
NUMBER = rb'(?:[1-9][0-9]{0,8}|[1-3][0-9]{9}|4(?:[01][0-9]{8}|2(?:[0-8][0-9]{7}|9(?:[0-3][0-9]{6}|4(?:[0-8][0-9]{5}|9(?:[0-5][0-9]{4}|' \
    rb'6(?:[0-6][0-9]{3}|7(?:[01][0-9]{2}|2(?:[0-8][0-9]|9[0-5])))))))))'
PROCESS = rb'(?:[1-9][0-9]{0,3}|[1-5][0-9]{4}|6(?:[0-4][0-9]{3}|5(?:[0-4][0-9]{2}|5(?:[0-2][0-9]|3[0-5]))))'
ANY = rb'[1-9][0-9]{0,19}'


def _forms(ring_number, process, message_number, life):
    """A regular expression for a line, with these numbers in it."""
    ring = ring_number + rb'\.' + process
    configuration = rb'(?:r' + ring + rb'|t' + ring + rb'/' + process + rb')'
    message = ring + rb'#' + message_number
    member = process + rb'(?::' + life + rb')?'
    return rb'(?:dlv ' + configuration + rb' ' + message + \
        rb'|send ' + configuration + rb' [as] ' + message + \
        rb'|conf ' + configuration + rb'(?: ' + member + rb')+' + \
        rb'|fail ' + configuration + rb')\n'


def _lines(*numbers):
    return re.compile(rb'(?:' + _forms(*numbers) + rb')*')


# Whole blocks of lines: first what nearly all lines are, then whatever is in range. Only lines that are neither are looked at one by one. If
# processes and rings are renumbered, theirs may have any size.
PLAIN = _lines(SMALL, SMALL_PROCESS, SMALL, SMALL_PROCESS), _lines(NUMBER, PROCESS, NUMBER, PROCESS)
PLAIN_TO_NUMBER = _lines(ANY, ANY, SMALL, SMALL_PROCESS), _lines(ANY, ANY, NUMBER, PROCESS)
# A line with numbers of any size.
LARGE = re.compile(_forms(ANY, ANY, ANY, ANY))
WITHOUT_MEMBERS = re.compile(rb'conf [rt][0-9./]+ *\n')
# The numbers of a line, by what they number.
RINGS = re.compile(rb'([0-9]+)\.([0-9]+)')
MESSAGE = re.compile(rb'#([0-9]+)')
BEHIND_SLASH = re.compile(rb'/([0-9]+)')
MEMBER = re.compile(rb' ([0-9]+)(?::([0-9]+))?')

_EXAMPLES = {
    b'conf': 'conf r4.1 1 2 3, conf t8.1/1 1 2, or with lives conf r4.1 1:1 2:2',
    b'send': 'send r4.1 a 4.1#7, with a for agreed or s for safe',
    b'dlv': 'dlv r4.1 4.1#7',
    b'fail': 'fail r4.1',
}


def _past(line):
    """What is wrong with the numbers of a line of the right form."""
    members = list(MEMBER.finditer(line, line.index(b' ', 5))) if line.startswith(b'conf ') else []
    processes = [ring[2] for ring in RINGS.finditer(line)] + [it[1] for it in BEHIND_SLASH.finditer(line)]
    for process in processes + [it[1] for it in members]:
        if int(process) > MOST_PROCESS:
            return 'process %d is past %d; --renumber renumbers processes' % (int(process), MOST_PROCESS)
    for ring in RINGS.finditer(line):
        if int(ring[1]) > MOST_NUMBER:
            return 'ring number %d is past %d; --renumber renumbers rings' % (int(ring[1]), MOST_NUMBER)
    return None


def _past_always(line):
    """What is wrong with those numbers that are never renumbered: of messages, and lives."""
    for message in MESSAGE.finditer(line):
        if int(message[1]) > MOST_NUMBER:
            return 'message number %d is past %d' % (int(message[1]), MOST_NUMBER)
    if line.startswith(b'conf '):
        for member in MEMBER.finditer(line, line.index(b' ', 5)):
            if member[2] and int(member[2]) > MOST_LIFE:
                return 'life %d is past %d' % (int(member[2]), MOST_LIFE)
    return None


def flaw(line, is_numbered_anew):
    """What is wrong with a line and its line end, or None if it is an entry. If processes and rings are renumbered, their numbers
    may be of any size."""
    if LARGE.fullmatch(line):
        return _past_always(line) or (None if is_numbered_anew else _past(line))
    if line == b'quiet\n':
        return 'quiet is not the last line'
    if line.endswith(b'\r\n'):
        return 'the line ends with a carriage return; lines end with one byte 0A'
    if WITHOUT_MEMBERS.fullmatch(line):
        return 'a change must name its members: %s (if it is the first callback of the layer, leave the line out)' % shown(line)
    if b' crc=' in line:
        return 'a checksum is crc= and 8 hexadecimal digits, after a delivery: %s' % shown(line)
    example = _EXAMPLES.get(line.split(b' ')[0].rstrip(b'\n'))
    if example:
        return 'this is not an entry: %s (such as %s)' % (shown(line), example)
    return 'this is not an entry: %s (a line begins with conf, send, dlv, fail or quiet)' % shown(line)


def flaw_of_members(members):
    """What is wrong with the members of a change, as pairs of a process and a life, or None."""
    if len(members) > MOST_MEMBERS:
        return 'a configuration has %d members at most' % MOST_MEMBERS
    for before, behind in zip(members, members[1:]):
        if behind[0] <= before[0]:
            return 'members are not in ascending order: %d comes after %d' % (behind[0], before[0])
    return None
