"""What the lines of a log may have beside entries: a time before each line, a checksum after a delivery, blank lines and comments. All of that
is left out before anything else is done with the log; the lines of its file keep their numbers in all messages."""
import os
import re
from datetime import date
from functools import lru_cache

from joining.folder import blocks
from joining.trouble import MOST_TOLD, Refused, shown, tell

# A time: a minute and the seconds in it, or seconds alone; their fraction; the offset of a minute, such as Z or +01:00.
TIME = re.compile(rb'(?:([0-9]{4}-[0-9]{2}-[0-9]{2}T(?:[01][0-9]|2[0-3]):[0-5][0-9]):([0-5][0-9]|60)|([0-9]{1,12}))(?:\.([0-9]{1,9}))?'
                  rb'(Z|[+-](?:[01][0-9]|2[0-3]):[0-5][0-9])?')
NO_TIME = 'this is not a time: %s (such as 2026-11-29T07:45:27.25Z, 2026-11-29T08:45:27.25+01:00, or in seconds 1795938327.25)'
EMPTY = re.compile(rb'[ \t]*(?:#.*)?', re.DOTALL)
CHECKSUM = re.compile(rb' crc=([0-9a-fA-F]{8})')
# What is left out of logs, each kind with its name in messages.
KINDS = ('blank lines and comments', 'times', 'checksums')
# How many bytes a time gets in the file that has the times of a log, by the numbers of their lines.
WIDTH = 40
BLANK_TIME = b' ' * WIDTH


@lru_cache(64)
def _minute(minute, offset):
    """The seconds from 1970 to a minute, or None if there is no such day."""
    numbers = [int(number) for number in re.findall(rb'[0-9]+', minute + b' ' + offset)]
    try:
        day = date(*numbers[:3]).toordinal() - date(1970, 1, 1).toordinal()
    except ValueError:
        return None
    ahead = (numbers[5] * 60 + numbers[6]) * (-1 if offset.startswith(b'-') else 1) if numbers[5:] else 0
    return ((day * 24 + numbers[3]) * 60 + numbers[4] - ahead) * 60


def instant(time):
    """A time as seconds and their fraction, which can be compared, or None if it is none."""
    found = TIME.fullmatch(time)
    if not found or bool(found[1]) != bool(found[5]):
        return None
    begin = _minute(found[1], found[5]) if found[1] else 0
    return (begin + int(found[2] or found[3]), (found[4] or b'').rstrip(b'0')) if begin is not None else None


class Checksums:
    """The checksums of delivered messages, compared over all logs."""

    def __init__(self):
        self.first = {}
        # Messages with two checksums: the first ones in words, and how many there are.
        self.differing, self.count = [], 0

    def see(self, log, line, message, checksum):
        """Takes note of the checksum of a delivery."""
        other, where, at = self.first.setdefault(message, (checksum, log, line))
        self.count += other != checksum
        if other != checksum and self.count <= MOST_TOLD:
            self.differing.append('%s has two checksums: crc=%s in %s, line %d, and crc=%s in %s, line %d' % (
                message.decode('ascii', 'replace'), other.decode(), where.name, at, checksum.decode(), log.name, line))

    def check(self):
        """Refuses messages of which two deliveries have different checksums."""
        if self.differing:
            rest = ['.. and %d more' % (self.count - MOST_TOLD)] if self.count > MOST_TOLD else []
            raise Refused('\n  '.join([*self.differing, *rest, 'Under one name processes delivered different contents, or two '
                                       'messages have one name']))


class Plain:
    """Writes the entries of a log alone into a file, from which it is read from then on."""

    def __init__(self, log, path, checksums, times):
        self.log = log
        self.path = path
        self.checksums = checksums
        # The path of a file for the times, if they are asked for.
        self.times = times
        self.last, self.last_time = None, b''
        # The first time of the log, and the one at its last delivery.
        self.first, self.delivered = None, None
        self.counts = dict.fromkeys(KINDS, 0)

    def write(self, is_torn):
        """Writes the file. `is_torn`: the last line of the log was cut off, so no claim is at its end."""
        log, entry, number, words = self.log, 0, 0, b''
        with open(self.path, 'wb') as out, open(self.times or os.devnull, 'wb') as times:
            for block in blocks(log.path, 0, log.size):
                if not block.endswith(b'\n'):
                    raise Refused('%s, line %d: the line is too long' % (log.name, number + block.count(b'\n') + 1))
                for number, line in enumerate(block.removesuffix(b'\n').split(b'\n'), number + 1):
                    time, found = self._read(number, line)
                    times.write(time.ljust(WIDTH) if time else BLANK_TIME)
                    if found is None:
                        log.lines.add(entry + 1, number + 1)
                    else:
                        entry, words = entry + 1, found
                        out.write(words + b'\n')
            log.size = out.tell()
            if words == b'quiet' and not is_torn and log.ending != 'quiet':
                log.ending = 'quiet'
                log.size -= len(b'quiet\n')
        log.path = self.path
        log.times = self.times if self.counts['times'] else None
        log.silence = self._silence() if self.counts['times'] else None

    def _silence(self):
        """How many seconds the log goes on after its last delivery, or after its first time if it delivers nothing."""
        (begin, begin_part), (end, end_part) = self.delivered or self.first, self.last
        return end - begin + float(b'0.' + end_part + b'0') - float(b'0.' + begin_part + b'0')

    def _read(self, number, line):
        """The time of a line, and the entry that it is, or None."""
        time = b''
        if line[:1].isdigit() and b' ' in line:
            time, _, line = line.partition(b' ')
            self._take_time(number, time)
        if line[:1] in (b'', b' ', b'\t', b'#') and EMPTY.fullmatch(line):
            self.counts['blank lines and comments'] += 1
            return time, None
        if line.startswith(b'dlv '):
            self.delivered = self.last
            if CHECKSUM.fullmatch(line, len(line) - 13):
                line, checksum = line[:-13], line[-8:]
                self.counts['checksums'] += 1
                self.checksums.see(self.log, number, line[line.rfind(b' ') + 1:], checksum.lower())
        return time, line

    def _take_time(self, number, time):
        now = instant(time)
        if now is None:
            raise Refused('%s, line %d: %s' % (self.log.name, number, NO_TIME % shown(time)))
        if self.last is not None and now < self.last:
            raise Refused('%s, line %d: the time goes back: %s comes after %s' % (
                self.log.name, number, time.decode(), self.last_time.decode()))
        self.last, self.last_time = now, time
        self.first = self.first or now
        self.counts['times'] += 1

    def list_changes(self, changes):
        """Adds what is left out to the list of changes."""
        for what, count in self.counts.items():
            if count:
                changes.add('%s: %s left out: %d' % (self.log.name, what, count))


def tell_left_out(plains):
    """Reports in one line what is left out of all logs."""
    counts = {what: sum(plain.counts[what] for plain in plains) for what in KINDS}
    told = ['%s %d' % pair for pair in counts.items() if pair[1]]
    if told:
        tell('left out of the logs: %s' % ', '.join(told))
