"""Finds where entries of a run came from, by the map of the run (joining.mapping)."""
import re
from typing import NamedTuple, Optional
from zlib import crc32

from joining.lines import instant
from joining.trouble import Refused, shown

PLACE = re.compile(r'([1-9][0-9]{0,19}(?::[1-9][0-9]{0,4})?)@([1-9][0-9]{0,9})')
RUN = re.compile(rb'run part-([1-9][0-9]{0,9})\.run')
LOG = re.compile(rb'log ([1-9][0-9]{0,19}(?::[1-9][0-9]{0,4})?) ([0-9a-f]{8}) (.+)')
ROW = re.compile(rb'([1-9][0-9]{0,9})(?:-([1-9][0-9]{0,9}))? (?:([1-9][0-9]{0,19})(?: ([0-9][0-9T.:Z+-]*))?|added(?: ([1-9][0-9]{0,19}))?|(made up))')


class Origin(NamedTuple):
    """The file of an entry, its line there, or None if join added the entry, and the time of the line, which may be empty. `before`: the line
    before which the entry was added, or None if that is after the last one. `is_made_up`: there is no such file."""

    file: str
    line: Optional[int]
    time: str
    before: Optional[int] = None
    is_made_up: bool = False

    def __str__(self):
        if self.is_made_up:
            return 'made up by join: there is no %s' % self.file
        if self.line is None:
            where = 'after the last line' if self.before is None else 'before line %d' % self.before
            return 'added by join %s of %s' % (where, self.file)
        return '%s, line %d%s' % (self.file, self.line, ', ' + self.time if self.time else '')


class Log:
    """A log in a map: its process, the CRC-32 of its entries, its file, the line of the map that has these, and how many entries come up to the
    row that was read last."""

    def __init__(self, found, at):
        self.who, self.sum, self.file, self.at = found[1].decode(), int(found[2], 16), found[3].decode('utf-8', 'surrogateescape'), at
        self.entries = 0
        self.has_added = False


class Map:
    """What a map says of the places that are wanted. `part` is the number of a part if the logs were cut into several runs."""

    def __init__(self, path, part, places):
        self.path = path
        self.part = part
        self.wanted = {}
        for place in places:
            who, entry = place.split('@')
            self.wanted.setdefault(who, set()).add(int(entry))
        self.origins = {}
        # The logs of the part that is read; those of the one that is wanted; how many parts there are.
        self.logs, self.chosen, self.parts = None, {}, 0
        self.log = None
        self._read()
        self._check_part()
        # The places as the run writes them: with the life of a process that has one.
        self.places = [self._with_life(place) for place in places]
        for place in self.places:
            if place not in self.origins:
                self._refuse_place(place)

    def refuse(self, line, what):
        """Refuses a line of the map."""
        raise Refused('%s, line %d: %s' % (self.path, line, what))

    def _read(self):
        number, is_over = 0, False
        with open(self.path, 'rb') as it:
            for number, line in enumerate(it, 1):
                if is_over:
                    self.refuse(number, 'the map goes on after its end')
                if not line.endswith(b'\n'):
                    self.refuse(number, 'the line is cut off')
                is_over = self._take(number, line[:-1])
        if not is_over:
            self.refuse(number + 1, 'the map ends without the line `end`')

    def _take(self, number, line):
        """Reads a line. Returns whether it is the last one."""
        if number == 1:
            if line != b'totem-map 1':
                self.refuse(1, 'this is no map: its first line is not `totem-map 1`')
            return False
        row = ROW.fullmatch(line)
        if row and self.log:
            self._take_row(number, row)
            return False
        run, log = RUN.fullmatch(line), LOG.fullmatch(line)
        if self.log and not self.log.entries and (run or log or line == b'end'):
            self.refuse(number, 'log %s has no entry' % self.log.who)
        if run and int(run[1]) == self.parts + 1 and (self.parts or self.logs is None):
            self.parts, self.logs, self.log = self.parts + 1, {}, None
        elif log:
            self._take_log(Log(log, number))
        elif line == b'end' and self.log:
            return True
        else:
            self.refuse(number, 'this line does not belong here: %s' % shown(line))
        return False

    def wanted_of(self, who):
        """The entries of a log that are wanted, also by its process without its life."""
        return self.wanted.get(who, set()) | self.wanted.get(who.partition(':')[0], set())

    def _with_life(self, place):
        who, _, entry = place.partition('@')
        lives = [log for log in self.chosen if log.startswith(who + ':')]
        if who in self.chosen or not lives:
            return place
        if len(lives) > 1:
            raise Refused('%s has several lives of %s, so say which one: %s@%s' % (self.path, who, ('@%s or ' % entry).join(lives), entry))
        return '%s@%s' % (lives[0], entry)

    def _is_chosen(self):
        return not self.parts or self.parts == self.part

    def _take_log(self, log):
        self.logs = self.logs if self.logs is not None else {}
        if log.who in self.logs:
            self.refuse(log.at, 'log %s comes twice' % log.who)
        self.logs[log.who] = self.log = log
        if self._is_chosen():
            self.chosen[log.who] = log

    def _take_row(self, number, row):
        log, first, last = self.log, int(row[1]), int(row[2] or row[1])
        is_behind = not row[3] and not row[5] and not row[6]
        if first != log.entries + 1 or last < first or log.has_added and not is_behind:
            self.refuse(number, 'the entries of log %s are not in their order' % log.who)
        if row[2] and (row[4] or not row[3] and not row[6]):
            self.refuse(number, 'this line does not belong here: %s' % shown(row[0]))
        log.entries, log.has_added = last, is_behind
        if self._is_chosen():
            wanted = self.wanted_of(log.who)
            for entry in wanted if len(wanted) < last - first else range(first, last + 1):
                if first <= entry <= last and entry in wanted:
                    if row[4] and instant(row[4]) is None:
                        self.refuse(number, 'this is no time: %s' % shown(row[4]))
                    line = int(row[3]) + entry - first if row[3] else None
                    before = int(row[5]) if row[5] else None
                    self.origins['%s@%d' % (log.who, entry)] = Origin(log.file, line, (row[4] or b'').decode(), before, bool(row[6]))

    def _check_part(self):
        if self.parts and not self.part:
            raise Refused('%s is the map of %d parts: say --part 1, or which one it is' % (self.path, self.parts))
        if self.part and not self.parts:
            raise Refused('%s is the map of one run: leave --part out' % self.path)
        if self.part and self.part > self.parts:
            raise Refused('%s has no part %d: --part is 1 to %d' % (self.path, self.part, self.parts))

    def _refuse_place(self, place):
        """Refuses a place that is not in the map."""
        who = place.partition('@')[0]
        if who in self.chosen:
            log = self.chosen[who]
            self.refuse(log.at, 'log %s has %d entries, so there is no %s' % (who, log.entries, place))
        raise Refused('%s has no log %s, so there is no %s: its logs are %s' % (self.path, who, place, ', '.join(self.chosen)))


class Run:
    """The text of a run, compared with a map."""

    def __init__(self, path, known):
        self.path = path
        self.known = known
        # The entries at the places that are wanted.
        self.entries = {}
        self._read()

    def _read(self):
        """Reads the text, log by log."""
        log, count, own, there, wanted = None, 0, 0, set(), ()
        with open(self.path, 'rb') as it:
            for number, line in enumerate(it, 1):
                if line.startswith(b'log '):
                    self._check(log, count, own)
                    who, count, own = line[4:].strip().decode('ascii', 'replace'), 0, 0
                    log = self._log(who, number)
                    there.add(who)
                    wanted = self.known.wanted_of(who)
                elif b' ' in line and log:
                    count, own = count + 1, crc32(line, own)
                    if count in wanted:
                        self.entries['%s@%d' % (who, count)] = line.rstrip().decode('ascii', 'replace')
        self._check(log, count, own)
        for other, log in self.known.chosen.items():
            if other not in there:
                self.known.refuse(log.at, 'the map does not fit %s, which has no log %s' % (self.path, other))

    def _log(self, who, number):
        if who not in self.known.chosen:
            raise Refused('%s does not fit %s, line %d: the map has no log %s' % (self.known.path, self.path, number, who))
        return self.known.chosen[who]

    def _check(self, log, count, own):
        if log and count != log.entries:
            self.known.refuse(log.at, 'the map does not fit %s: it has %d entries of log %s, and the run %d' % (
                self.path, log.entries, log.who, count))
        if log and own != log.sum:
            self.known.refuse(log.at, 'the map does not fit %s: it was made for other entries of log %s' % (self.path, log.who))


def find(asked):
    """The lines that say where the places are that the arguments name."""
    known = Map(asked.map, asked.part, asked.places)
    run = Run(asked.run, known) if asked.run else None
    return ['%s%s: %s%s' % (place, asked.names.beside(re.split('[:@]', place)[0]), known.origins[place], ': ' + run.entries[place] if run else '')
            for place in known.places]
