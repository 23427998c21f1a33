"""A clock file: when lives of processes began and ended, and when processes changed to configurations, by one clock.

    958.707 end 2:1
    960.714 start 2:2
    961.300 conf r26.1

A time is in seconds, or as before a line of a log (joining.lines)."""
import re
from decimal import Decimal
from typing import NamedTuple

from joining.entries import MOST_LIFE
from joining.lines import instant
from joining.trouble import Refused

SECONDS = re.compile(r'[0-9]{1,30}(?:\.[0-9]{1,30})?')
LINE = re.compile(r'([0-9]\S{0,60}) (?:(start|end) ([1-9][0-9]{0,19}):([1-9][0-9]{0,4})|conf ([rt][0-9./]+))')
ALWAYS, NEVER = Decimal('-Infinity'), Decimal('Infinity')


class Note(NamedTuple):
    """A time, and the line of the file that has it."""

    time: Decimal
    line: int


def _time(word):
    """A time as a number that can be compared, or None if it is none."""
    if SECONDS.fullmatch(word):
        return Decimal(word)
    found = instant(word.encode('ascii', 'replace'))
    return Decimal(found[0]) + Decimal('0.%s' % (found[1].decode() or '0')) if found else None


class Clock:
    """What a clock file says."""

    def __init__(self, path):
        self.path = path
        self.starts, self.ends, self.changes = {}, {}, {}
        # When lives ran, as far as they were asked for.
        self.times = {}
        with open(path, 'r', encoding='ascii', errors='replace') as it:
            for number, line in enumerate(it, 1):
                self._read(number, line.rstrip('\n'))
        self._check_lives()

    def refuse(self, line, what):
        """Refuses a line of the file."""
        raise Refused('%s, line %d: %s' % (self.path, line, what))

    def _read(self, number, line):
        found = LINE.fullmatch(line)
        time = _time(found[1]) if found else None
        if time is None:
            self.refuse(number, 'a line is TIME start P:L, TIME end P:L or TIME conf CONFIGURATION')
        note = Note(time, number)
        if found[5]:
            known = self.changes.setdefault(found[5].encode(), note)
            if note.time < known.time:
                self.changes[found[5].encode()] = note
            return
        life = int(found[3]), int(found[4])
        if life[1] > MOST_LIFE:
            self.refuse(number, 'life %d is past %d' % (life[1], MOST_LIFE))
        known = self.starts if found[2] == 'start' else self.ends
        if life in known:
            self.refuse(number, 'life %d:%d has a %s already, in line %d' % (*life, found[2], known[life].line))
        known[life] = note

    def _check_lives(self):
        """Each life starts before it ends, and after the lives before it have started and ended."""
        for life, note in self.ends.items():
            if life in self.starts and note.time < self.starts[life].time:
                self.refuse(note.line, 'life %d:%d ends before it starts' % life)
        for verb, notes in (('starts', self.starts), ('ends', self.ends)):
            for (process, life), note in notes.items():
                for (other, earlier), before in [*self.starts.items(), *self.ends.items()]:
                    if other == process and earlier < life and note.time < before.time:
                        self.refuse(note.line, 'life %d:%d %s before life %d:%d has started and ended' % (
                            process, life, verb, other, earlier))

    def processes(self):
        """The processes whose lives the file names."""
        return sorted({process for process, _ in [*self.starts, *self.ends]})

    def lives_of(self, process):
        """The lives of a process that the file names."""
        return {life for other, life in [*self.starts, *self.ends] if other == process}

    def times_of(self, life):
        """Between which times a life ran, as far as the file says: from its start, or else after the lives before it, to its end, or else up to
        the lives after it."""
        if life not in self.times:
            notes = [*self.starts.items(), *self.ends.items()]
            earlier = [note.time for (process, other), note in notes if process == life[0] and other < life[1]]
            later = [note.time for (process, other), note in notes if process == life[0] and other > life[1]]
            begin = self.starts[life].time if life in self.starts else max(earlier, default=ALWAYS)
            end = self.ends[life].time if life in self.ends else min(later, default=NEVER)
            self.times[life] = begin, end
        return self.times[life]

    def check_change(self, configuration, life):
        """Refuses the time of a configuration at which a life whose log changes to it did not run."""
        note = self.changes.get(configuration)
        if not note:
            return
        begin, end = self.times_of(life)
        if note.time < begin:
            self.refuse(note.line, '%s is before the start of %d:%d, whose log changes to it' % (configuration.decode(), *life))
        if note.time > end:
            self.refuse(note.line, '%s is after the end of %d:%d, whose log changes to it' % (configuration.decode(), *life))

    def apart(self, lives):
        """Two of these lives of which the first one ended before the second one began, or None."""
        first = min(lives, key=lambda life: self.times_of(life)[1])
        second = max(lives, key=lambda life: self.times_of(life)[0])
        return (first, second) if self.times_of(first)[1] < self.times_of(second)[0] else None

    def lives_at(self, process, lives, configuration, came):
        """Those of these lives of a process that can have run when the lives in `came` changed to this configuration."""
        known = [self.times_of(life) for life in came]
        note = self.changes.get(configuration)
        begin = note.time if note else max((begin for begin, _ in known), default=ALWAYS)
        end = note.time if note else min((end for _, end in known), default=NEVER)
        those = []
        for life in lives:
            first, last = self.times_of((process, life))
            if first <= end and begin <= last:
                those.append(life)
        return those
