"""Where logs can be cut: at regular configurations to which all processes that are still there change."""
from dataclasses import replace
from typing import NamedTuple

from joining.entries import MOST_ENTRIES, MOST_LOGS
from joining.folder import blocks
from joining.texts import Part
from joining.trouble import Refused, tell, tell_each


class Cut(NamedTuple):
    """A common change: for each log the number of its changes and of its entries up to there (all of them if the log ended before, none
    if it begins after)."""

    configuration: bytes
    changes: tuple
    entries: tuple


class Places:
    """The configurations to which each log changes and where, and those that any two logs share."""

    def __init__(self, logs):
        self.logs = logs
        self.at = []
        for log in logs:
            places = {}
            for index, change in enumerate(log.changes):
                places.setdefault(change.configuration, index)
            self.at.append(places)
        count = range(len(logs))
        self.shared = {(one, other): self._span(one, other) for one in count for other in count if one != other}

    def _span(self, one, other):
        """The first and the last change of the other log to a configuration to which both change, or None."""
        common = [self.at[other][name] for name in self.at[one].keys() & self.at[other].keys()]
        return (min(common), max(common)) if common else None

    def side(self, log, configuration, came):
        """On which side of this configuration a log is that doesn't change to it, as those in `came` do: 'before', 'behind' (after it), or
        None if it is on both sides, or still there."""
        has_before = has_behind = False
        for other in came:
            span = self.shared[log, other]
            if span:
                has_before |= span[0] < self.at[other][configuration]
                has_behind |= span[1] > self.at[other][configuration]
        if self.logs[log].ending == 'failed' and not has_behind:
            return 'before'
        begins_later = has_behind or self._has_earlier_life(log)
        return 'behind' if begins_later and not has_before else None

    def _has_earlier_life(self, log):
        this = self.logs[log]
        return any(other.process == this.process and (other.life or 1) < (this.life or 1) for other in self.logs)

    def cut_at(self, configuration):
        """The cut at this configuration, or None if not all that are still there change to it."""
        came = [log for log, places in enumerate(self.at) if configuration in places]
        sides = {log: self.side(log, configuration, came) for log in range(len(self.logs)) if log not in came}
        before = [log for log, side in sides.items() if side == 'before']
        behind = [log for log, side in sides.items() if side == 'behind']
        if None in sides.values() or any(self.shared[one, other] for one in before for other in behind):
            return None
        changes, entries = [], []
        for index, log in enumerate(self.logs):
            if index in sides:
                whole = sides[index] == 'before'
                changes.append(len(log.changes) if whole else 0)
                entries.append(log.entries if whole else 0)
            else:
                place = self.at[index][configuration]
                changes.append(place + 1)
                entries.append(log.changes[place].before + 1)
        return Cut(configuration, tuple(changes), tuple(entries))


def _is_before(one, other):
    return all(low <= high for low, high in zip(one.entries, other.entries)) and one.entries != other.entries


def common_changes(logs):
    """The cuts at common changes, in their order. Each log has its changes."""
    places = Places(logs)
    regular = {change.configuration: None for log in logs for change in log.changes if change.configuration.startswith(b'r')}
    cuts = [cut for cut in map(places.cut_at, regular) if cut]
    return sorted(cuts, key=lambda cut: sum(cut.entries))


def in_a_row(cuts):
    """Those of these cuts of which each one has more of the logs than the one before."""
    row = []
    for cut in cuts:
        if not row or _is_before(row[-1], cut):
            row.append(cut)
    return row


def torn_at(logs, cut):
    """Why a cut is not a state in which the logs can have been together: a configuration to which one log changes before the cut, and one after
    it. None if there is no such configuration."""
    before = {}
    for log, count in zip(logs, cut.changes):
        for change in log.changes[:count]:
            before.setdefault(change.configuration, (log, change))
    for log, count in zip(logs, cut.changes):
        for change in log.changes[count:]:
            if change.configuration in before:
                other, earlier = before[change.configuration]
                return '%s is no place to cut: %s comes before it in %s (line %d), and after it in %s (line %d)' % (
                    cut.configuration.decode(), change.configuration.decode(), other.name, other.line_of(earlier.before + 1), log.name,
                    log.line_of(change.before + 1))
    return None


class Cutting:
    """Logs that are cut into parts, in each of which no log has more than `most` entries. `life_of` returns the life of a member."""

    def __init__(self, logs, most, life_of):
        self.logs = logs
        self.most = most
        self.life_of = life_of
        self.cuts = in_a_row(common_changes(logs))
        self.begin = Cut(b'', (0,) * len(logs), (0,) * len(logs))
        self.end = Cut(b'', tuple(len(log.changes) for log in logs), tuple(log.entries for log in logs))

    def _range(self, index, begin, end):
        """The range of a log's changes in a part, and how many entries the log has there. The change of a cut is in both parts."""
        first = begin.changes[index] - 1 if self._is_cut_through(index, begin) else begin.changes[index]
        entries = end.entries[index] - begin.entries[index] + (begin.changes[index] - first)
        return first, end.changes[index], entries

    def _is_cut_through(self, index, cut):
        """Whether a log changes to the configuration of a cut and goes on."""
        changes = self.logs[index].changes
        place = cut.changes[index] - 1
        return place >= 0 and changes[place].configuration == cut.configuration

    def _there(self, begin, end):
        return [index for index in range(len(self.logs)) if self._range(index, begin, end)[2] > 0]

    def too_long(self, begin, end):
        """Why the entries between two cuts are too many for a part, or None."""
        there = self._there(begin, end)
        for index in there:
            entries = self._range(index, begin, end)[2] + self.logs[index].added.count(b'\n')
            if entries > self.most:
                return '%s has %d entries' % (self.logs[index].name, entries)
        return 'there are %d logs' % len(there) if len(there) > MOST_LOGS else None

    def stranger(self, begin, end):
        """A member between two cuts that has no log there, in words, or None."""
        there = self._there(begin, end)
        have = {(self.logs[index].process, self.logs[index].life) for index in there}
        others = {(log.process, log.life) for log in self.logs}
        for index in there:
            first, last, _ = self._range(index, begin, end)
            log = self.logs[index]
            for change in log.changes[first:last]:
                for process, life in change.members:
                    who = process, life or self.life_of(log, change.configuration, process)
                    if who not in have:
                        why = 'whose log is entirely before or after it' if who in others else 'which has no log'
                        return '%s has the member %d, %s' % (change.configuration.decode(), process, why)
        return None

    def flaw(self, begin, end):
        """What keeps the entries between two cuts from being a part, or None."""
        return self.too_long(begin, end) or self.stranger(begin, end)

    def parts(self):
        """The cuts that end the parts, as few as possible; the last is the end of the logs."""
        begin, chosen = self.begin, []
        while begin is not self.end:
            later = [cut for cut in self.cuts if _is_before(begin, cut) and _is_before(cut, self.end)]
            fit = next((cut for cut in [self.end] + later[::-1] if not self.flaw(begin, cut)), None)
            if fit is None:
                raise Refused(self._stuck(begin, (later + [self.end])[0]))
            chosen.append((begin, fit))
            begin = fit
        return chosen

    def _stuck(self, begin, end):
        return 'no part fits between %s and %s, the next change of all that are still there: %s' % (
            begin.configuration.decode() or 'the beginning', end.configuration.decode() or 'the end', self.flaw(begin, end))

    def of_part(self, begin, end):
        """The parts of the logs between two cuts."""
        parts = []
        for index in self._there(begin, end):
            log = self.logs[index]
            first, last, count = self._range(index, begin, end)
            start = log.changes[first].offset if begin.entries[index] else 0
            is_last = end.entries[index] == log.entries and not self._is_cut_through(index, end)
            size = log.size if end.entries[index] == log.entries else _end_of(log, last)
            parts.append(Part(log, start, size, is_last, end.entries[index] - count + 1, end.entries[index]))
        return parts


def _end_of(log, count):
    """The offset after the last of this many changes."""
    offset = log.changes[count - 1].offset
    for block in blocks(log.path, offset, log.size):
        return offset + block.index(b'\n') + 1
    return offset


def _trimmed(log, cut, index, changes):
    """A log up to a cut. Reports what is left out, and whether the log ends in another way."""
    kept, name = cut.entries[index], cut.configuration.decode()
    trimmed = replace(log, changes=log.changes[:cut.changes[index]], entries=kept)
    if kept < log.entries:
        tell('%s: entries left out after its change to %s: %d' % (log.name, name, log.entries - kept))
        changes.add('%s, after line %d: left out' % (log.name, log.line_of(kept)))
        trimmed.size = _end_of(log, cut.changes[index])
    if trimmed.changes and trimmed.changes[-1].configuration == cut.configuration and log.ending != 'open':
        tell('%s: is open after its change to %s, and no longer %s' % (log.name, name, log.ending))
        if log.added:
            for line in log.added.decode().splitlines():
                changes.add('%s, end: left out: %s' % (log.name, line))
            trimmed.added = b''
        trimmed.end_as('open', changes)
    return trimmed


def trim(logs, life_of, changes):
    """The logs up to the last common change, and the parts of logs that are left out. Each log has its changes."""
    cutting = Cutting(logs, MOST_ENTRIES, life_of)
    common = common_changes(logs)
    if not common:
        raise Refused('there is no regular configuration to which all that are still there change')
    cut = common[-1]
    torn, stranger = torn_at(logs, cut), cutting.stranger(cutting.begin, cut)
    if torn:
        raise Refused(torn)
    if stranger:
        raise Refused('the entries up to %s are not a run: %s' % (cut.configuration.decode(), stranger))
    trimmed, rest = [], []
    for index, log in enumerate(logs):
        if cut.entries[index]:
            trimmed.append(_trimmed(log, cut, index, changes))
        else:
            tell('%s: is taken to begin after %s, and is left out' % (log.name, cut.configuration.decode()))
            changes.add('%s: left out' % log.name)
        if cut.entries[index] < log.entries:
            begin = trimmed[-1].size if cut.entries[index] else 0
            rest.append(Part(log, begin, log.size, True, cut.entries[index] + 1, log.entries))
    return trimmed, rest
