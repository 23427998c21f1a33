"""What a log says of its own messages, and where each of its send lines goes."""
from array import array
from typing import NamedTuple

from joining.folder import blocks
from joining.trouble import MOST_TOLD

class Segment(NamedTuple):
    """What a log says from one change to the next. The part before the first change has no configuration. `end` is an offset of the file,
    `first` the line of the change (or 1), `after` the first line after the segment."""

    configuration: bytes
    end: int
    first: int
    after: int

    @property
    def is_regular(self):
        """Whether messages may be sent in it."""
        return self.configuration.startswith(b'r')


def segments(log):
    """The segments of a log, in their order."""
    ends = [change.offset for change in log.changes] + [log.size]
    lines = [1] + [change.before + 1 for change in log.changes] + [log.entries + 1]
    names = [b''] + [change.configuration for change in log.changes]
    return [Segment(*segment) for segment in zip(names, ends, lines, lines[1:])]


def pieces(log, of_log):
    """The bytes of a log in pieces, each with the index of its segment."""
    offset, index = 0, 0
    for block in blocks(log.path, 0, log.size):
        at = 0
        while at < len(block):
            while of_log[index].end <= offset + at:
                index += 1
            end = min(len(block), of_log[index].end - offset)
            yield index, block[at:end]
            at = end
        offset += len(block)


def regular_at(of_log, index):
    """The index of the regular configuration in which a message delivered in this segment was sent, or None."""
    for back in (index, index - 1):
        if back >= 0 and of_log[back].is_regular:
            return back
    return None


# Why a send stays where it is.
BEFORE_ALL = 'they are before the first change'
AFTER_FAILURE = 'they are after a failure'
ELSEWHERE = 'they name another configuration than the one in which the log is there'
AFTER_DELIVERY = 'its own deliveries come before them'
AFTER_CHANGE = 'it had left the configuration from which it delivered the messages'
NOWHERE = 'the messages were delivered after a failure, or where none can have been sent before'
TWICE = 'they are sent more than once, and nobody delivered the messages'
LEFT_BEFORE = 'it had left the configuration in which others delivered the messages'
NEVER_THERE = 'it was never in the configuration in which others delivered the messages'


class Account:
    """The send lines of a log, in their order, each with the place to which it goes."""

    def __init__(self, log, moves_late):
        self.log = log
        self.segments = segments(log)
        # The line after the last one, or that of the first failure.
        self.failed_at = log.entries + 1
        # Of each send line: its number, the segment in which it is, its message and its service.
        self.lines, self.inside, self.names, self.services = array('Q'), array('Q'), [], bytearray()
        # The line before which it goes, and the segment in which it is then.
        self.places, self.goals = array('Q'), array('Q')
        # By their indexes: those that stay and why; those of messages that this process never delivered; those that go back.
        self.stays, self.missing, self.late, self.left_out = {}, set(), set(), set()
        # Those that go to the end of a configuration, and those that a later one keeps back.
        self.ends, self.kept_back = set(), set()
        # Own deliveries in another order than the sends: the first ones in words, and how many there are.
        self.swapped, self.swaps = [], 0
        named = self._read_sends()
        self.goals.extend(self.inside)
        self.places.extend(self.lines)
        delivered = {name: own for name, own in self.deliveries(set(self.names)).items() if own[0] < self.failed_at}
        for index, name in enumerate(self.names):
            self._place(index, named[index], delivered.get(name), moves_late)
        self._compare_orders(delivered)

    def _read_sends(self):
        """Reads the send lines. Returns the configurations that they name."""
        named, line = [], 0
        for segment, block in pieces(self.log, self.segments):
            lines = block.split(b'\n') if b'send ' in block else ()
            for at, words in [(at, it.split(b' ')) for at, it in enumerate(lines, line + 1) if it.startswith(b's')]:
                self.lines.append(at)
                self.inside.append(segment)
                self.names.append(words[3])
                self.services += words[2]
                named.append(words[1])
            if b'fail ' in block and self.failed_at > self.log.entries:
                failed = 0 if block.startswith(b'fail ') else block.find(b'\nfail ') + 1
                self.failed_at = line + block.count(b'\n', 0, failed) + 1
            line += block.count(b'\n')
        return named

    def deliveries(self, names):
        """The first delivery of each of these messages: its line, and the index of its segment."""
        found, line = {}, 0
        for segment, block in pieces(self.log, self.segments):
            stripped = block.replace(b'dlv %s ' % self.segments[segment].configuration, b'')
            if b'dlv ' in stripped:
                those = [it[it.rfind(b' ') + 1:] if it.startswith(b'dlv ') else it for it in block.split(b'\n')]
            else:
                those = stripped.split(b'\n')
            for at, name in [(at, name) for at, name in enumerate(those, line + 1) if name in names]:
                if name not in found:
                    found[name] = at, segment
            line += block.count(b'\n')
        return found

    def _place(self, index, named, own, moves_late):
        """Chooses where a send goes, as far as this log tells it."""
        line, inside = self.lines[index], self.inside[index]
        why = None
        if inside == 0:
            why = BEFORE_ALL
        elif line > self.failed_at:
            why = AFTER_FAILURE
        elif named != self.segments[inside].configuration:
            if own and moves_late and self._is_late(index, named, own):
                self.late.add(index)
                self._go_to_end(index, inside - 1)
            else:
                why = ELSEWHERE
        elif own:
            why = self._place_delivered(index, *own)
        else:
            self.missing.add(index)
        if why:
            self.stays[index] = why

    def _place_delivered(self, index, line, segment):
        """The send of a message that this process delivers there. Returns why it stays, or None."""
        regular = regular_at(self.segments, segment)
        if line < self.lines[index]:
            return AFTER_DELIVERY
        if regular is None:
            return NOWHERE
        if self.end_of(regular) <= self.lines[index]:
            return AFTER_CHANGE
        if regular == segment:
            self.places[index], self.goals[index] = line, segment
        else:
            self._go_to_end(index, regular)
        return None

    def _is_late(self, index, named, own):
        """Whether a send names the regular configuration right before the transitional one in which it is, and is delivered there after it."""
        inside = self.inside[index]
        before = self.segments[inside - 1]
        is_passed = before.is_regular and not self.segments[inside].is_regular
        return is_passed and named == before.configuration and own[1] == inside and own[0] > self.lines[index]

    def _go_to_end(self, index, segment):
        self.ends.add(index)
        self.places[index], self.goals[index] = self.end_of(segment), segment

    def end_of(self, segment):
        """The line before which the end of a segment is: a failure there, or else the next change."""
        there = self.segments[segment]
        return self.failed_at if there.first <= self.failed_at < there.after else there.after

    def _compare_orders(self, delivered):
        """Compares the order of the own deliveries with that of the sends."""
        last = None
        for index, name in enumerate(self.names):
            if name not in delivered or index in self.stays:
                continue
            if last is not None and delivered[name][0] < delivered[self.names[last]][0]:
                self._swap(last, index, 'delivers the first one in line %d and the second one in line %d' % (
                    self.log.line_of(delivered[self.names[last]][0]), self.log.line_of(delivered[name][0])))
            else:
                last = index

    def _swap(self, first, second, what):
        self.swaps += 1
        if self.swaps <= MOST_TOLD:
            self.swapped.append('%s: sends %s (line %d) and then %s (line %d), and %s' % (
                self.log.name, self.names[first].decode(), self.log.line_of(self.lines[first]), self.names[second].decode(),
                self.log.line_of(self.lines[second]), what))

    def settle(self, delivered_in, counts, is_order_unknown):
        """Places the sends of messages that the process never delivered. `delivered_in` has the configuration from which others delivered them,
        and `counts` how many sends they have. Unless the order of the own messages is unknown, no send goes past a later one."""
        indexes = {}
        for index, segment in enumerate(self.segments):
            indexes.setdefault(segment.configuration, []).append(index)
        for index in sorted(self.missing):
            self._place_missing(index, delivered_in, counts, indexes)
        later, bound = None, self.log.entries + 1
        for index in reversed(range(0 if is_order_unknown else len(self.lines))):
            if index in self.stays or index in self.left_out:
                continue
            if self.places[index] > bound:
                self.places[index] = bound
                self.kept_back.add(index)
                if bound <= max(self.segments[self.goals[index]].first, self.lines[index]):
                    self._swap(index, later, 'the second one has to come before line %d, and the first one into %s' % (
                        self.log.line_of(bound), self.segments[self.goals[index]].configuration.decode()))
            later, bound = index, self.places[index]

    def _place_missing(self, index, delivered_in, counts, indexes):
        """A message that others delivered was sent in the configuration from which they did: where it was taken, or at the end of a later one."""
        name, inside = self.names[index], self.inside[index]
        if name not in delivered_in:
            if counts[name] == 1:
                self.left_out.add(index)
            else:
                self.stays[index] = TWICE
            return
        there = indexes.get(delivered_in[name], ())
        later = [segment for segment in there if segment >= inside and self.segments[segment].first < self.failed_at]
        if not delivered_in[name]:
            self.stays[index] = NOWHERE
        elif not later:
            self.stays[index] = LEFT_BEFORE if there else NEVER_THERE
        elif later[0] > inside:
            self._go_to_end(index, later[0])

    def holes(self):
        """The messages that are left out though the log sends a later one, in its place, that somebody delivered."""
        last = max((index for index in range(len(self.lines)) if index not in self.left_out and index not in self.stays), default=-1)
        return [self.names[index] for index in sorted(self.left_out) if index < last]

    def settle_moves(self):
        """Returns the indexes of the sends that get another line or another configuration, in their order. Those that come right before their
        place already do not move, and others of that place go before them."""
        moved, place, free = [], 0, 0
        for index in reversed(range(len(self.lines))):
            if index in self.stays or index in self.left_out or self.places[index] == self.lines[index]:
                continue
            # The line before which the next one of this place goes: before those that come right there already.
            free = free if self.places[index] == place else self.places[index]
            place = self.places[index]
            if self.lines[index] + 1 == free and self.goals[index] == self.inside[index]:
                free = self.lines[index]
            else:
                self.places[index] = free
                moved.append(index)
        return moved[::-1]
