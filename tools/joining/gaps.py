"""Which deliveries are past a gap: the layer delivered them, and never a message that comes before them elsewhere. In a regular configuration
extended virtual synchrony allows no such delivery; in the transitional one after it, it does. A layer that tells of the transitional configuration
only when that is over delivers them, as its logs have it, in the regular one."""
import re
from itertools import chain
from typing import NamedTuple

from joining.folder import Log, blocks

FAILURE = re.compile(rb'(?m)^fail ')


class Stay(NamedTuple):
    """A log in a configuration: from a change, by its place among the changes of the log, to the next one."""

    log: Log
    place: int

    @property
    def configuration(self):
        """The configuration in which the log is."""
        return self.log.changes[self.place].configuration

    @property
    def next(self):
        """What the log is in after that, or None if it ends there."""
        return Stay(self.log, self.place + 1) if self.place + 1 < len(self.log.changes) else None

    @property
    def after(self):
        """The transitional configuration that comes after it, as a stay, or None."""
        return self.next if self.next and not self.next.is_regular else None

    @property
    def is_regular(self):
        """Whether this is a regular configuration."""
        return self.configuration.startswith(b'r')

    def blocks(self):
        """Its lines, from that of the change on, in blocks."""
        end = self.log.changes[self.next.place].offset if self.next else self.log.size
        return blocks(self.log.path, self.log.changes[self.place].offset, end)

    def deliveries(self):
        """The messages that the log delivers there, in that configuration."""
        form = re.compile(rb'(?m)^dlv %s (.*)$' % re.escape(self.configuration))
        return list(chain.from_iterable(form.findall(block) for block in self.blocks()))

    def has_failure(self):
        """Whether the log fails there."""
        return any(FAILURE.search(block) for block in self.blocks())


def regular_stays(logs):
    """The stays in each regular configuration, in the order of the logs."""
    there = {}
    for log in logs:
        for place, change in enumerate(log.changes):
            if change.configuration.startswith(b'r'):
                there.setdefault(change.configuration, []).append(Stay(log, place))
    return there


def _are_in_step(lists):
    """Whether each of these lists is the beginning of the longest one. Then no delivery is past a gap."""
    longest = max(lists, key=len)
    return all(longest[:len(one)] == one for one in lists)


def _past_gaps(stays, lists):
    """For each message that is past a gap for some of these stays, these stays, as the bits of a number. A list has the deliveries of each."""
    have = {}
    for bit, (stay, delivered) in enumerate(zip(stays, lists)):
        for name in chain(delivered, stay.after.deliveries() if stay.after else ()):
            have[name] = have.get(name, 0) | 1 << bit
    everyone, past = (1 << len(stays)) - 1, {}
    for delivered in lists:
        # Those that deliver all that came up to here, some time.
        complete = everyone
        for name in dict.fromkeys(delivered):
            if complete != everyone:
                past[name] = past.get(name, 0) | everyone ^ complete
            complete &= have[name]
    return past


def first_past_gaps(stays):
    """Those of the stays in a regular configuration that have to end earlier, each with how many of its deliveries come before that. Those that go
    on to one transitional configuration together leave before the first delivery that is past a gap for any of them."""
    lists = [stay.deliveries() for stay in stays]
    if not any(stay.after for stay in stays) or _are_in_step(lists):
        return []
    past, groups, found = _past_gaps(stays, lists), {}, []
    for bit, (stay, delivered) in enumerate(zip(stays, lists)):
        if past and stay.after and not stay.has_failure():
            groups.setdefault(stay.after.configuration, []).append((stay, delivered, 1 << bit))
    for group in groups.values():
        late = {name for _, delivered, bit in group for name in delivered if past.get(name, 0) & bit}
        for stay, delivered, _ in group if late else ():
            first = next((at for at, name in enumerate(delivered) if name in late), None)
            if first is not None:
                found.append((stay, first))
    return found
