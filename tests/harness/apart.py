"""What one side of a parting has and another one lacks (docs/SPECIFICATIONS.md, "Apart"), found by plain loops over pairs of logs."""
import re
from itertools import permutations

from harness.recordings import is_regular


def order_of(name):
    """The order of the names of configurations or messages: by ring, and messages then by their numbers."""
    return tuple(int(number) for number in re.findall('[0-9]+', name))


def with_lives(who):
    """These processes, as a run with lives writes them."""
    return ' '.join('%d:%d' % it for it in who)


def without_lives(who):
    """These processes, as a run without lives writes them."""
    return ' '.join('%d' % process for process, _ in who)


def delivered_by(log):
    """The messages that a log delivers."""
    return {entry.message for entry in log.entries if entry.word == 'dlv'}


class Moves:
    """The changes of a log, each with the index of its entry."""

    def __init__(self, log):
        self.log = log
        self.all = [(at, entry) for at, entry in enumerate(log.entries) if entry.word == 'conf']
        self.regular = [(at, entry.configuration) for at, entry in self.all if is_regular(entry.configuration)]
        self.has_failure = any(entry.word == 'fail' for entry in log.entries)
        self.delivered = delivered_by(log)

    def names(self):
        """The regular configurations to which it changes."""
        return [name for _, name in self.regular]

    def first(self, name):
        """Its first change to a configuration."""
        return min(at for at, there in self.regular if there == name)

    def behind(self, at):
        """The changes after an entry, up to the next one to a regular configuration."""
        changes = []
        for place, entry in self.all:
            if place > at:
                changes.append(entry)
                if is_regular(entry.configuration):
                    break
        return changes

    def step(self, at):
        """The step after a change: the last transitional configuration and the next regular one, if there are any."""
        names = [entry.configuration for entry in self.behind(at)]
        between = [name for name in names if not is_regular(name)]
        return between[-1] if between else None, names[-1] if names and is_regular(names[-1]) else None

    def may_take(self, at, other, place):
        """Whether this log may still take the step of another one."""
        between, to = self.step(at)
        return self.log.ending == 'open' and to is None and between in (None, other.step(place)[0]) and \
            all(self.log.who in change.members for change in other.behind(place))


class Stretch:
    """What a log did after its first change to a configuration, until it came together again with another one from which it parted there."""

    def __init__(self, one, other, name):
        self.one, self.other, self.at = one, other, one.first(name)
        between, to = one.step(self.at)
        self.side = (between, 'to %s' % to if to else one.log.ending)
        meetings = [it for it in one.regular if it[0] > self.at and it[1] in other.names()]
        self.end, self.again = meetings[0] if meetings else (None, None)

    def alone(self, word):
        """The places at which it sends, or delivers, what the other one lacks; with the messages."""
        if self.other.has_failure:
            return set()
        return {(self.one.log.who, at, entry.message) for at, entry in list(enumerate(self.one.log.entries))[self.at + 1:self.end]
                if entry.word == word and entry.message not in self.other.delivered}


def stretches_of(moves):
    """All stretches, by the configuration after which the logs part."""
    found = {}
    for one, other in permutations(moves, 2):
        for name in set(one.names()) & set(other.names()):
            at, place = one.first(name), other.first(name)
            if one.step(at) != other.step(place) and not one.may_take(at, other, place) and not other.may_take(place, one, at):
                found.setdefault(name, []).append(Stretch(one, other, name))
    return found


def parting_lines(name, stretches, write):
    """The lines of a parting; none if it is left out."""
    again = sorted({it.again for it in stretches if it.again}, key=order_of)
    is_never = any(not it.again and not it.one.has_failure and not it.other.has_failure for it in stretches)
    lines = [' '.join(['parting', name, *['together'] * bool(again), *again, *['never'] * is_never])]
    is_left_out = True
    sides = {}
    for it in sorted(stretches, key=lambda it: it.one.log.who):
        sides.setdefault(it.side, []).append(it)
    for (_, way), side in sides.items():
        sends = set().union(*(it.alone('send') for it in side))
        delivered = {message for it in side for _, _, message in it.alone('dlv')}
        who = sorted({it.one.log.who for it in side})
        lines.append('side %s %s by %s sends %d delivers %d' % (name, way, write(who), len(sends), len(delivered)))
        is_left_out &= not delivered
    return [] if is_left_out and len([way for _, way in sides if way != 'failed']) < 2 else lines


def message_lines(logs, lacking, write):
    """The lines of the messages that are apart: `lacking` says who lacks a message, of those who have not delivered it."""
    names = sorted({entry.message for log in logs for entry in log.entries if entry.message}, key=order_of)
    groups = []
    for name in names:
        has = [log.who for log in logs if name in delivered_by(log)]
        key = (name.split('#')[0], has, lacking(name))
        if groups and groups[-1][0] == key:
            groups[-1][1].append(name)
        else:
            groups.append((key, [name]))
    return ['apart %s %s %d has %s lacks %s' % (group[0], group[-1], len(group), write(has), write(lacks))
            for (_, has, lacks), group in groups if has and lacks]


def apart_lines(logs, verdict, has_lives):
    """What `totem explain --apart` says of some logs."""
    write = with_lives if has_lives else without_lives
    found = stretches_of([Moves(log) for log in logs])
    alone = [(it.other.log.who, message) for those in found.values() for it in those for _, _, message in it.alone('dlv')]
    lines = ['verdict %s' % verdict]
    for name in sorted(found, key=order_of):
        lines += parting_lines(name, found[name], write)
    lines += message_lines(logs, lambda name: sorted({who for who, message in alone if message == name}), write)
    return [*lines, 'end', '']
