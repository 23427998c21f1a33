"""Logs that end before the layer knows it: a process was killed, and the layer, which still ran, sent messages that it had handed over, in
configurations to which the process never came. These messages are left out of all logs. And if it was killed before it was told of the first
configuration that lists it, its log, which has no entry, gets this one, and fails there."""
import os
from collections import Counter

from joining import scan
from joining.accounts import pieces, regular_at, segments
from joining.folder import Log, blocks
from joining.line_numbers import LineNumbers
from joining.trouble import some, tell


def _name_in(line):
    """The message that a line sends or delivers, or None."""
    return line[line.rfind(b' ') + 1:] if line.startswith((b'send ', b'dlv ')) else None


class Members:
    """Whom changes list. `life_of(log, configuration, process)` is the life of a member that is written without one."""

    def __init__(self, life_of):
        self.life_of = life_of

    def lists(self, log, change, process):
        """Whether a change of a log lists the process, or its life, of another log."""
        for number, life in change.members:
            if number == process.process:
                return (self.life_of(log, change.configuration, number) if life is None else life) == process.life
        return False


def _lines(log):
    """The lines of a log, without their line ends, and of those that are added to it."""
    for block in [*blocks(log.path, 0, log.size), log.added]:
        yield from block.split(b'\n')


class Afterwards:
    """The messages that were sent after their sender's log had ended, each with this log."""

    def __init__(self, logs, members):
        self.members = members
        self.senders = self._waiting(logs)
        self.delivered = set()
        for log in logs if self.senders else ():
            self._read(log)
        self.senders = {name: log for name, log in self.senders.items() if name in self.delivered}

    @staticmethod
    def _waiting(logs):
        """The messages that one log alone sends and does not deliver, if it is not quiet."""
        counts, waiting = Counter(), {}
        for log in logs:
            sent, delivered = set(), set()
            for line in _lines(log):
                if line.startswith(b'send '):
                    sent.add(_name_in(line))
                    counts[_name_in(line)] += 1
                elif line.startswith(b'dlv '):
                    delivered.add(_name_in(line))
            if log.ending != 'quiet':
                waiting.update(dict.fromkeys(sent - delivered, log))
        return {name: log for name, log in waiting.items() if counts[name] == 1}

    def _read(self, log):
        """Keeps the messages that a log delivers only where their senders never came and were members."""
        of_log = segments(log)
        for segment, block in pieces(log, of_log):
            for line in block.split(b'\n'):
                name = _name_in(line) if line.startswith(b'dlv ') else None
                if name in self.senders:
                    self.delivered.add(name)
                    if not self._is_afterwards(self.senders[name], log, regular_at(of_log, segment)):
                        del self.senders[name]

    def _is_afterwards(self, sender, log, place):
        """Whether a log lists the sender in the configuration at this place, and the sender never came there."""
        if not place:
            return False
        change = log.changes[place - 1]
        return self.members.lists(log, change, sender) and all(own.configuration != change.configuration for own in sender.changes)


def _found(log, senders):
    """The entries of a log that send or deliver these messages: their numbers and lines."""
    lines = (line for block in blocks(log.path, 0, log.size) for line in block.removesuffix(b'\n').split(b'\n'))
    return [(entry, line) for entry, line in enumerate(lines, 1) if _name_in(line) in senders]


def _write(log, gone, path):
    """Writes a log into a file, without these entries. Returns how many bytes it has."""
    numbers, entry = {number for number, _ in gone}, 0
    with open(path, 'wb') as out:
        for block in blocks(log.path, 0, log.size):
            for entry, line in enumerate(block.splitlines(keepends=True), entry + 1):
                out.write(b'' if entry in numbers else line)
        return out.tell()


def _line_numbers(log, gone):
    """Which line of the log's own file each entry is when the log is written."""
    numbers, new, first = LineNumbers(), 1, 1
    for last in [*(number for number, _ in gone), log.entries + 1]:
        for begin, end, line in log.lines.rows(first, last - 1):
            (numbers.insert if begin in log.lines.added else numbers.add)(new, line)
            new += end - begin + 1
        first = last + 1
    return numbers


def _without(log, senders, working, scan_words, changes):
    """A log without these messages, or the log itself if it has none of them."""
    gone = _found(log, senders)
    if not gone:
        return log
    path = os.path.join(working, log.name + '.ended')
    new = Log(log.name, path, log.process, log.life, size=_write(log, gone, path), added=log.added, file=log.file,
              lines=_line_numbers(log, gone), times=log.times)
    scan.Scan(is_known=True, **scan_words).read(new)
    new.ending = log.ending
    for entry, line in gone:
        changes.add('%s, line %d: left out of all logs: %s' % (log.name, log.line_of(entry), line.decode()))
    _tell(log, [_name_in(line) for _, line in gone], senders)
    return new


def _tell(log, gone, senders):
    """Reports what is left out of a log."""
    own = [name for name in gone if senders[name] is log]
    others = [name for name in gone if senders[name] is not log]
    if own:
        tell('%s: sends that are left out, since others delivered the messages where it never came: %d (%s)' % (log.name, len(own), some(own)))
    if others:
        tell('%s: deliveries that are left out, of messages whose senders never came there: %d (%s)' % (log.name, len(others), some(others)))


def leave_out(logs, members, working, scan_words, changes):
    """Leaves out of all logs the messages that were sent after their sender's log had ended. Returns all logs as they are now."""
    senders = Afterwards(logs, members).senders
    if not senders:
        return logs
    return [_without(log, senders, working, scan_words, changes) for log in logs]


def first_listed(logs, lists):
    """The first change to a regular configuration of which `lists` says, by log and change, that it lists a process; None if there is none."""
    ways = [[change for change in log.changes if change.configuration.startswith(b'r') and lists(log, change)] for log in logs]
    firsts = {way[0].configuration: way[0] for way in ways if way}
    later = {change.configuration for way in ways for change in way[1:]}
    return next((change for name, change in firsts.items() if name not in later), next(iter(firsts.values()), None))


def _begun(log, change, changes):
    """Lets a log that has no entry get a change and the failure there."""
    lines = [change.line, b'fail %s' % change.configuration]
    log.last, log.added = change.configuration, b''.join(line + b'\n' for line in lines)
    for line in lines:
        changes.add('%s, end: %s is added' % (log.name, line.decode()))
    log.end_as('failed', changes)
    tell('%s has no entry, and others list it: it is taken to have come to %s, and to have failed there' % (log.name, change.configuration.decode()))


def begin(silent, logs, members, changes):
    """Lets logs without an entry begin where others list them first, and leaves out those that nobody lists. Returns all logs as they are now."""
    begun = []
    for log in silent:
        change = first_listed(logs, lambda other, listing, log=log: members.lists(other, listing, log))
        if change:
            _begun(log, change, changes)
            begun.append(log)
        else:
            scan.leave_out([log], changes)
    return sorted([*logs, *begun], key=lambda log: (log.process, log.life or 1))
