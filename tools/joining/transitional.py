"""Transitional configurations for layers that report none: those who change straight from one regular configuration to the next are assumed to
have gone there together."""
import os

from joining.folder import Log, blocks
from joining.line_numbers import LineNumbers
from joining.scan import Scan
from joining.trouble import some, tell


class Ways:
    """Who goes straight from which regular configuration to which, by the logs. Members are pairs of a process and a life, which is None if the
    logs write none."""

    def __init__(self, logs, has_lives):
        self.has_lives = has_lives
        # The first list of members of each configuration; the configurations to which each member's logs change; who goes which way; and whose
        # log is open and ends where.
        self.members, self.came, self.went, self.stays = {}, {}, {}, {}
        for log in logs:
            who = self.member_of(log)
            for change in log.changes:
                self.members.setdefault(change.configuration, change.members)
                self.came.setdefault(who, set()).add(change.configuration)
            for one, other in straight(log):
                self.went.setdefault((one.configuration, other.configuration), set()).add(who)
            if log.ending == 'open':
                self.stays.setdefault(log.last, set()).add(who)

    def member_of(self, log):
        """A log's own process as a member."""
        return log.process, log.life if self.has_lives else None

    def together(self, one, other):
        """Those who go this way: members of both configurations whose logs say so, or end in the first one and are open."""
        there = {who for who in self.stays.get(one, ()) if other not in self.came[who]} | self.went[one, other]
        return [who for who in self.members[one] if who in there and who in self.members[other]]

    def added(self, log):
        """The lines that a log lacks, each with the change before which it goes."""
        for one, other in straight(log):
            members = self.together(one.configuration, other.configuration)
            if self.member_of(log) in members:
                words = [b'%d' % process if life is None else b'%d:%d' % (process, life) for process, life in members]
                yield other, b'conf t%s/%d %s\n' % (other.configuration[1:], members[0][0], b' '.join(words))


def straight(log):
    """The changes of a log from one regular configuration to another one, each with the one before."""
    for one, other in zip(log.changes, log.changes[1:]):
        if one.configuration.startswith(b'r') and other.configuration.startswith(b'r') and one.configuration != other.configuration:
            yield one, other


def _write(log, added, path):
    """Writes a log with these lines into a file. Returns how many bytes it has."""
    with open(path, 'wb') as out:
        at = 0
        for change, line in added:
            out.writelines(blocks(log.path, at, change.offset))
            out.write(line)
            at = change.offset
        out.writelines(blocks(log.path, at, log.size))
        return out.tell()


def _line_numbers(log, added):
    """Which line of the log's own file each entry is when the log is written."""
    numbers, done = LineNumbers(), 0
    for count, (change, _) in enumerate(added):
        for first, _, line in log.lines.rows(done + 1, change.before):
            numbers.add(first + count, line)
        numbers.insert(change.before + count + 1, log.line_of(change.before + 1))
        done = change.before
    for first, _, line in log.lines.rows(done + 1, log.entries):
        numbers.add(first + len(added), line)
    return numbers


def add_transitional(logs, working, scan_words, changes):
    """Rewrites the logs that lack transitional configurations into a folder for temporary files, and returns all logs as they are now."""
    ways, made = Ways(logs, not scan_words['adds_lives']), []
    for log in logs:
        added = list(ways.added(log))
        if added:
            path = os.path.join(working, log.name + '.transitional')
            new = Log(log.name, path, log.process, log.life, size=_write(log, added, path), added=log.added, file=log.file,
                      lines=_line_numbers(log, added), times=log.times)
            Scan(is_known=True, **scan_words).read(new)
            new.ending = log.ending
            tell('%s: transitional configurations that are assumed: %d (%s)' % (
                log.name, len(added), some([line.split(b' ')[1] for _, line in added])))
            for change, line in added:
                changes.add('%s, line %d: %s is added before it' % (log.name, log.line_of(change.before + 1), line[:-1].decode()))
            log = new
        made.append(log)
    if made == logs:
        tell('no transitional configuration is missing, so none is assumed')
    return made
