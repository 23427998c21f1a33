"""Changes of which a layer tells later than they happen: each transitional configuration then begins before the first delivery that is past a gap
(joining.gaps)."""
import os
from itertools import islice

from joining.folder import Log, blocks
from joining.gaps import first_past_gaps, regular_stays
from joining.line_numbers import LineNumbers
from joining.scan import Scan
from joining.trouble import some, tell


class Earlier:
    """A change to a transitional configuration that goes to before an earlier entry of its log."""

    def __init__(self, stay, count):
        """The stay in the regular configuration before it has this many deliveries that remain there."""
        self.log, change, after = stay.log, stay.log.changes[stay.place], stay.log.changes[stay.place + 1]
        self.regular, self.transitional = change.configuration, after.configuration
        self.entry, self.offset = after.before + 1, after.offset
        self.words = next(blocks(self.log.path, after.offset, self.log.size)).split(b'\n', 1)[0] + b'\n'
        delivery = b'dlv %s ' % self.regular
        lines = [line for block in stay.blocks() for line in block.splitlines(keepends=True)]
        own = (at for at, line in enumerate(lines) if line.startswith(delivery))
        first = next(islice(own, count, None))
        # Where the lines that stay begin in the file, the entry before which the change goes, and those after that place: entries and lines.
        self.begin = change.offset + sum(map(len, lines[:first]))
        self.first = change.before + 1 + first
        rest = list(enumerate(lines[first:], self.first))
        self.moved = [it for it in rest if it[1].startswith(delivery)]
        self.staying = [it for it in rest if not it[1].startswith(delivery)]

    def renamed(self, line):
        """A delivery, in the transitional configuration."""
        return line.replace(self.regular, self.transitional, 1)

    def lines(self):
        """What the log has from the place of the change on to its old place."""
        return [*(line for _, line in self.staying), self.words, *(self.renamed(line) for _, line in self.moved)]

    def entries(self):
        """The same as numbers of entries of the log as it was."""
        return [*(entry for entry, _ in self.staying), self.entry, *(entry for entry, _ in self.moved)]

    def list_changes(self, changes):
        """Adds each change to the list, in the order in which they can be made."""
        name, line_of = self.log.name, self.log.line_of
        place = 'moved to just before line %d' % line_of(self.first)
        for entry, line in self.staying:
            changes.add('%s, line %d: %s: %s' % (name, line_of(entry), place, line[:-1].decode()))
        where = 'added before line' if self.entry in self.log.lines.added else 'line'
        changes.add('%s, %s %d: %s: %s' % (name, where, line_of(self.entry), place, self.words[:-1].decode()))
        for entry, line in self.moved:
            changes.add('%s, line %d: %s in place of %s' % (name, line_of(entry), self.renamed(line)[:-1].decode(), line[:-1].decode()))


def _write(log, earlier, path):
    """Writes a log into a file, with these changes at their new places. Returns how many bytes it has."""
    with open(path, 'wb') as out:
        at = 0
        for one in earlier:
            out.writelines(blocks(log.path, at, one.begin))
            out.writelines(one.lines())
            at = one.offset + len(one.words)
        out.writelines(blocks(log.path, at, log.size))
        return out.tell()


def _line_numbers(log, earlier):
    """Which line of the log's own file each entry is when the log is written."""
    numbers, new, at = LineNumbers(), 1, 1
    for one in [*earlier, None]:
        ranges = [(at, one.first - 1 if one else log.entries)] + [(entry, entry) for entry in (one.entries() if one else ())]
        for first, last, line in (row for range_of in ranges for row in log.lines.rows(*range_of)):
            if first in log.lines.added:
                numbers.insert(new, log.line_of(one.first) if one and first == one.entry else line)
            else:
                numbers.add(new, line)
            new += last - first + 1
        at = one.entry + 1 if one else at
    return numbers


def _tell(log, earlier):
    """Reports what is now in transitional configurations, and what is not."""
    moved = ['%s: %d' % (one.transitional.decode(), len(one.moved)) for one in earlier]
    tell('%s: deliveries from the first one past a gap on, which are now in transitional configurations: %d (%s)' % (
        log.name, sum(len(one.moved) for one in earlier), some(moved)))
    staying = [line.rstrip().rpartition(b' ')[2] for one in earlier for _, line in one.staying]
    if staying:
        tell('%s: sends and other entries that stay in the regular configurations before: %d (%s)' % (log.name, len(staying), some(staying)))


def begin_earlier(logs, working, scan_words, changes):
    """Rewrites the logs that have deliveries past a gap into a folder for temporary files, and returns all logs as they are now."""
    counts, made = {}, []
    for stays in regular_stays(logs).values():
        for stay, count in first_past_gaps(stays):
            counts[id(stay.log), stay.place] = stay, count
    for log in logs:
        earlier = [Earlier(*counts[id(log), place]) for place in range(len(log.changes)) if (id(log), place) in counts]
        if earlier:
            path = os.path.join(working, log.name + '.earlier')
            new = Log(log.name, path, log.process, log.life, size=_write(log, earlier, path), added=log.added, file=log.file,
                      lines=_line_numbers(log, earlier), times=log.times)
            Scan(is_known=True, **scan_words).read(new)
            new.ending = log.ending
            _tell(log, earlier)
            for one in earlier:
                one.list_changes(changes)
            log = new
        made.append(log)
    if not counts:
        tell('no change goes to an earlier place, since no delivery before one is past a gap')
    return made
