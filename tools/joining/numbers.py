"""Renumbers processes and rings, in the same way in all logs, if their numbers are past what a run may have."""
import re

from joining.entries import BEHIND_SLASH, MOST_NUMBER, MOST_PROCESS
from joining.scan import change_lines
from joining.trouble import Refused, tell, tell_each

RING = re.compile(rb'[0-9]+\.[0-9]+')


def _table(numbers, most, what):
    """New numbers from 1 on for these numbers, in their order; none if all are in range."""
    if max(numbers, default=0) <= most:
        return {}
    if len(numbers) > most:
        raise Refused('there are %d %s, and a run has numbers for %d' % (len(numbers), what, most))
    return {number: new for new, number in enumerate(sorted(numbers), 1)}


# How many rings are looked for first: logs name few at a time.
MOST_RECENT = 8
# Replaces the dot of a ring that is already renumbered.
DONE = b'\1'


class Numbers:
    """Which numbers there are, and what they become."""

    def __init__(self):
        self.names = set()
        self.recent = []
        self.leasts = set()
        self.processes, self.rings = {}, {}
        self.new_names = {}

    def see(self, block):
        """Takes note of the rings of a block."""
        if b'/' in block:
            self.leasts.update(BEHIND_SLASH.findall(block))
        there = []
        for name in self.recent:
            size = len(block)
            block = block.replace(b'r%s ' % name, b' ').replace(b' %s#' % name, b'#')
            if len(block) < size:
                there.append(name)
        found = set(RING.findall(block)) if b'.' in block else set()
        self.names |= found
        self._come(there, found)

    def _come(self, there, found):
        """Looks first, in the next block, for the rings of this one."""
        self.recent = (there + sorted(found.difference(there)))[-MOST_RECENT:]

    def settle(self, logs, changes):
        """Makes the tables, and reports them."""
        rings, processes = set(), {int(least) for least in self.leasts}
        for name in self.names:
            number, _, process = name.partition(b'.')
            rings.add(int(number))
            processes.add(int(process))
        for log in logs:
            processes.add(log.process)
            processes.update(process for change in log.changes for process, _ in change.members)
        self.processes = _table(processes, MOST_PROCESS, 'processes')
        self.rings = _table(rings, MOST_NUMBER, 'ring numbers')
        for name in self.names:
            number, _, process = name.partition(b'.')
            new = self.rings.get(int(number), int(number)), self.processes.get(int(process), int(process))
            self.new_names[name] = b'%d.%d' % new
        lines = ['%s becomes %d' % line for line in self.lines()]
        for line in lines:
            changes.add(line)
        tell_each(lines or ['no number is past what a run may have: none is changed'])

    def lines(self):
        """What was renumbered, and the new number of each."""
        lines = [('process %d' % old, new) for old, new in self.processes.items()]
        return lines + [('ring number %d' % old, new) for old, new in self.rings.items()]

    def write_table(self, path):
        """Writes the whole table into a file."""
        with open(path, 'w', encoding='ascii') as out:
            for line, new in self.lines():
                out.write('%s becomes %d\n' % (line, new))
        tell('the table is written to %s' % path)

    def process(self, process):
        """The new number of a process."""
        return self.processes.get(process, process)

    def _member(self, word):
        process, colon, life = word.partition(b':')
        return b'%d%s%s' % (self.process(int(process)), colon, life)

    def renumber(self, block):
        """The block with the new numbers."""
        if self.processes:
            block = self._with_members(block)
            if b'/' in block:
                block = BEHIND_SLASH.sub(lambda found: b'/%d' % self.process(int(found[1])), block)
        return self._with_rings(block) if self.processes or self.rings else block

    def _with_rings(self, block):
        """The block with the new names of rings."""
        names = self.new_names
        there = []
        for name in self.recent:
            if b' %s#' % name in block:
                new = names[name].replace(b'.', DONE)
                block = block.replace(b' %s#' % name, b' %s#' % new).replace(b'r%s ' % name, b'r%s ' % new)
                there.append(name)
        others = set(RING.findall(block)) if b'.' in block else set()
        self._come(there, others)
        if others:
            block = RING.sub(lambda found: names[found[0]], block)
        return block.replace(DONE, b'.')

    def _with_members(self, block):
        """The block with the new numbers of members."""
        parts, done = [], 0
        for at in change_lines(block):
            end = block.index(b'\n', at)
            words = block[at:end].split(b' ')
            parts += [block[done:at], b' '.join(words[:2] + [self._member(word) for word in words[2:]])]
            done = end
        return b''.join(parts) + block[done:]
