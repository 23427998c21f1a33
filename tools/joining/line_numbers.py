"""Which line of its file each entry of a log is."""
from array import array
from bisect import bisect_right


class LineNumbers:
    """Which line of its file each entry of a log is. What comes in a row has one place here: its first entry, and the line of that."""

    def __init__(self):
        self.entries, self.lines = array('Q', [1]), array('Q', [1])
        # Entries that are no lines: what has their place here is the line before which they are added.
        self.added = set()

    def add(self, entry, line):
        """From this entry on, entries are the lines from this one on. Entries are added in their order."""
        if line - entry == self.lines[-1] - self.entries[-1]:
            return
        if entry == self.entries[-1]:
            self.entries.pop()
            self.lines.pop()
        self.entries.append(entry)
        self.lines.append(line)

    def insert(self, entry, line):
        """This entry is added before this line. The next entry is this line."""
        self.entries.append(entry)
        self.lines.append(line)
        self.added.add(entry)

    def of(self, entry):
        """The line of an entry."""
        at = bisect_right(self.entries, entry) - 1
        return self.lines[at] + entry - self.entries[at]

    def rows(self, first, last):
        """The rows of these entries: the first and the last entry of each, and the line of the first. An added entry is a row of its own."""
        at = bisect_right(self.entries, first) - 1
        while first <= last:
            end = self.entries[at + 1] - 1 if at + 1 < len(self.entries) else last
            end = min(end, last)
            yield first, end, self.lines[at] + first - self.entries[at]
            first, at = end + 1, at + 1
