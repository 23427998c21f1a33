"""Moves sends that were recorded when the layer took the message: each goes to just before its sender's own delivery."""
import os
from collections import Counter

from joining.accounts import Account, pieces, regular_at
from joining.folder import Log
from joining.line_numbers import LineNumbers
from joining.scan import Scan
from joining.trouble import MOST_TOLD, Refused, some, tell, tell_each
from joining.warnings import tell_holes


def _delivered_in(accounts):
    """For each message that others delivered and its sender never did, the regular configuration from which they delivered it; an empty name if
    there is none, or they delivered it only after a failure. Also, how often such messages are sent."""
    missing = {account.names[index] for account in accounts for index in account.missing}
    found = {}
    for account in accounts if missing else ():
        for name, (line, segment) in account.deliveries(missing).items():
            regular = regular_at(account.segments, segment) if line < account.failed_at else None
            if not found.get(name):
                found[name] = account.segments[regular].configuration if regular is not None else b''
    counts = Counter(name for account in accounts for name in account.names if name in missing) if missing else {}
    return found, counts


class Rewriting:
    """A log that is written with its sends in their places."""

    def __init__(self, account, changes):
        self.account = account
        self.changes = changes
        self.moved = account.settle_moves()
        self.placed = sorted((account.places[index], index) for index in self.moved)
        self.gone = sorted(account.lines[index] for index in [*self.moved, *account.left_out])

    def _line(self, index, segment):
        account = self.account
        return b'send %s %c %s\n' % (account.segments[segment].configuration, account.services[index], account.names[index])

    def _moved_line(self, index):
        return self._line(index, self.account.goals[index])

    def _taken_line(self, index):
        account = self.account
        return self._line(index, account.goals[index] if index in account.late else account.inside[index])

    def write(self, path):
        """Writes the log into a file, and returns how many bytes it has."""
        line, gone, placed = 0, 0, 0
        with open(path, 'wb') as out:
            for _, block in pieces(self.account.log, self.account.segments):
                last = line + block.count(b'\n')
                first_gone, first_placed = gone, placed
                while gone < len(self.gone) and self.gone[gone] <= last:
                    gone += 1
                while placed < len(self.placed) and self.placed[placed][0] <= last:
                    placed += 1
                out.write(self._edited(block, line + 1, self.gone[first_gone:gone], self.placed[first_placed:placed]))
                line = last
            out.writelines(self._moved_line(index) for _, index in self.placed[placed:])
            return out.tell()

    def _edited(self, block, first, gone, placed):
        """A block, which begins with this line, without the lines that are gone, and with those that are placed there."""
        if not gone and not placed:
            return block
        lines = block.splitlines(keepends=True)
        for line in gone:
            lines[line - first] = b''
        for place, index in reversed(placed):
            lines[place - first] = self._moved_line(index) + lines[place - first]
        return b''.join(lines)

    def line_numbers(self):
        """Which line of the log's own file each entry is when the log is written."""
        log, numbers, entry, line, gone, placed = self.account.log, LineNumbers(), 1, 1, 0, 0
        while line <= log.entries or placed < len(self.placed):
            if placed < len(self.placed) and self.placed[placed][0] <= line:
                numbers.add(entry, log.line_of(self.account.lines[self.placed[placed][1]]))
                entry, placed = entry + 1, placed + 1
            elif gone < len(self.gone) and self.gone[gone] == line:
                line, gone = line + 1, gone + 1
            else:
                nexts = [*self.gone[gone:gone + 1], *(place for place, _ in self.placed[placed:placed + 1]), log.entries + 1]
                for first, last, own in log.lines.rows(line, min(nexts) - 1):
                    (numbers.insert if first in log.lines.added else numbers.add)(entry, own)
                    entry, line = entry + last - first + 1, last + 1
        return numbers

    def list_changes(self):
        """Adds each change to the list."""
        account = self.account
        for _, index in self.placed:
            place, moved, taken = account.places[index], self._moved_line(index), self._taken_line(index)
            where = 'just before line %d' % account.log.line_of(place) if place <= account.log.entries else 'the end'
            self.changes.add('%s, line %d: moved to %s, as %s: %s' % (
                account.log.name, account.log.line_of(account.lines[index]), where, moved[:-1].decode(), taken[:-1].decode()))
        for index in sorted(account.left_out):
            self.changes.add('%s, line %d: left out: %s' % (
                account.log.name, account.log.line_of(account.lines[index]), self._taken_line(index)[:-1].decode()))

    def tell(self):
        """Reports what was moved, what was left out, and what stays."""
        account, ends = self.account, {}
        to_ends = account.ends - account.kept_back
        for index in self.moved:
            if index in to_ends:
                ends.setdefault(account.goals[index], []).append(index)
        others = account.ends | account.kept_back
        self._tell('sends moved to just before their own deliveries', [index for index in self.moved if index not in others])
        tell_each([self._told('sends moved to the end of %s, since it delivered the messages after it or not at all' %
                              account.segments[goal].configuration.decode(), indexes) for goal, indexes in sorted(ends.items())])
        self._tell('sends moved to just before a later send', [index for index in self.moved if index in account.kept_back])
        beyond = [index for index in self.moved if account.goals[index] > account.inside[index]]
        self._tell('sends that are now in a later configuration than the messages were taken in', beyond)
        self._tell('sends moved back over a change, since the call says so', sorted(account.late))
        self._tell('sends that are left out, since nobody delivered the messages', sorted(account.left_out))
        tell_holes(account.log.name, account.holes())
        reasons = {}
        for index in sorted(account.stays):
            reasons.setdefault(account.stays[index], []).append(index)
        for why, indexes in reasons.items():
            self._tell('sends that stay where they are, since %s' % why, indexes)

    def _told(self, what, indexes):
        names = [self.account.names[index] for index in indexes[:6]]
        return '%s: %s: %d (%s)' % (self.account.log.name, what, len(indexes), some(names))

    def _tell(self, what, indexes):
        if indexes:
            tell(self._told(what, indexes))


def _check_orders(accounts, is_order_unknown):
    """Reports own deliveries in another order than the sends, and refuses them unless the call says that the order is unknown."""
    swapped = [line for account in accounts for line in account.swapped][:MOST_TOLD]
    count = sum(account.swaps for account in accounts)
    if count > len(swapped):
        swapped.append('.. and %d more' % (count - len(swapped)))
    if swapped and not is_order_unknown:
        raise Refused('\n  '.join([*swapped, 'If messages were not taken in the order of their send lines, say --own-order-unknown']))
    for line in swapped:
        tell(line)


def move_sends(logs, working, scan_words, asked, changes):
    """Rewrites the logs into a folder for temporary files, each send just before its sender's own delivery, and returns the logs there."""
    accounts = [Account(log, asked.late_sends) for log in logs]
    places, counts = _delivered_in(accounts)
    for account in accounts:
        account.settle(places, counts, asked.own_order_unknown)
    _check_orders(accounts, asked.own_order_unknown)
    moved = []
    for log, account in zip(logs, accounts):
        path = os.path.join(working, log.name + '.moved')
        rewriting = Rewriting(account, changes)
        new = Log(log.name, path, log.process, log.life, size=rewriting.write(path), added=log.added, file=log.file,
                  lines=rewriting.line_numbers(), times=log.times)
        rewriting.tell()
        rewriting.list_changes()
        Scan(is_known=True, **scan_words).read(new)
        new.ending = log.ending
        moved.append(new)
    return moved
