"""Reads logs from their first line to their last: whether each line is an entry, how many there are, and where they change."""
import os
import re
from functools import partial

from joining import entries
from joining.folder import Change, blocks, measure
from joining.lines import Checksums, Plain, tell_left_out
from joining.trouble import Refused, shown, tell


# A ring number of ten digits, and how many of them are shortened.
LONG_RING = re.compile(rb'[rt ]([1-4][0-9]{9})\.')
MOST_LONG = 4


def _shortened(block, number):
    """The block with another number, of one digit, for this ring number."""
    for before in (b'r', b't', b' '):
        block = block.replace(before + number + b'.', before + b'1.')
    return block


def _refuse(log, entry, what):
    raise Refused('%s, line %d: %s' % (log.name, log.line_of(entry), what))


def _check_lines(log, block, before, is_numbered_anew):
    """Checks the lines of a block one by one."""
    for number, line in enumerate(block.removesuffix(b'\n').split(b'\n'), before + 1):
        what = entries.flaw(line + b'\n', is_numbered_anew)
        if what:
            _refuse(log, number, what)


def change_lines(block):
    """The offsets of a block's lines that begin with conf."""
    at = 0 if block.startswith(b'conf ') else block.find(b'\nconf ') + 1
    while at or block.startswith(b'conf ', at):
        yield at
        found = block.find(b'\nconf ', at)
        if found < 0:
            return
        at = found + 1


def read_members(words):
    """Members as pairs of a process and a life, which is None if none is written."""
    members = []
    for word in words:
        process, _, life = word.partition(b':')
        members.append((int(process), int(life) if life else None))
    return tuple(members)


def _check_change(log, entry, members, adds_lives):
    """Refuses a change whose members are not ascending, or do not have lives exactly if the log's file has one."""
    what = entries.flaw_of_members(members)
    if what:
        _refuse(log, entry, what)
    with_life = [life is not None for _, life in members]
    if adds_lives and any(with_life):
        _refuse(log, entry, 'a member has a life already: leave --lives out')
    if log.life is None and any(with_life):
        _refuse(log, entry, 'a member has a life, and the name of the file has none: call it P.L.log, such as %d.1.log' % log.process)
    if log.life is not None and not adds_lives and not all(with_life):
        _refuse(log, entry, 'a member has no life, and the name of the file has one: --lives adds lives to members')


class Scan:
    """How logs are read. `keeps_changes`: each log gets the list of its changes. `sees(block)`, if given, is called with each block.
    `is_known`: each line is known to be an entry."""

    def __init__(self, is_numbered_anew=False, adds_lives=False, keeps_changes=False, sees=None, is_known=False):
        self.is_numbered_anew = is_numbered_anew
        self.adds_lives = adds_lives
        self.keeps_changes = keeps_changes
        self.sees = sees
        self.is_known = is_known
        self.plain = entries.PLAIN_TO_NUMBER if is_numbered_anew else entries.PLAIN
        # The lists of members that there are, and the first change that lists each member: its log, its entry and its configuration.
        self.lists, self.listed = set(), {}
        # Long ring numbers that are in range, which come again in nearly each line.
        self.long = []

    def _is_plain(self, block):
        """Whether each line of a block is an entry. Long ring numbers that are in range are looked at once, and then shortened."""
        small, whole = self.plain
        for number in self.long:
            block = _shortened(block, number)
        for _ in range(MOST_LONG):
            end = small.match(block).end()
            if end == len(block):
                return True
            found = LONG_RING.search(block, end, block.find(b'\n', end) + 1)
            if not found or self.is_numbered_anew or int(found[1]) > entries.MOST_NUMBER:
                break
            self.long = [found[1], *self.long[:MOST_LONG - 1]]
            block = _shortened(block, found[1])
        return whole.match(block).end() == len(block)

    def _take_changes(self, log, block, offset):
        """Takes note of the changes of a block, which begins at this offset."""
        counted, before = 0, log.entries
        for at in change_lines(block):
            before += block.count(b'\n', counted, at)
            counted = at
            words = block[at:block.index(b'\n', at)].split(b' ')
            members = read_members(words[2:])
            _check_change(log, before + 1, members, self.adds_lives)
            log.last = words[1]
            if members not in self.lists:
                self.lists.add(members)
                for member in members:
                    self.listed.setdefault(member, (log, before + 1, words[1]))
            if self.keeps_changes:
                log.changes.append(Change(offset + at, before, words[1], members))

    def read(self, log, make_plain=None):
        """Reads one log. If it has more than entries, `make_plain` lets it have these alone, and it is read from its beginning again."""
        if not self._read_blocks(log, make_plain is not None):
            make_plain()
            log.entries, log.last = 0, b''
            log.changes.clear()
            self._read_blocks(log, False)

    def _read_blocks(self, log, stops):
        """Reads the blocks of a log. Returns False if it stops at one that has more than entries."""
        offset, block = 0, b''
        for block in blocks(log.path, 0, log.size):
            if not self.is_known and not self._is_plain(block):
                if stops:
                    return False
                _check_lines(log, block, log.entries, self.is_numbered_anew)
            self._take_changes(log, block, offset)
            if self.sees:
                self.sees(block)
            log.entries += block.count(b'\n')
            offset += len(block)
        if block[block.rfind(b'\n', 0, -1) + 1:].startswith(b'fail '):
            if log.ending == 'quiet':
                _refuse(log, log.entries + 1, 'quiet comes after a failure')
            log.ending = 'failed'
        return True

    def read_all(self, logs, working, keeps_times, changes):
        """Reads all logs, and returns those that have an entry. Those with more than entries are written into a folder for temporary files."""
        checksums, plains = Checksums(), []
        for log in logs:
            cut_off = measure(log)
            plain = Plain(log, os.path.join(working, log.name + '.plain'), checksums,
                          os.path.join(working, log.name + '.times') if keeps_times else None)
            self.read(log, partial(plain.write, bool(cut_off)))
            plain.list_changes(changes)
            plains.append(plain)
            if cut_off:
                changes.add('%s, line %d: left out: %s' % (log.name, log.line_of(log.entries + 1), shown(cut_off)))
        tell_left_out(plains)
        checksums.check()
        with_entries = [log for log in logs if log.entries]
        if not with_entries:
            leave_out(logs, changes)
            raise Refused('no log has an entry')
        return with_entries


def leave_out(logs, changes):
    """Reports logs without an entry."""
    for log in logs:
        tell('%s has no entry, and is left out' % log.name)
        changes.add('%s: left out' % log.name)
