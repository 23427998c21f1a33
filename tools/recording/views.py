"""From the callbacks of a closed process group to the lines of a log (docs/COROSYNC.md, "What the recorder writes"): callbacks in, lines
out, without the library, files or a clock.

A configuration is a view of the group, whose members are the recorders. The library announces it in pieces: in a change of the ring those
who left, those who joined, and then the ring; in the same ring one callback for each change. The lines of a change are written when all of
its callbacks are there."""
import re
from typing import NamedTuple
from zlib import crc32

# Why a process left or joined, by the numbers of the library. The first two and the last one also happen while the ring stays.
REASONS = {1: 'join', 2: 'leave', 3: 'nodedown', 4: 'nodeup', 5: 'procdown'}
JOIN, LEAVE, PROCDOWN = 1, 2, 5
MOST_LIFE = 65535
# A configuration is named after the ring's number, with room for that many changes in one ring.
RINGS, CHANGES = 40000, 100000
# The greatest number of nodes whose messages can be named: the number of a message is 32 times a count, plus the place of its sender.
MOST_NODES = 32
# What a message begins with: its name, and what it is for.
HEAD = re.compile(rb'([1-9][0-9]{0,9}\.[1-9][0-9]{0,9}#[1-9][0-9]{0,9}) (-|stop|bye) ')


class Member(NamedTuple):
    """A process of the group."""

    node: int
    process: int

    @property
    def life(self):
        """Its life, which each member of the group can tell by itself."""
        return self.process % MOST_LIFE + 1

    def __str__(self):
        return '%d:%d' % (self.node, self.life)


class Moved(NamedTuple):
    """A process that left or joined, and why, by the library's number."""

    member: Member
    reason: int

    def __str__(self):
        return '%d:%d %s' % (*self.member, REASONS.get(self.reason, self.reason))


class Pending:
    """A change of which not all callbacks may have come: who goes on together, and who came or went."""

    def __init__(self, view):
        self.together = set(view)
        self.moved = 0
        # Whether it can only be a change of the ring.
        self.is_of_ring = False

    def add(self, left, joined):
        """Takes note of a callback."""
        self.together -= {it.member for it in left}
        self.moved = crc32(', '.join(map(str, sorted([*left, *joined]))).encode(), self.moved)
        self.is_of_ring = self.is_of_ring or not _reasons(left, joined) <= {JOIN, LEAVE, PROCDOWN}


def _reasons(left, joined):
    return {it.reason for it in (*left, *joined)}


def _up_to_end(lines):
    """The lines up to the one that ends the log, if it is among them."""
    return lines[:lines.index('quiet') + 1] if 'quiet' in lines else lines


def _listed(members):
    return ' '.join(map(str, sorted(members)))


class Views:
    """What one member of a group is told, and the lines that it writes of that. Each callback returns its lines, without times."""

    def __init__(self, node, process):
        self.me = Member(node, process)
        # The ring's number and representative, and its nodes.
        self.ring, self.nodes = None, []
        self.view, self.configuration, self.pending = None, None, None
        # How many messages were named in this configuration.
        self.named = 0
        # Those that have answered to `stop`, if it was said, and whether all have.
        self.byes, self.is_quiet = None, False
        # Whether this member is no longer in the group, and when others joined, by a count.
        self.has_left, self.joined = False, {}

    def group(self, members, left, joined):
        """The members of the group changed."""
        if self.is_over:
            return []
        lines = [' '.join(['# group', *('left ' + str(it) for it in left), *('joined ' + str(it) for it in joined), 'members',
                           *('%d:%d' % it for it in members)])]
        if any(it.member == self.me for it in left) or self.me not in members:
            self.has_left = True
            return lines
        reasons = _reasons(left, joined)
        if self.ring and self.pending and not self.pending.is_of_ring and JOIN in reasons:
            lines += self._change(self.pending.moved)
        self.pending = self.pending or Pending(self.view or ())
        self.pending.add(left, joined)
        self.joined.update((it.member, len(self.joined) + 1) for it in joined)
        self.view = sorted(members)
        if self.ring and not self.pending.is_of_ring and PROCDOWN not in reasons:
            lines += self._change(self.pending.moved)
        return _up_to_end(lines)

    def ring_changed(self, representative, number, nodes):
        """There is another ring, or this member is told for the first time which one there is."""
        if self.is_over:
            return []
        lines = ['# ring %d.%d members %s' % (representative, number, ' '.join(map(str, nodes)))]
        is_first, is_again = self.ring is None, self.ring == (number, representative)
        self.ring, self.nodes = (number, representative), sorted(nodes)
        # (a member that comes while the group synchronises may be told of one ring twice: nothing changed, or what is pending changed in it)
        if self.view and (self.pending or not is_again):
            is_within = self.pending and (is_first or is_again and not self.pending.is_of_ring)
            lines += self._change(self.pending.moved if is_within else None)
        return lines

    def message(self, node, process, contents):
        """A message is delivered."""
        if self.is_over:
            return []
        # (a change that is pending was one in the same ring: another one would have ended with the ring)
        lines = self._change(self.pending.moved) if self.pending and self.ring else []
        head = HEAD.match(contents)
        if not head:
            return lines + ['# a message of %d:%d that no recorder sent' % (node, process)]
        if not self.configuration:
            return lines + ['# delivered before the first view: %s' % head[1].decode()]
        lines.append('dlv %s %s crc=%08x' % (self.configuration, head[1].decode(), crc32(contents)))
        if head[2] != b'-' and self.byes is None:
            self.byes = set()
        if head[2] == b'bye':
            self.byes.add(Member(node, process))
            lines += self._end()
        return _up_to_end(lines)

    def _change(self, moved):
        """All callbacks of a change are there. `moved` is the sum over who came or went if the ring stayed."""
        twins = self._leave_twins_out()
        number = ((self.ring[0] - 1) % RINGS + 1) * CHANGES + (0 if moved is None else moved % (CHANGES - 1) + 1)
        name, lines = '%d.%d' % (number, self.ring[1]), twins
        together = sorted(it for it in (self.pending.together if self.pending else self.view) if it in self.view)
        if self.configuration and together:
            lines.append('conf t%s/%d %s' % (name, together[0].node, _listed(together)))
        self.configuration, self.named, self.pending = 'r' + name, 0, None
        lines.append('conf %s %s' % (self.configuration, _listed(self.view)))
        return lines + self._end()

    def _leave_twins_out(self):
        """Leaves a member out of the view of whose node there is another one that joined later: a node has one recorder, so the group has kept a
        dead one. (While a change is told in pieces, this is often so; but not at its end.) Returns lines that say so."""
        newest = {it.node: it for it in sorted(self.view, key=lambda it: (it == self.me, self.joined.get(it, 0), it))}
        gone = [it for it in self.view if newest[it.node] != it]
        self.view = sorted(newest.values())
        return ['# two members of node %d: %d:%d is left out' % (it.node, *it) for it in gone]

    def _end(self):
        """The line that ends the log if all members have answered."""
        if self.byes and self.byes.issuperset(self.view) and not self.is_quiet:
            self.is_quiet = True
            return ['quiet']
        return []

    @property
    def is_over(self):
        """Whether nothing more belongs into the log: what comes after the own leaving, others deliver behind a change that this member never sees."""
        return self.has_left or self.is_quiet

    @property
    def can_send(self):
        """Whether a message can be named."""
        return self.configuration is not None and self.me.node in self.nodes[:MOST_NODES]

    def next_name(self):
        """Names the next message: by the configuration, how many came before it there, and the sender's place among the nodes."""
        name = '%s#%d' % (self.configuration[1:], self.named * MOST_NODES + self.nodes.index(self.me.node) + 1)
        self.named += 1
        return name
