"""What nodes send to each other (docs/PROTOCOL.md, "Packets"), and the kinds of packets, for those who count."""
from typing import NamedTuple, Optional


class RingName(NamedTuple):
    """A ring: its number, and its representative."""

    number: int
    representative: int

    def __str__(self):
        return '%d.%d' % self

    @property
    def regular(self):
        """The name of its regular configuration."""
        return 'r%d.%d' % self


class Words(NamedTuple):
    """A body: a client's payload, safe or agreed."""

    is_safe: bool


class Old(NamedTuple):
    """A body: a message of an older ring."""

    ring: RingName
    number: int
    sender: int
    is_safe: bool


class Mark(NamedTuple):
    """A body: the sender has sent all its old messages."""


class Message(NamedTuple):
    """A message of a ring."""

    ring: RingName
    number: int
    sender: int
    body: tuple


class Token(NamedTuple):
    """The token of a ring. `holder` holds its aru down, if anybody does; `asked` are the numbers that it asks for."""

    ring: RingName
    token_seq: int
    seq: int
    aru: int
    holder: Optional[int]
    asked: tuple


class Join(NamedTuple):
    """The processes that its sender considers reachable, and those of them that it considers failed."""

    sender: int
    number: int
    processes: frozenset
    failed: frozenset


class Report(NamedTuple):
    """What a member has of its installed ring."""

    life: int
    ring: RingName
    aru: int
    delivered: int
    obligation: frozenset


class Commit(NamedTuple):
    """A commit token: in round 1 or 2, with its members and the report of each that has given one."""

    ring: RingName
    round: int
    members: tuple
    reports: tuple

    def report_of(self, process):
        """The report of a member, or None."""
        return self.reports[self.members.index(process)] if process in self.members else None

    def filled_by(self, process, report):
        """The same with this member's report."""
        place = self.members.index(process)
        return self._replace(reports=self.reports[:place] + (report,) + self.reports[place + 1:])

    def reports_from(self, ring):
        """The members that come from an old ring, each with its report."""
        return [(member, report) for member, report in zip(self.members, self.reports) if report and report.ring == ring]


def first_token(ring):
    """The first token of a ring."""
    return Token(ring, 1, 0, 0, None, ())


def kind_of(packet):
    """The kind of a packet, for those who count."""
    if isinstance(packet, Message):
        return 'message of ' + type(packet.body).__name__.lower()
    if isinstance(packet, Commit):
        return 'commit token, round %d' % packet.round
    return type(packet).__name__.lower()


def after(members, process):
    """The member after this one; after the last comes the first."""
    return members[(members.index(process) + 1) % len(members)]
