"""How the members of a new ring exchange messages of their old rings (docs/PROTOCOL.md, "Recovery" and "The finish")."""
from playing.packets import Mark, Message, Old, Words
from playing.ring import Ring, is_agreed

MOST_AT_A_VISIT = 16


def delivered(configuration, messages):
    """The deliveries of those messages that carry a client's payload."""
    return [('dlv', configuration, message) for message in messages if isinstance(message.body, Words)]


class Recovery:
    """A member on its way from its old ring to a new one."""

    def __init__(self, me, old, token):
        self.me, self.members = me, token.members
        self.lives = tuple(report.life for report in token.reports)
        self.ring = Ring(me, token.ring, token.members)
        here = token.reports_from(old.name)
        self.transitional = tuple((member, report.life) for member, report in here)
        self.high = max(report.delivered for _, report in here)
        self.obliged = frozenset(member for member, _ in here).union(*(report.obligation for _, report in here))
        low = min(report.aru for _, report in here)
        self.list = [Old(old.name, number, old.held[number].sender, old.held[number].body.is_safe)
                     for number in sorted(old.held) if number > low and isinstance(old.held[number].body, Words)] + [Mark()]
        self.obligation = token.report_of(me).obligation
        self.sent = 0
        self.has_started = False

    def copy(self):
        """A copy that shares nothing mutable."""
        other = Recovery.__new__(Recovery)
        other.__dict__.update(self.__dict__)
        other.ring = self.ring.copy()
        other.list = list(self.list)
        return other

    def next_bodies(self):
        """What is sent at the next visit."""
        return self.list[:MOST_AT_A_VISIT]

    def adopt_into(self, old, message):
        """Lets the old ring adopt a message of its own that a message of the new ring carries. Returns what the step reports of it."""
        body, before = message.body, len(old.held)
        if isinstance(body, Old):
            old.adopt(Message(body.ring, body.number, body.sender, Words(body.is_safe)))
        if len(old.held) == before:
            return 'taken'
        return 'adopts' if body.number <= old.aru else 'adopts behind a gap'

    @property
    def last_mark(self):
        """The number of the last mark, or None if not every member's is held."""
        marks = {}
        for number, message in self.ring.held.items():
            if isinstance(message.body, Mark):
                marks[message.sender] = min(number, marks.get(message.sender, number))
        return max(marks.values()) if len(marks) == len(self.members) else None

    def on_visit(self, sendings):
        """After a visit of the new ring: takes off the list what the visit broadcast for this member for the first time."""
        numbers = [packet.number for to, packet in sendings
                   if to is None and packet.sender == self.me and packet.number > self.sent]
        self.list = self.list[min(MOST_AT_A_VISIT, len(numbers)):]
        self.sent = max([self.sent, *numbers])
        last = self.last_mark
        if last is not None and last <= self.ring.aru:
            self.obligation = self.obliged

    @property
    def is_done(self):
        """Whether every member's mark is delivered to the node."""
        last = self.last_mark
        return last is not None and last <= self.ring.handed

    def finish(self, old):
        """The entries that are written when the node leaves the old ring for the new one."""
        before, between, behind = old.name.regular, 't%s/%d' % (str(self.ring.name), self.transitional[0][0]), self.ring.name.regular
        regular, rest, last, has_gap = [], [], old.handed, False
        while last + 1 in old.held and (is_agreed(old.held[last + 1].body) or last + 1 <= self.high):
            last += 1
            regular.append(old.held[last])
        for number in sorted(number for number in old.held if number > last):
            has_gap = has_gap or number != last + 1
            last = number
            if not has_gap or old.held[number].sender in self.obliged:
                rest.append(old.held[number])
        return [*delivered(before, regular), ('conf', between, self.transitional), *delivered(between, rest),
                ('conf', behind, tuple(zip(self.members, self.lives)))]
