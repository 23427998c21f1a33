"""A node (docs/PROTOCOL.md, "The node"): its steps, what it sends and writes."""
from playing.gathering import MOST_PROCESSES, Gathering
from playing.packets import Commit, Join, Message, RingName, Report, Token, Words, after, first_token
from playing.recovery import Recovery, delivered
from playing.ring import Fault, Ring

OPERATIONAL, GATHER, COMMIT, RECOVERY = 'Operational', 'Gather', 'Commit', 'Recovery'
MOST_WAITING = 16
MOST_NUMBER = 4294967295


class Done:
    """The result of a step: sendings, entries for the log, and what was done, for those who count."""

    def __init__(self, sendings=(), entries=(), what='taken'):
        self.sendings, self.entries, self.what = list(sendings), list(entries), what


class Node:
    """One life of a process."""

    # Whether it may enter a ring that it has entered before, as docs/PROTOCOL.md has it ("Why runs are audited").
    may_enter_again = True

    def __init__(self, process, life, ring, members):
        self.me, self.life = process, life
        self.installed = Ring(process, ring, members)
        self.state, self.gathering, self.recovery = OPERATIONAL, None, None
        self.waiting = []
        self.quiet, self.number = 0, ring.number
        self.obligation = frozenset()
        self.filled = None
        self.entered = frozenset()
        self.has_crashed = False

    def copy(self):
        """A copy that shares nothing mutable."""
        other = Node.__new__(Node)
        other.__dict__.update(self.__dict__)
        other.installed = self.installed.copy()
        other.gathering = self.gathering and self.gathering.copy()
        other.recovery = self.recovery and self.recovery.copy()
        other.waiting = list(self.waiting)
        return other

    @property
    def report(self):
        """Its report on its installed ring."""
        ring = self.installed
        return Report(self.life, ring.name, ring.aru, ring.handed, self.obligation)

    def on_packet(self, packet):
        """Takes a packet. Raises a Fault if it is refused; then nothing has changed."""
        if self.has_crashed:
            raise Fault('Stopped')
        if isinstance(packet, Message):
            return self._on_message(packet)
        if isinstance(packet, Token):
            return self._on_token(packet)
        return self._on_join(packet) if isinstance(packet, Join) else self._on_commit(packet)

    def _on_message(self, message):
        is_installed = message.ring == self.installed.name
        if self.state == RECOVERY and not is_installed:
            handed = self.recovery.ring.on_message(message)
            return Done(entries=delivered(message.ring.regular, handed), what=self.recovery.adopt_into(self.installed, message))
        if is_installed and (self.state == OPERATIONAL or self.state == GATHER and not self.filled):
            return Done(entries=delivered(message.ring.regular, self.installed.on_message(message)))
        if self.state == OPERATIONAL and message.sender not in self.installed.members:
            return self._gather({message.sender}, None)
        raise Fault('OtherRing')

    def _on_token(self, token):
        if self.state == RECOVERY:
            return self._visit_new(token)
        if self.state != OPERATIONAL:
            raise Fault('Stale')
        sendings, sent, handed = self.installed.visit(token, self.waiting)
        self.waiting, self.quiet = [], 0
        name = token.ring.regular
        return Done(sendings, [('send', name, message) for message in sent] + delivered(name, handed))

    def _visit_new(self, token):
        recovery = self.recovery
        sendings, _, handed = recovery.ring.visit(token, recovery.next_bodies())
        recovery.on_visit(sendings)
        self.quiet, self.obligation = 0, recovery.obligation
        name = token.ring.regular
        if not recovery.is_done:
            return Done(sendings, delivered(name, handed))
        last = recovery.last_mark
        entries = delivered(name, [message for message in handed if message.number <= last])
        entries += recovery.finish(self.installed)
        entries += delivered(name, [message for message in handed if message.number > last])
        self.installed, self.state, self.gathering, self.recovery = recovery.ring, OPERATIONAL, None, None
        self.obligation, self.filled = frozenset(), None
        return Done(sendings, entries, 'installs')

    def _on_join(self, join):
        ring = self.installed
        if join.sender != self.me and join.sender in ring.members and join.number < ring.name.number:
            raise Fault('Stale')
        if self.state == OPERATIONAL:
            return self._gather((), join)
        if self.state == GATHER:
            again = self.gathering.on_join(join)
            return self._look([(None, self.gathering.join)] if again else [])
        if self.gathering.says_nothing_new(join):
            raise Fault('Stale')
        return self._gather((), join)

    def _on_commit(self, token):
        """Takes a commit token, in one of three ways."""
        if self.state == OPERATIONAL or token.members != self.gathering.gathered:
            raise Fault('Stale')
        number = max(self.number, self.gathering.number)
        is_least = token.members[0] == self.me
        if token.round == 1 and not token.report_of(self.me) and token.ring.number > number:
            self.state, self.recovery = COMMIT, None
            self.filled, self.number = token.ring, token.ring.number
            return Done([(after(token.members, self.me), token.filled_by(self.me, self.report))], what='fills')
        if self.filled != token.ring:
            raise Fault('Stale')
        if self.state == COMMIT and all(token.reports) and token.report_of(self.me) == self.report and is_least == (token.round == 1):
            return self._enter(token)
        if is_least and self.state == RECOVERY and token.round == 2 and not self.recovery.has_started:
            done = self._visit_new(first_token(self.recovery.ring.name))
            if self.recovery:
                self.recovery.has_started = True
            done.what = 'starts'
            return done
        raise Fault('Stale')

    def _enter(self, token):
        if token.ring in self.entered and not self.may_enter_again:
            raise Fault('Stale')
        recovery = Recovery(self.me, self.installed, token)
        if len(recovery.obliged) > MOST_PROCESSES:
            raise Fault('Range')
        self.state, self.recovery, self.entered = RECOVERY, recovery, self.entered | {token.ring}
        return Done([(after(token.members, self.me), token._replace(round=2))], what='enters')

    def _gather(self, extra, join):
        """It begins to gather."""
        base = set(self.installed.members) | set(extra)
        if self.state in (COMMIT, RECOVERY):
            base |= set(self.gathering.gathered)
        if len(base | {self.me}) > MOST_PROCESSES:
            raise Fault('Stranger')
        gathering = Gathering(self.me, base, self.number)
        if join:
            gathering.on_join(join)
        self.gathering, self.recovery, self.quiet = gathering, None, 0
        return self._look([(None, gathering.join)])

    def _look(self, sendings):
        """Checks whether there is consensus; if so, the least member makes the commit token."""
        if not self.gathering.has_consensus:
            self.state = GATHER
            return Done(sendings, what='gathers')
        self.state, self.quiet = COMMIT, 0
        members = self.gathering.gathered
        if members[0] != self.me:
            return Done(sendings, what='agrees')
        ring = RingName(max(self.number, self.gathering.number) + 4, self.me)
        token = Commit(ring, 1, members, (None,) * len(members)).filled_by(self.me, self.report)
        self.filled, self.number = ring, ring.number
        return Done(sendings + [(after(members, self.me), token)], what='commits')

    def on_timer(self):
        """The timer expires."""
        if self.has_crashed:
            raise Fault('Stopped')
        self.quiet += 1
        if self.state == GATHER:
            if self.quiet < 2:
                return Done([(None, self.gathering.join)])
            self.quiet = 0
            self.gathering.on_timeout()
            return self._look([(None, self.gathering.join)])
        if self.quiet >= 3:
            return self._gather((), None)
        if self.state == COMMIT:
            return Done()
        return Done((self.installed if self.state == OPERATIONAL else self.recovery.ring).resend())

    def on_submit(self, is_safe):
        """A client asks it to send a message."""
        if self.has_crashed:
            raise Fault('Stopped')
        if len(self.waiting) >= MOST_WAITING:
            raise Fault('Full')
        self.waiting.append(Words(is_safe))
        return Done()

    def on_crash(self):
        """It fails."""
        if self.has_crashed:
            raise Fault('Stopped')
        self.has_crashed = True
        return Done(entries=[('fail', self.installed.name.regular)])
