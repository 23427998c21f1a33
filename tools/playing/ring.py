"""What a member keeps of its ring, and its steps (docs/PROTOCOL.md, "The ring")."""
from playing.packets import Mark, Message, Token, Words, after

MOST_ASKED = 64


class Fault(Exception):
    """A step that is refused: the text is the name of the fault."""


def is_agreed(body):
    """Whether a message waits only for its turn: one that carries an old message counts as agreed, a mark as safe."""
    return not body.is_safe if isinstance(body, Words) else not isinstance(body, Mark)


class Ring:
    """One member's ring. A sending is a packet, and whom it is for: a process, or None for all others."""

    def __init__(self, me, name, members):
        self.me, self.name, self.members = me, name, members
        self.held = {}
        self.aru = self.handed = self.safe_to = self.sent_aru = self.last = 0
        self.kept = None

    def copy(self):
        """A copy that shares nothing mutable."""
        other = Ring.__new__(Ring)
        other.__dict__.update(self.__dict__)
        other.held = dict(self.held)
        return other

    def _hold(self, message):
        self.held[message.number] = message
        while self.aru + 1 in self.held:
            self.aru += 1

    def _hand_up(self):
        """The messages that are delivered to the node now."""
        up = []
        while self.handed + 1 in self.held:
            message = self.held[self.handed + 1]
            if not is_agreed(message.body) and message.number > self.safe_to:
                break
            self.handed += 1
            up.append(message)
        return up

    def _judge(self, message):
        if message.ring != self.name:
            raise Fault('OtherRing')
        if message.number in self.held:
            raise Fault('Repeat')
        if message.sender not in self.members:
            raise Fault('Range')

    def on_message(self, message):
        """Takes a message. Returns what is delivered to the node."""
        self._judge(message)
        self._hold(message)
        if self.kept and message.number > self.kept.seq:
            self.kept = None
        return self._hand_up()

    def adopt(self, message):
        """Holds a message, and does nothing else; or ignores it."""
        try:
            self._judge(message)
        except Fault:
            return
        self._hold(message)

    def _judge_token(self, token):
        if token.ring != self.name:
            raise Fault('OtherRing')
        if token.token_seq <= self.last:
            raise Fault('Repeat')
        is_mine = self.members[(token.token_seq - 1) % len(self.members)] == self.me
        is_known = token.holder is None or token.holder in self.members
        if not is_mine or not is_known or token.aru > token.seq or max(self.held, default=0) > token.seq:
            raise Fault('Range')
        if token.asked and token.asked[-1] > token.seq:
            raise Fault('Range')

    def visit(self, token, bodies):
        """Takes a token, while these bodies wait. Returns the sendings, the messages that got numbers, and what is delivered to the
        node."""
        self._judge_token(token)
        sendings = [(None, self.held[number]) for number in token.asked if number in self.held]
        sent = [Message(self.name, token.seq + index, self.me, body) for index, body in enumerate(bodies, 1)]
        for message in sent:
            self._hold(message)
            sendings.append((None, message))
        left = self._leaving(token, token.seq + len(sent))
        self.safe_to = max(self.safe_to, min(self.sent_aru, left.aru))
        self.sent_aru = left.aru
        handed = self._hand_up()
        self.last, self.kept = token.token_seq, left
        return sendings + [(after(self.members, self.me), left)], sent, handed

    def _leaving(self, token, seq):
        """The token as it leaves."""
        aru, holder = token.aru, token.holder
        if aru > self.aru or holder in (None, self.me):
            aru, holder = self.aru, None if self.aru == seq else self.me
        asked = [number for number in token.asked if number not in self.held]
        for number in range(self.aru + 1, seq + 1):
            if len(asked) < MOST_ASKED and number not in self.held and number not in asked:
                asked.append(number)
        return Token(self.name, token.token_seq + 1, seq, aru, holder, tuple(sorted(asked)))

    def resend(self):
        """Sends the kept token again."""
        return [(after(self.members, self.me), self.kept)] if self.kept else []
