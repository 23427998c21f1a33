"""What a script has reached, which is the reason to keep a script and to change it further."""
from playing.node import COMMIT, RECOVERY
from playing.packets import Message, Old

# The depth if a number of a ring was given to two messages; if a member of the ring holds one of them and lacks the old message
# that the other one carries; and if that member has installed the ring.
GIVEN_TWICE, LACKING, INSTALLED = 1, 2, 3


def _content(message):
    return message.sender, message.body


def _has_gap(ring):
    return len(ring.held) > ring.aru


def _lacks(ring, body):
    return isinstance(body, Old) and body.ring == ring.name and body.number not in ring.held


class Sight:
    """Sees each step of a scene. `reached` are the things that were seen since the last look."""

    def __init__(self, victim):
        self.reached = []
        self.victim = victim
        # For each ring, what happened while the victim formed it and is not needed in a good run.
        self.marks = {}
        # Who has entered which ring, and has taken which tokens; what each process knew when it sent on a ring; which message got each
        # number.
        self.done, self.knew, self.given = set(), {}, {}
        # The members of each ring that the victim has entered.
        self.members = {}
        # Numbers that two messages of a ring have, although a ring promises to give each number once.
        self.doubled = {}

    def copy(self):
        """A copy that shares nothing mutable."""
        other = Sight(self.victim)
        other.marks, other.done, other.knew, other.given = dict(self.marks), set(self.done), dict(self.knew), dict(self.given)
        other.members, other.doubled = dict(self.members), dict(self.doubled)
        return other

    def see(self, _scene, node, state, kind, done):
        """A node has taken a step, or has refused it."""
        answer = done if isinstance(done, str) else done.what
        self.reached.append((state, bool(node.filled), kind, answer, node.state))
        if isinstance(done, str):
            return
        if node.recovery:
            self._see_recovery(node, kind, answer)
        for to, packet in done.sendings:
            if to is None and isinstance(packet, Message):
                self._hear(packet)

    def _see_recovery(self, node, kind, answer):
        """A node that recovers has taken a step."""
        ring, member = node.recovery.ring, (node.me, node.life, node.filled)
        if node.me != self.victim:
            return
        if answer == 'enters':
            self.members[ring.name] = ring.members
            self._do(ring, member, 'entered twice')
            if _has_gap(node.installed):
                self._mark(ring, 'has a gap')
            if self.knew.get(member, node.installed.held.keys()) != node.installed.held.keys():
                self._mark(ring, 'knows more')
        elif answer == 'adopts behind a gap' and ring.last:
            self._mark(ring, 'learned after it spoke')
        elif kind == 'token' or answer == 'starts':
            self._do(ring, (member, ring.last), 'took a token twice')
            self.knew[member] = frozenset(node.installed.held)

    def _do(self, ring, what, again):
        if what in self.done:
            self._mark(ring, again)
        self.done.add(what)

    def _mark(self, ring, what):
        self.marks[ring.name] = self.marks.get(ring.name, frozenset()) | {what}

    def _hear(self, message):
        """A message is broadcast."""
        name = message.ring, message.number
        first = self.given.setdefault(name, message)
        if _content(first) != _content(message):
            self.doubled[name] = self.doubled.get(name, frozenset((first,))) | {message}

    def _depth_at(self, name, node):
        """The depth at a member of this ring."""
        if node.installed.name == name:
            return INSTALLED
        depth, held = 0, node.recovery.ring.held if node.recovery else {}
        for (ring, number), messages in self.doubled.items():
            if ring == name and number in held:
                others = [message.body for message in messages if message != held[number]]
                depth = max(depth, LACKING if any(_lacks(node.installed, body) for body in others) else GIVEN_TWICE)
        return depth

    def marks_of(self, scene):
        """The depth on the ring that the victim forms, and the marks of that ring, as long as all of its members form it or have installed
        it."""
        victim = scene.actors[self.victim].node if self.victim in scene.actors else None
        name = victim and (victim.filled or victim.installed.name)
        members = [scene.actors[member].node for member in self.members.get(name, ())]
        if not members or any(node.has_crashed or name not in (node.filled, node.installed.name) for node in members):
            return (0,)
        depths = [self._depth_at(name, node) for node in members]
        marks = self.marks.get(name, frozenset())
        if any(self._has_not_heard(name, node) for node in members):
            marks |= {'was not heard'}
        return max([depth for depth in depths if depth != INSTALLED], default=INSTALLED), *sorted(marks)

    def _has_not_heard(self, name, node):
        """Whether a member lacks an old message of the victim, and has a later one of the new ring."""
        held = node.recovery.ring.held if node.recovery else {}
        return any(ring == name and message.sender == self.victim and number not in held and number < max(held, default=0)
                   and _lacks(node.installed, message.body) for (ring, number), message in self.given.items())

    def stand_of(self, scene):
        """The combined state of a scene's nodes: their states, and the marks."""
        nodes = [actor.node for actor in scene.actors.values()]
        states = sorted((node.state, node.has_crashed, bool(node.filled), bool(node.obligation), _has_gap(node.installed))
                        for node in nodes)
        rings = {node.installed.name for node in nodes if not node.has_crashed}
        under_way = {node.recovery.ring.name if node.state == RECOVERY else node.filled
                     for node in nodes if node.state in (COMMIT, RECOVERY)}
        return tuple(states), len(rings), len(under_way), scene.cut is not None, self.marks_of(scene)
