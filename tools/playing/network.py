"""The run that nodes in threads make (`totem run`), worked out by a model of the network (docs/PROTOCOL.md, "The network") over the nodes of this
folder. Neither shares code with the program."""
from collections import deque
from typing import NamedTuple

from playing.node import Node
from playing.ring import Fault
from playing.scene import Scene

U32, U64 = (1 << 32) - 1, (1 << 64) - 1
FACTOR = 6364136223846793005


def turned(word, by):
    """A word of 32 bits, turned to the right."""
    return (word >> by | word << (32 - by) % 32) & U32


def scrambled(state):
    """A word of 32 bits from a state of 64."""
    return turned(((state >> 18 ^ state) >> 27) & U32, state >> 59)


def words_of(seed):
    """The words of PCG32 (XSH RR 64/32), seeded from one number."""
    parts = []
    for _ in range(4):
        seed = (seed * FACTOR + 11634580027462260723) & U64
        parts.append(scrambled(seed))
    start, step = parts[0] | parts[1] << 32, (parts[2] | parts[3] << 32) | 1
    state = ((start + step) * FACTOR + step) & U64
    while True:
        yield scrambled(state)
        state = (state * FACTOR + step) & U64


class Plan(NamedTuple):
    """The numbers of a run."""

    nodes: int = 3
    ticks: int = 4000
    seed: int = 1
    lose: int = 0
    repeat: int = 0
    hold: int = 0


class Unwatched:
    """Is told what happens in a run, and does nothing with it."""

    def saw_fate(self, sender, receiver, packet, copies):
        """A packet goes on its way: how many further packets each of its copies lets pass."""

    def saw_step(self, node, given, done):
        """A node takes a packet, or the name of another input: with a Done, or the name of a fault."""

    def saw_tick(self, network, number):
        """A tick has passed."""


class Network:
    """Nodes and the packets between them. `sent` and `lost` count packets and `repeated` copies, once for each receiver."""

    def __init__(self, plan, watch=None):
        self.plan, self.words = plan, words_of(plan.seed)
        self.watch = watch or Unwatched()
        self.scene = Scene()
        self.scene.make_ring(4, 1, *range(1, plan.nodes + 1))
        self.held = {node: [] for node in self.scene.actors}
        self.waiting = {node: deque() for node in self.scene.actors}
        self.sent_by = {node: [] for node in self.scene.actors}
        self.waiting[1].append(self.scene.queue.pop().packet)
        self.sent, self.lost, self.repeated = 1, 0, 0
        self.credit, self.next = self._most, 1
        self.now = self.delivered_in = 0

    @property
    def _most(self):
        return 8 * self.plan.nodes ** 2

    def _copies(self):
        """The next fate: for each copy, how many further packets it lets pass."""
        word = next(self.words)
        drawn, holds = word % 100, self.plan.hold + 1
        if drawn < self.plan.lose:
            self.lost += 1
            return []
        if drawn < self.plan.lose + self.plan.repeat:
            self.repeated += 1
            return [word // 100 % holds, word // 10000 % holds]
        return [word // 100 % holds]

    def _pass(self, sender, receiver, packet):
        """A packet arrives for a receiver."""
        copies = self._copies()
        self.watch.saw_fate(sender, receiver, packet, copies)
        due = [packet for left in copies if left == 0] + [held for left, held in self.held[receiver] if left == 1]
        self.waiting[receiver].extend(due)
        self.held[receiver] = [(left - 1, held) for left, held in self.held[receiver] if left > 1]
        self.held[receiver] += [(left, packet) for left in copies if left > 0]

    def _receivers(self, sender, to):
        """Who gets a packet."""
        return [node for node in self.scene.actors if node != sender] if to is None else [to]

    def _carry(self):
        """Everything that the nodes have sent goes on its way."""
        for sender, sendings in self.sent_by.items():
            for to, packet in sendings:
                for receiver in self._receivers(sender, to):
                    self._pass(sender, receiver, packet)
            sendings.clear()

    def _step(self, node, given, call):
        actor = self.scene.actors[node]
        try:
            done = call(actor.node)
        except Fault as fault:
            self.watch.saw_step(actor.node, given, str(fault))
            return
        self.watch.saw_step(actor.node, given, done)
        actor.logs[-1].extend(done.entries)
        self.sent_by[node].extend(done.sendings)
        self.sent += sum(len(self._receivers(node, to)) for to, _ in done.sendings)
        if any(entry[0] == 'dlv' for entry in done.entries):
            self.delivered_in = self.now

    def _forward(self):
        """Nodes get what waits for them, one after the other, as far as the credit goes."""
        credit, given = self.credit, []
        for _ in self.scene.actors:
            if credit == 0 or not any(self.waiting.values()):
                break
            packets = self.waiting[self.next]
            many = min(credit, len(packets))
            given.extend((self.next, packets.popleft()) for _ in range(many))
            credit -= many
            if not packets:
                self.next = self.next % self.plan.nodes + 1
        self.credit = min(credit + self.plan.nodes, self._most)
        for node, packet in given:
            self._step(node, packet, lambda node, packet=packet: node.on_packet(packet))

    def tick(self, number):
        """A tick passes."""
        self.now = number
        self._carry()
        if number % 8 == 0:
            turn = number // 8 - 1
            node = turn % self.plan.nodes + 1
            self._step(node, 'timer', Node.on_timer)
            self._carry()
            self._step(node, 'submit', lambda node: node.on_submit(turn % 2 == 1))
            self._carry()
        self._forward()
        self.watch.saw_tick(self, number)

    def run(self):
        """All ticks pass."""
        for number in range(1, self.plan.ticks + 1):
            self.tick(number)

    @property
    def text(self):
        """The text of the run."""
        return self.scene.text(1)

    @property
    def summary(self):
        """What the program says of the run."""
        logs = [actor.logs[0] for actor in self.scene.actors.values()]
        sent = sum(entry[0] == 'send' for log in logs for entry in log)
        delivered = [{(entry[2].ring, entry[2].number) for entry in log if entry[0] == 'dlv'} for log in logs]
        rings = {entry[1] for log in logs for entry in log if entry[0] == 'conf' and entry[1].startswith('r')}
        late = sum(len(self._receivers(node, to)) for node, sendings in self.sent_by.items() for to, _ in sendings)
        return ('messages: %d sent, %d delivered by every node, %s; rings formed: %d; packets: %d sent, %d lost and %d '
                'duplicated by the plan; on their way at the end: %d held back, %d waiting, %d sent in the last tick' % (
                    sent, len(set.intersection(*delivered)), 'last delivery in tick %d' % self.delivered_in if self.delivered_in else 'no delivery',
                    len(rings) - 1, self.sent, self.lost, self.repeated, sum(map(len, self.held.values())),
                    sum(map(len, self.waiting.values())), late))
