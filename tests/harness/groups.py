"""A small model of closed process groups: nodes in rings that part and merge, processes that join, leave, and are killed. Each process is told of
that in the order in which the library tells it; the model knows which view each of them is in."""
from collections import namedtuple

# Why a process left or joined, by the library's numbers.
JOIN, LEAVE, NODEDOWN, NODEUP, PROCDOWN = 1, 2, 3, 4, 5
# A process: its node, and its number.
Who = namedtuple('Who', 'node number')
# A view: the ring, how many processes have come or gone there, and the members.
View = namedtuple('View', 'ring changes members')


class Process:
    """A process of the group: what listens to its callbacks, and what it was told."""

    def __init__(self, who, listener):
        self.who = who
        self.listener = listener
        # The view that it was told of last.
        self.view = None


class Ring:
    """A ring of nodes, and the members of the group there. The number of a ring rises by four."""

    def __init__(self, number, nodes, members):
        self.number = number
        self.nodes = sorted(nodes)
        self.members = frozenset(members)
        self.changes = 0

    @property
    def name(self):
        """Its number and its representative."""
        return self.number, self.nodes[0]

    @property
    def view(self):
        """The view of the group there."""
        return View(self.name, self.changes, self.members)


class Cluster:
    """Nodes, and the processes on them. `listen(who)` makes what a process listens with: `group(view, members, left, joined)`, `ring(view,
    representative, number, nodes)` and `message(view, name)`, which get the view that the process is in then; `ended()`; and `name()`, the name of
    its next message, if it can send one."""

    def __init__(self, draw, count, listen):
        self.draw = draw
        self.listen = listen
        self.rings = {node: ring for ring in [Ring(4 * draw.randrange(1, 50) + 1, range(1, count + 1), ())] for node in range(1, count + 1)}
        self.processes = {}
        self.numbers = draw.randrange(1, 200000)

    def _shuffled(self, them):
        them = sorted(them)
        self.draw.shuffle(them)
        return them

    def _tell(self, who, left=(), joined=()):
        """Tells a process of a change of the group, to the view that it has by now."""
        process = self.processes[who]
        process.listener.group(process.view, self._shuffled(process.view.members), self._shuffled(left), self._shuffled(joined))

    def _change_within(self, ring, left=(), joined=()):
        """A change while the ring stays: all are told, also who leaves."""
        told = set(ring.members)
        ring.members = (ring.members | {who for who, _ in joined}) - {who for who, _ in left}
        ring.changes += 1
        for who in sorted(told | ring.members):
            if who in self.processes:
                self.processes[who].view = ring.view
                self._tell(who, left, joined)

    def join(self, node):
        """A process joins on a node that has none. It's told of the ring before the group, behind it, or both."""
        ring = self.rings[node]
        self.numbers += self.draw.randrange(1, 50)
        who = Who(node, self.numbers)
        process = self.processes[who] = Process(who, self.listen(who))
        is_ring_first = self.draw.randrange(2)
        if is_ring_first:
            process.listener.ring(process.view, ring.nodes[0], ring.number, ring.nodes)
        self._change_within(ring, joined=[(who, JOIN)])
        # (a process that joins while a ring forms may be told of it twice)
        for _ in range(not is_ring_first or self.draw.randrange(4) == 0):
            process.listener.ring(process.view, ring.nodes[0], ring.number, ring.nodes)

    def _end(self, who):
        self.processes.pop(who).listener.ended()

    def leave(self, who):
        """A process leaves."""
        self._change_within(self.rings[who.node], left=[(who, LEAVE)])
        self._end(who)

    def kill(self, who):
        """A process is killed, or another one of its ring too, and their daemons say so at once."""
        others = sorted(self.rings[who.node].members - {who})
        killed = [who] + (self.draw.sample(others, 1) if others and self.draw.randrange(3) == 0 else [])
        for it in killed:
            self._end(it)
        self._change_within(self.rings[who.node], left=[(it, PROCDOWN) for it in killed])

    def send(self, who):
        """A process sends a message, which all members deliver."""
        self._deliver(who, self.rings[who.node].members)

    def _deliver(self, who, members):
        name = self.processes[who].listener.name()
        for member in sorted(members) if name else ():
            self.processes[member].listener.message(self.processes[member].view, name)

    def change_rings(self, parts, killed=()):
        """The nodes form other rings: one for each list of `parts`. Processes that are `killed` end with the old rings, and no daemon has said so
        before. In one part at most some messages reach only those who go on together with their sender."""
        old, number = dict(self.rings), max(ring.number for ring in self.rings.values())
        for who in killed:
            self._end(who)
        for who in [who for who in self.processes if who.node in parts[0]][:self.draw.randrange(3)]:
            self._deliver(who, {it for it in old[who.node].members if it in self.processes and it.node in parts[0]})
        for part in parts:
            number += 4 * self.draw.randrange(1, 4)
            ring = Ring(number, part, {who for who in self.processes if who.node in part})
            for node in part:
                self.rings[node] = ring
            for who in sorted(ring.members):
                self._tell_change(who, old[who.node], ring, killed)

    def _tell_change(self, who, before, ring, killed):
        """Tells one process of a change of the ring: who left with their nodes, who was killed, who joined, and the ring."""
        process, members = self.processes[who], set(before.members)
        gone = {it for it in members if it.node not in ring.nodes}
        dead = {it for it in members - gone if it in killed}
        new = {it for it in ring.members if it.node not in before.nodes}
        for reason, left, joined in ((NODEDOWN, gone, ()), (PROCDOWN, dead, ()), (NODEUP, (), new)):
            members = (members - set(left)) | set(joined)
            if left or joined:
                process.view = View(ring.name, 0, frozenset(members))
                self._tell(who, [(it, reason) for it in left], [(it, reason) for it in joined])
        process.view = ring.view
        process.listener.ring(process.view, ring.nodes[0], ring.number, ring.nodes)


def _parted(draw, cluster):
    """The nodes of some rings, put together and parted anew."""
    nodes = sorted(cluster.rings)
    count = draw.choice((1, 1, 2, 2, 3))
    parts = [[] for _ in range(count)]
    for node in nodes:
        draw.choice(parts).append(node)
    return [part for part in parts if part]


def play(draw, count, listen, steps=14):
    """A random history of a cluster with so many nodes. Returns the cluster."""
    cluster = Cluster(draw, count, listen)
    for node in range(1, count + 1):
        if draw.randrange(5):
            cluster.join(node)
    for _ in range(steps):
        here, what = sorted(cluster.processes), draw.randrange(20)
        empty = [node for node in cluster.rings if node not in {who.node for who in here}]
        if what < 3 and empty:
            cluster.join(draw.choice(empty))
        elif what < 5 and here:
            cluster.kill(draw.choice(here))
        elif what < 6 and here:
            cluster.leave(draw.choice(here))
        elif what < 10:
            cluster.change_rings(_parted(draw, cluster), [draw.choice(here)] if here and draw.randrange(4) == 0 else ())
        elif here:
            cluster.send(draw.choice(here))
    return cluster
