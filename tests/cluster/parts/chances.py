"""Random disturbances of a cluster: what is done, and when, by a seed. (What the daemons make of it depends on the machine.)"""
import signal
import time
from collections import Counter

from parts import watching
from parts.children import Broken

# A run has at most 32 logs.
MOST_LOGS = 28
# How long something stays as it is, in seconds; and how long until the next disturbance.
SHORT, LONG = .3, 6
PAUSES = (.5, 1.5, 4, 8)
# How long it rests when all is whole, so that it notices what was before; how long it may take then until all are in one view, and until its
# recording has ended.
REST, HEALING, ENDING = 20, 120, 60


class Chances:
    """Disturbs a cluster by chance."""

    def __init__(self, cluster, draw):
        self.cluster, self.draw = cluster, draw
        self.counts = Counter()
        # What is to be done at which time, with the node that waits for it; and the nodes of which something is down.
        self.due, self.busy = [], set()
        # What may be done, and how often in comparison.
        self.kinds = {self.part: 6, self.heal: 3, self.flap: 4, self.pause: 3,
                      self.kill: 3, self.kill_daemon: 2, self.kill_recorder: 2, self.leave: 1}

    def disturb(self, seconds):
        """Does something now and then, for so many seconds."""
        ends_at, next_at = time.monotonic() + seconds, 0
        while time.monotonic() < ends_at:
            self._do_what_is_due()
            if time.monotonic() >= next_at:
                kind = self.draw.choices(list(self.kinds), self.kinds.values())[0]
                kind()
                next_at = time.monotonic() + self.draw.choice(PAUSES)
            time.sleep(.05)

    def _do_what_is_due(self):
        now = time.monotonic()
        for it in [it for it in self.due if it[0] <= now]:
            self.due.remove(it)
            self._undo(*it[1:])

    def _undo(self, node, steps):
        """Does the steps for a node, and frees it for other things."""
        for step in steps:
            step(node)
        self.busy.discard(node)

    def _later(self, node, *steps):
        """Does steps for a node after a while."""
        self.busy.add(node)
        self.due.append((time.monotonic() + self.draw.uniform(SHORT, LONG), node, steps))

    def _free(self, makes_a_life=False):
        """A node of which nothing is down, or None. A life more is only made if the run can have its log."""
        free = [node for node in self.cluster.nodes if node not in self.busy]
        if makes_a_life and len(watching.logs_in(self.cluster.logs)) >= MOST_LOGS:
            return None
        return self.draw.choice(free) if free else None

    def part(self):
        """Two groups, or three, hear each other no more."""
        nodes = self.draw.sample(list(self.cluster.nodes), len(self.cluster.nodes))
        count = self.draw.choice((2, 2, 2, 3))
        cuts = sorted(self.draw.sample(range(1, len(nodes)), min(count, len(nodes)) - 1))
        self.cluster.part(*(sorted(nodes[at:to]) for at, to in zip([0, *cuts], [*cuts, len(nodes)])))
        self.counts['parts'] += 1

    def heal(self):
        """All hear each other."""
        self.cluster.heal()
        self.counts['heals'] += 1

    def kill(self):
        """A node fails, and is started again."""
        node = self._free(makes_a_life=True)
        if node:
            self.cluster.kill(node)
            self._later(node, self.cluster.start_daemons, self.cluster.start_recorders)
            self.counts['kills'] += 1

    def kill_daemon(self):
        """A daemon fails, and is started again; its recorder stays."""
        node = self._free(makes_a_life=True)
        if node:
            self.cluster.signal_daemon(node, signal.SIGKILL)
            self._later(node, self.cluster.start_daemons)
            self.counts['daemon kills'] += 1

    def kill_recorder(self):
        """A recorder is killed, and started again."""
        node = self._free(makes_a_life=True)
        if node:
            self.cluster.signal_recorder(node, signal.SIGKILL)
            self._later(node, self.cluster.start_recorders)
            self.counts['recorder kills'] += 1

    def leave(self):
        """A recorder leaves, and comes back."""
        node = self._free(makes_a_life=True)
        if node:
            self.cluster.signal_recorder(node, signal.SIGTERM)
            self._later(node, self.cluster.await_recorder, self.cluster.start_recorders)
            self.counts['leaves'] += 1

    def pause(self):
        """All of a node, or its daemon or its recorder alone, is stopped for a while."""
        node = self._free()
        if node:
            stop, go_on = self.draw.choice(((self.cluster.pause, self.cluster.resume), (self._stop_daemon, self._resume_daemon),
                                            (self._stop_recorder, self._resume_recorder)))
            stop(node)
            self._later(node, go_on)
            self.counts['pauses'] += 1

    def _stop_daemon(self, node):
        self.cluster.signal_daemon(node, signal.SIGSTOP)

    def _resume_daemon(self, node):
        self.cluster.signal_daemon(node, signal.SIGCONT)

    def _stop_recorder(self, node):
        self.cluster.signal_recorder(node, signal.SIGSTOP)

    def _resume_recorder(self, node):
        self.cluster.signal_recorder(node, signal.SIGCONT)

    def flap(self):
        """A cable is pulled for a while."""
        node = self._free()
        if node:
            self.cluster.set_cable(node, False)
            self._later(node, lambda it: self.cluster.set_cable(it, True))
            self.counts['flaps'] += 1

    def undo(self):
        """Makes everything whole again."""
        for _, node, steps in self.due:
            self._undo(node, steps)
        self.due.clear()
        self.cluster.heal()
        time.sleep(REST)

    def end(self):
        """Waits until all are in one view, and ends the recording. Returns what hangs, or an empty text."""
        try:
            self.cluster.await_views(self.cluster.nodes, seconds=HEALING)
            self.cluster.await_deliveries(10, *self.cluster.nodes)
            self.cluster.stop(ENDING)
            return ''
        except Broken as broken:
            self.cluster.note('HUNG: %s' % broken)
            self.cluster.end_at_once()
            return str(broken)
