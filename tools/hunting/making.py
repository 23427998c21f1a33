"""One script: a network and clients with a mood of their own, who choose what comes next."""
from hunting.sight import Sight
from playing.node import COMMIT, GATHER, OPERATIONAL, RECOVERY
from playing.packets import Commit, Join, Message, Token
from playing.scene import Scene
from playing.script import do

# How many copies the network holds back.
MOST_KEPT = 20
# How many timers in a row make a node go on, by its state.
PATIENCE = {OPERATIONAL: 3, GATHER: 2, COMMIT: 3, RECOVERY: 3}


class Mood:
    """What a seed's network and nodes are like: how often things happen, in a hundred."""

    def __init__(self, chance):
        self.lost = {Commit: chance.of((0, 0, 5, 15)), Join: chance.of((0, 5, 15)), Token: chance.of((0, 0, 3, 10)),
                     Message: chance.of((0, 20, 40, 60))}
        self.late = {Commit: chance.of((0, 10, 30)), Join: chance.of((0, 10, 30)), Token: chance.of((0, 5, 15)),
                     Message: chance.of((0, 15, 50))}
        self.again = {Commit: chance.of((0, 5, 30)), Join: chance.of((0, 5, 20)), Token: chance.of((0, 2, 10)),
                      Message: chance.of((0, 2, 5))}
        self.comes_late = chance.of((2, 5, 10))
        self.replays = chance.of((0, 2, 6))
        self.timers = chance.of((1, 3, 6, 12))
        self.submits = chance.of((2, 5, 10, 20))
        self.cuts = chance.of((0, 1, 3))
        self.crashes = chance.of((0, 0, 1, 2))
        self.returns = chance.of((0, 30))


class Maker:
    """Makes one script: chooses a command, and does it."""

    def __init__(self, chance, start=None):
        self.chance = chance
        self.mood = Mood(chance)
        # Copies of what comes to the victim while it forms a ring are held back, to come again later.
        self.sight = start.sight.copy() if start else Sight(chance.of((0, 2, 2, 3, 3, 4)))
        self.victim = self.sight.victim
        self.scene = start.scene.copy(self.sight.see) if start else Scene(self.sight.see)
        self.commands = list(start.commands) if start else []
        # Copies that the network holds back until it lets them come: their receivers and origins.
        self.kept = list(start.kept) if start else []
        if not start:
            self._make_rings()
            if chance.percent(70):
                self._lose_messages()

    def do(self, *command):
        """Does a command, and records it."""
        do(self.scene, command)
        self.commands.append(command)

    def _make_rings(self):
        count = self.chance.of((2, 3, 3, 3, 4, 4, 5))
        members = tuple(range(1, count + 1))
        if self.chance.percent(85):
            self.do('ring', 4, 1, *members)
        else:
            first = 1 + self.chance.below(count - 1)
            self.do('ring', 4, 1, *members[:first])
            self.do('ring', 4, first + 1, *members[first:])

    def _lose_messages(self):
        """The token goes round, messages are lost here and there, and then a process crashes or is cut off."""
        chance = self.chance
        for process in self.scene.actors:
            if chance.percent(70):
                self.do('submit', process, chance.of('as'), 'x')
        lost = chance.of((30, 50, 70))
        for _ in range(chance.of((10, 20, 30))):
            if self.scene.queue:
                is_lost = isinstance(self.scene.queue[0].packet, Message) and chance.percent(lost)
                self.do('drop' if is_lost else 'run', 1)
        process = chance.of([process for process in self.scene.actors if process != self.victim])
        if chance.percent(50):
            self.do('crash', process)
        else:
            self.do('cut', (process,), tuple(other for other in self.scene.actors if other != process))

    def _nodes(self, wanted=lambda node: True):
        return [actor.node for actor in self.scene.actors.values() if wanted(actor.node)]

    def step(self):
        """One step of the network, of a client or of a timer."""
        chance, mood = self.chance, self.mood
        if self.victim in self.scene.actors and self.scene.actors[self.victim].node.state == OPERATIONAL:
            self.kept = [entry for entry in self.kept if entry[0] != self.victim]
        if not self.scene.queue or chance.percent(mood.timers):
            self._let_time_pass()
        elif chance.percent(mood.submits):
            self._submit()
        elif chance.percent(mood.cuts):
            self._cut_or_join()
        elif chance.percent(mood.crashes):
            self._crash_or_return()
        elif self.kept and chance.percent(mood.comes_late):
            self._let_come(self.chance.below(len(self.kept)))
        elif self.kept and chance.percent(mood.replays):
            self.replay()
        else:
            self._pass_on()

    def _to_the_end(self):
        self.do('repeat', 1)
        self.do('drop', 1)

    def _let_come(self, place):
        """A copy that was held back arrives; now and then another one is held back."""
        receiver, origin = self.kept.pop(place)
        if all(waiting.origin != origin for waiting in self.scene.queue):
            return
        while self.scene.queue[0].origin != origin:
            self._to_the_end()
        if self.chance.percent(60):
            self.kept.append((receiver, origin))
            self.do('repeat', 1)
        self.do('run', 1)

    def replay(self):
        """A process gathers, and gets again what it was sent before, in the order in which that was sent."""
        processes = [process for process, _ in self.kept]
        is_for_victim = self.victim in processes and self.chance.percent(80)
        node = self.scene.actors[self.victim if is_for_victim else self.chance.of(processes)].node
        if self.chance.percent(70):
            self._run_out(node)
        own = [entry for entry in self.kept if entry[0] == node.me and entry[1][0] != 'ring']
        for entry in sorted(own, key=lambda entry: entry[1]):
            if self.chance.percent(92):
                self._let_come(self.kept.index(entry))

    def _is_kept(self, waiting):
        return (waiting.receiver, waiting.origin) in self.kept

    def _is_to_be_kept(self, waiting):
        if waiting.receiver == self.victim and not isinstance(waiting.packet, Message):
            return isinstance(waiting.packet, Join) or self.scene.actors[self.victim].node.state != OPERATIONAL
        return self.chance.percent(self.mood.again[type(waiting.packet)])

    def _pass_on(self):
        """The first packet that is not held back arrives, is lost, or is late; or it arrives, and a copy of it is held back."""
        chance, mood = self.chance, self.mood
        if all(map(self._is_kept, self.scene.queue)):
            self._let_come(0)
            return
        while self._is_kept(self.scene.queue[0]):
            self._to_the_end()
        waiting = self.scene.queue[0]
        kind = type(waiting.packet)
        if self._is_to_be_kept(waiting):
            self.kept = self.kept[-MOST_KEPT + 1:] + [(waiting.receiver, waiting.origin)]
            self.do('repeat', 1)
            self.do('run', 1)
        elif len(self.scene.queue) > 1 and chance.percent(mood.late[kind]):
            self._to_the_end()
        elif chance.percent(mood.lost[kind]):
            self.do('drop', 1)
        else:
            self.do('run', 1)

    def _run_out(self, node):
        """The timer of a node expires as often as it takes to make it go on."""
        for _ in range(PATIENCE[node.state]):
            self.do('timer', node.me)

    def _let_time_pass(self):
        """A timer expires, or as many as a node waits for; mostly those of nodes that form a ring."""
        alive = self._nodes(lambda node: not node.has_crashed)
        forming = [node for node in alive if node.state in (COMMIT, RECOVERY)]
        nodes = forming if forming and self.chance.percent(60) else alive
        if nodes:
            node = self.chance.of(nodes)
            if self.chance.percent(70):
                self._run_out(node)
            else:
                self.do('timer', node.me)
        elif self.scene.queue:
            self.do('run', 1)

    def _submit(self):
        nodes = self._nodes(lambda node: not node.has_crashed and len(node.waiting) < 4)
        if nodes:
            self.do('submit', self.chance.of(nodes).me, self.chance.of('as'), 'x')

    def _cut_or_join(self):
        if self.scene.cut:
            self.do('join')
            return
        sides = {process: self.chance.below(2) for process in self.scene.actors}
        groups = [tuple(process for process in sides if sides[process] == side) for side in (0, 1)]
        if all(groups):
            self.do('cut', *groups)

    def _crash_or_return(self):
        crashed = self._nodes(lambda node: node.has_crashed)
        if crashed and self.chance.percent(self.mood.returns):
            self.do('return', self.chance.of(crashed).me)
        elif len(self._nodes()) - len(crashed) > 2:
            self.do('crash', self.chance.of(self._nodes(lambda node: not node.has_crashed)).me)

    def settle(self):
        """The network heals, and the nodes are given time to form their rings."""
        if self.scene.cut and self.chance.percent(70):
            self.do('join')
        for _ in range(self.chance.below(4)):
            self._run(self.chance.of((10, 20, 40)))
            for node in self._nodes(lambda node: not node.has_crashed and node.state != OPERATIONAL):
                if self.chance.percent(70):
                    self._run_out(node)
        self._run(self.chance.of((10, 30, 60)))

    def _run(self, times):
        if self.scene.queue:
            self.do('run', times)
