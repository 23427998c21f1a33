"""What a script does, without the queue: for each process what comes to it, in order; and back, a script in which the same comes. What a
node does depends only on its own inputs, so the run doesn't depend on which of two processes goes first."""
from collections import Counter, deque
from typing import NamedTuple, Optional

from playing.ring import Fault
from playing.scene import Scene
from playing.script import do

# The limit for following one `run`: a token goes round for ever.
MOST_EVENTS = 3000
OF_A_PROCESS = ('submit', 'timer', 'crash', 'return')


class Event(NamedTuple):
    """What comes to a process: a command, or the packet of an origin. `name` is the name of this step in the origins of what it sends."""

    name: int
    process: int
    command: Optional[tuple] = None
    origin: Optional[tuple] = None


def schedule_of(commands):
    """The commands that make rings, and the events after them."""
    scene, rings, events = Scene(), [], []
    for command in commands:
        if command[0] == 'run':
            for _ in range(min(command[1], MOST_EVENTS)):
                if scene.queue:
                    events.append(Event(scene.step, scene.queue[0].receiver, origin=scene.queue[0].origin))
                    scene.run(1)
            continue
        if command[0] == 'ring':
            rings.append(command)
        elif command[0] in OF_A_PROCESS:
            events.append(Event(scene.step, command[1], command=command))
        do(scene, command)
    return rings, events


class _Writer:
    """Writes a script for a schedule. If it is `eager`, it does a command of a process as soon as possible, otherwise only when nothing
    else can be done before."""

    def __init__(self, rings, events, eager):
        self.scene = Scene()
        self.commands = []
        self.eager = eager
        self.to_come = Counter(event.origin for event in events if event.origin)
        self.left = {}
        for event in events:
            self.left.setdefault(event.process, deque()).append(event)
        # How many packets went to the end of the queue since something was done.
        self.turned = 0
        for command in rings:
            self.do(command)

    def do(self, command):
        """Does what a command says, and records it."""
        do(self.scene, command)
        if command[0] == 'run' and self.commands[-1][0] == 'run':
            command = 'run', self.commands.pop()[1] + command[1]
        self.commands.append(command)

    def write(self):
        """The commands."""
        while any(self.left.values()):
            if self.eager and self._take_command():
                continue
            if not self.scene.queue or self.turned >= len(self.scene.queue):
                if not self._take_command():
                    self._give_up()
            else:
                self._take_first()
        return self.commands

    def _take(self, process):
        """Does the next event of a process."""
        event = self.left[process].popleft()
        self.turned = 0
        self.scene.step = event.name
        if event.origin:
            self.to_come[event.origin] -= 1
        self.do(event.command or ('run', 1))

    def _take_command(self):
        """Does the next command of the first process that waits for one. Returns whether there is one."""
        for process, left in sorted(self.left.items()):
            if left and left[0].command:
                self._take(process)
                return True
        return False

    def _give_up(self):
        """Skips the next event of the first process, since nothing that is left can come."""
        process = min(process for process, left in self.left.items() if left)
        event = self.left[process].popleft()
        self.to_come[event.origin] -= 1
        self.turned = 0

    def _take_first(self):
        """Delivers the first packet if it is the next event of its receiver. If it is to come later, it goes to the end of the queue, or
        the receiver's command before it is done. Otherwise it is delivered if the receiver refuses it, which changes nothing, or
        dropped."""
        first = self.scene.queue[0]
        left = self.left.get(first.receiver)
        copies = sum(1 for waiting in self.scene.queue if waiting.origin == first.origin)
        is_spare = copies > self.to_come[first.origin]
        if left and left[0].origin == first.origin:
            if self.to_come[first.origin] > copies:
                self.do(('repeat', 1))
            self._take(first.receiver)
        elif not is_spare and left[0].command:
            self._take(first.receiver)
        else:
            self.turned += not is_spare
            if not is_spare:
                self.do(('repeat', 1))
            self.do(('run', 1) if self._is_refused(first) else ('drop', 1))

    def _is_refused(self, waiting):
        actor = self.scene.actors.get(waiting.receiver)
        try:
            return not actor or not actor.node.copy().on_packet(waiting.packet)
        except Fault:
            return True


def script_of(rings, events):
    """The commands of a script in which these events come; an event that can't come is skipped."""
    return min((_Writer(rings, events, eager).write() for eager in (False, True)), key=len)
