"""The state while a script runs (docs/PROTOCOL.md, "Scripts"): nodes, packets on their way, and the run that is written. So code that
writes scripts, or makes them shorter, knows the place of each packet; only the program judges runs."""
from typing import NamedTuple

from playing.node import Node
from playing.packets import RingName, first_token, kind_of
from playing.ring import Fault


class Broken(Exception):
    """A line breaks a rule: the script makes no run."""


class OnItsWay(NamedTuple):
    """A packet on its way, and its origin: the step that sent it, and which of the packets of that step it is."""

    receiver: int
    packet: tuple
    origin: tuple


class Actor:
    """A process of a script: the node of its present life, and the logs of all its lives."""

    def __init__(self, process, ring, members):
        self.node = Node(process, 1, ring, members)
        self.logs = [[('conf', ring.regular, tuple((member, 1) for member in members))]]

    def copy(self):
        """A copy that shares nothing mutable."""
        other = Actor.__new__(Actor)
        other.node, other.logs = self.node.copy(), [list(log) for log in self.logs]
        return other

    def return_as(self, ring):
        """Comes back in its next life, alone on this ring."""
        process, life = self.node.me, self.node.life + 1
        self.node = Node(process, life, ring, (process,))
        self.logs.append([('conf', ring.regular, ((process, life),))])


class Scene:
    """Nodes and packets. `watch` is called with each step: the node, its state before, the input, and the result (a Done, or the name of
    a fault). `step` is the name of the next step: an ascending number, unless somebody sets another one. `came` packets have come."""

    def __init__(self, watch=None):
        self.actors = {}
        self.queue = []
        self.cut = None
        self.watch = watch or (lambda *_: None)
        self.step = self.came = 0

    def copy(self, watch=None):
        """A copy that shares nothing mutable."""
        other = Scene(watch)
        other.actors = {process: actor.copy() for process, actor in self.actors.items()}
        other.queue, other.cut, other.step = list(self.queue), self.cut, self.step
        other.came = self.came
        return other

    def make_ring(self, number, representative, *members):
        """Makes these nodes on this ring."""
        if any(member in self.actors for member in members) or representative != members[0] or list(members) != sorted(set(members)):
            raise Broken('Members')
        ring = RingName(number, representative)
        for member in members:
            self.actors[member] = Actor(member, ring, members)
        self.actors = dict(sorted(self.actors.items()))
        self._send_first_token(ring)

    def _send_first_token(self, ring):
        process = ring.representative
        self.queue.append(OnItsWay(process, first_token(ring), ('ring', process, self.actors[process].node.life)))

    def _may_pass(self, one, other):
        return self.cut is None or any(one in group and other in group for group in self.cut)

    def _post(self, process, sendings):
        for place, (to, packet) in enumerate(sendings):
            for receiver in [other for other in self.actors if other != process] if to is None else [to]:
                if self._may_pass(process, receiver):
                    self.queue.append(OnItsWay(receiver, packet, (self.step, place, receiver)))

    def _step(self, process, kind, call):
        actor = self.actors.get(process)
        if not actor:
            return
        state = actor.node.state
        try:
            done = call(actor.node)
        except Fault as fault:
            self.watch(self, actor.node, state, kind, str(fault))
        else:
            actor.logs[-1].extend(done.entries)
            self._post(process, done.sendings)
            self.watch(self, actor.node, state, kind, done)
        self.step += 1

    def _named(self, process, kind, call):
        if process not in self.actors:
            raise Broken('Members')
        self._step(process, kind, call)

    def run(self, times):
        """Delivers the first packet to its receiver, this many times or until there is none."""
        for _ in range(times):
            if not self.queue:
                return
            receiver, packet, _ = self.queue.pop(0)
            self.came += 1
            self._step(receiver, kind_of(packet), lambda node, packet=packet: node.on_packet(packet))

    def drop(self, place):
        """Drops the packet at this place."""
        if place > len(self.queue):
            raise Broken('Place')
        self.queue.pop(place - 1)

    def repeat(self, place):
        """Puts a copy of the packet at this place after the others."""
        if place > len(self.queue):
            raise Broken('Place')
        self.queue.append(self.queue[place - 1])

    def timer(self, process):
        """Lets the timer of a process expire."""
        self._named(process, 'timer', Node.on_timer)

    def submit(self, process, is_safe):
        """A client of a process asks it to send a message."""
        self._named(process, 'submit', lambda node: node.on_submit(is_safe))

    def crash(self, process):
        """A process fails."""
        self._named(process, 'crash', Node.on_crash)

    def part(self, *groups):
        """Lets no packet pass between these groups from now on."""
        if sorted(process for group in groups for process in group) != list(self.actors):
            raise Broken('Members')
        self.cut = groups

    def join(self):
        """The cut ends."""
        self.cut = None

    def bring_back(self, process):
        """A process that has crashed comes back in its next life."""
        if process not in self.actors:
            raise Broken('Members')
        actor = self.actors[process]
        if not actor.node.has_crashed:
            raise Broken('Place')
        ring = RingName(actor.node.number + 4, process)
        actor.return_as(ring)
        self._send_first_token(ring)

    def text(self, version):
        """The text of the run, as `totem sim` writes it for a script of this version."""
        lines = ['totem-run %d' % version]
        for process, actor in self.actors.items():
            for life, log in enumerate(actor.logs, 1):
                lines.append('log ' + _name((process, life), version))
                lines.extend(entry_line(entry, version) for entry in log)
                lines.append('failed' if log[-1][0] == 'fail' else 'open')
        return '\n'.join(lines + ['end', '']).encode()


def _name(member, version):
    return '%d:%d' % member if version == 2 else '%d' % member[0]


def entry_line(entry, version):
    """The line of an entry in a run of this version."""
    if entry[0] == 'conf':
        return 'conf %s %s' % (entry[1], ' '.join(_name(member, version) for member in entry[2]))
    if entry[0] == 'fail':
        return 'fail ' + entry[1]
    message = entry[2]
    text = '%s#%d' % (str(message.ring), message.number)
    return 'dlv %s %s' % (entry[1], text) if entry[0] == 'dlv' else 'send %s %s %s' % (entry[1], 'as'[message.body.is_safe], text)
