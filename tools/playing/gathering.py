"""How processes agree on who is there (docs/PROTOCOL.md, "Gathering")."""
from playing.packets import Join
from playing.ring import Fault

MOST_PROCESSES = 32


class Gathering:
    """A process that gathers."""

    def __init__(self, me, base, number):
        self.me = me
        self.processes = frozenset(base) | {me}
        self.failed = frozenset()
        self.number = number
        self.noted = {}

    def copy(self):
        """A copy that shares nothing mutable."""
        other = Gathering.__new__(Gathering)
        other.__dict__.update(self.__dict__)
        other.noted = dict(self.noted)
        return other

    @property
    def gathered(self):
        """The processes that have not failed, in ascending order."""
        return tuple(sorted(self.processes - self.failed))

    @property
    def join(self):
        """The Join that it sends to the others."""
        return Join(self.me, self.number, self.processes, self.failed)

    def _agrees(self, process):
        return process == self.me or self.noted.get(process) == (self.processes, self.failed)

    @property
    def has_consensus(self):
        """Whether each process that has not failed is known to see the same."""
        return all(map(self._agrees, self.gathered))

    def on_join(self, join):
        """Takes a Join. Returns whether this process has to send its own Join again."""
        sender = join.sender
        is_strange = sender == self.me or sender not in join.processes or sender in join.failed or sender in self.failed
        if is_strange or not join.failed <= join.processes or len(self.processes | join.processes) > MOST_PROCESSES:
            raise Fault('Stranger')
        before = self.processes, self.failed
        if self.me in join.failed:
            self.processes |= {sender}
            self.failed |= {sender}
        else:
            self.processes |= join.processes
            self.failed |= join.failed
            self.noted[sender] = join.processes, join.failed
        self.number = max(self.number, join.number)
        return before != (self.processes, self.failed)

    def on_timeout(self):
        """No answer came in time: gives up the processes that don't agree."""
        self.failed |= {process for process in self.gathered if not self._agrees(process)}

    def says_nothing_new(self, join):
        """Whether a Join says nothing new."""
        return join.sender in self.gathered and join.processes <= self.processes and join.failed <= self.failed and \
            join.number <= self.number
