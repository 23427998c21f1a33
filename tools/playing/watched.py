"""A run of nodes in threads shown tick by tick: which packet came to whom or was lost, and what became of the nodes."""
import argparse

from playing.network import Network, Plan, Unwatched
from playing.scene import entry_line
from playing.shown import packet_text, states
from running.words import Words

# The numbers of a run, with their ranges (docs/PROTOCOL.md, "A run in threads").
RANGES = {'nodes': (1, 32), 'ticks': (1, 1000000), 'seed': (0, (1 << 64) - 1), 'lose': (0, 100), 'repeat': (0, 100), 'hold': (0, 255)}


def _number_in(first, last):
    def read(word):
        if not word.isascii() or not word.isdigit() or not first <= int(word) <= last:
            raise argparse.ArgumentTypeError('%s is no number from %d to %d' % (word, first, last))
        return int(word)
    return read


def read_plan(text):
    """The numbers of a run, by the arguments of `totem run`."""
    parser = Words(prog='play --run', usage="tools/play --run 'ARGUMENTS OF totem run'", allow_abbrev=False, add_help=False)
    for name, default in Plan()._asdict().items():
        parser.add_argument('--' + name, type=_number_in(*RANGES[name]), default=default)
    parser.add_argument('--quiet', action='store_true')
    asked = parser.parse_args(text.split())
    if asked.lose + asked.repeat > 100:
        parser.error('--lose and --repeat are 100 together at most')
    return Plan(**{name: getattr(asked, name) for name in Plan()._fields})


def _fate_text(copies):
    """What becomes of a packet other than that it comes at once; or nothing."""
    if not copies:
        return 'lost'
    held = ['at once' if left == 0 else 'after %d more for it' % left for left in copies]
    return '' if copies == [0] else ('twice, ' if len(copies) == 2 else '') + ' and '.join(held)


class RunWatch(Unwatched):
    """Writes what happens in the ticks of a span, or in all; of a node only what is new. `write` gets each text."""

    def __init__(self, span, known, write):
        self.span, self.names, self.write = span, known, write
        # The tick that passes, and what happens in it.
        self.tick, self.lines = 1, []
        # The states of the nodes as they were shown last.
        self.known = {}

    @property
    def is_shown(self):
        """Whether this tick is shown."""
        return not self.span or self.span[0] <= self.tick <= self.span[1]

    def saw_fate(self, sender, receiver, packet, copies):
        """A packet that is lost, comes twice, or is held."""
        fate = _fate_text(copies)
        if fate and self.is_shown:
            self.lines.append('%d -> %d: %s: %s' % (sender, receiver, packet_text(packet), fate))

    def saw_step(self, node, given, done):
        """What a node makes of a packet or another input."""
        if not self.is_shown:
            return
        answer = 'refused, ' + done if isinstance(done, str) else '; '.join([done.what, *(entry_line(entry, 1) for entry in done.entries)])
        self.lines.append('%d <- %s: %s' % (node.me, given if isinstance(given, str) else packet_text(given), answer))

    def saw_tick(self, network, number):
        """Writes a tick in which anything happened."""
        if self.lines:
            new = states(network.scene.actors, 1, self.names, self.known)
            self.write('\n'.join(['tick %d:' % number, *('  ' + line for line in [*self.lines, *new]), '', '']))
        self.tick, self.lines = number + 1, []


def watch(plan, span, known, write):
    """Shows a run."""
    network = Network(plan, RunWatch(span, known, write))
    network.run()
    write(network.summary + '\n')
