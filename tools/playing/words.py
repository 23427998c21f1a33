"""The arguments of `tools/play`, and what it does with them."""
import argparse
import re
import sys

from playing.commented import Wrong, lines, plain
from playing.scene import Broken, Scene, entry_line
from playing.script import do
from playing.shown import packet_text, states
from playing.watched import read_plan, watch
from running import names, signals, streams
from running.words import Words

DESCRIPTION = """Shows what a script does: after each line what came to which node, what each node's state is, and which packets are on their way, with
their places for `drop` and `repeat`:

    tools/play examples/partition-that-heals.script

With --run it shows a run of nodes in threads, tick by tick: what was lost, which packet came to whom, and what is new of the nodes:

    tools/play --run '--nodes 5 --lose 5 --seed 1' --ticks 200-260

The file may have blank lines, and comments, which begin with `#`; `totem sim` takes none, so

    tools/play --plain my.script | ./totem sim

leaves them out. A node's state is shown where it has changed since it was shown last. All this is known from an implementation of docs/PROTOCOL.md
in tools/playing: `totem sim` and `totem run` decide what the nodes do."""
EXAMPLES = """The script is read from standard input if no file is given. The status is 0; 1 if a line breaks a rule or the file can't be read; 4 if
the output fails; 64 for a usage error."""
REASONS = {'Members': 'the processes do not fit: docs/PROTOCOL.md, "Scripts"',
           'Place': 'there is no packet at this place, or no process that could return'}


class WriteFailed(Exception):
    """Standard output takes no more."""


class Unshown(Exception):
    """Nothing is shown, since nothing is there."""


def _span(word):
    found = re.fullmatch(r'([1-9]\d{0,8})(?:-([1-9]\d{0,8}))?', word, re.ASCII)
    if not found or int(found[2] or found[1]) < int(found[1]):
        raise argparse.ArgumentTypeError('lines are a number of 1 or more, or two, such as 7-12')
    return int(found[1]), int(found[2] or found[1])


def read_words(words):
    """What the arguments ask for."""
    parser = Words(prog='play', allow_abbrev=False, formatter_class=argparse.RawDescriptionHelpFormatter, description=DESCRIPTION,
                   epilog=EXAMPLES)
    parser.add_argument('file', nargs='?', metavar='FILE')
    parser.add_argument('--lines', type=_span, metavar='FROM-TO', help='show only these lines of the file, or this one')
    parser.add_argument('--run', type=read_plan, metavar='ARGUMENTS', help='show the run that `totem run ARGUMENTS` makes, not a script')
    parser.add_argument('--ticks', type=_span, metavar='FROM-TO', help='with --run: show only these ticks, or this one')
    names.add_word(parser)
    parser.add_argument('--plain', action='store_true', help='write the script without comments and blank lines, and do nothing else')
    asked = parser.parse_args(words)
    if asked.ticks and not asked.run:
        parser.error('--ticks goes with --run; --lines selects lines of a script')
    if asked.run and (asked.file or asked.lines or asked.plain):
        parser.error('--run shows a run: it goes with --ticks and --names alone')
    if asked.ticks and asked.ticks[0] > asked.run.ticks:
        parser.error('--ticks %d: the run has %d ticks' % (asked.ticks[0], asked.run.ticks))
    return asked


def _write(text):
    if not streams.write(text.encode()):
        raise WriteFailed


class Watch:
    """Writes what a script does, line by line."""

    def __init__(self, span, known, version):
        self.span, self.names, self.version = span, known, version
        # What happened in a line, and the packet that comes, if one does.
        self.steps, self.packet = [], None
        # The states of the nodes as they were shown last.
        self.known = {}
        self.scene = Scene(self._see)

    def _see(self, _scene, node, _state, kind, done):
        entries = [] if isinstance(done, str) else [entry_line(entry, self.version) for entry in done.entries]
        answer = 'refused, ' + done if isinstance(done, str) else '; '.join([done.what, *entries])
        self.steps.append('%d <- %s: %s' % (node.me, self.packet or kind, answer))

    def _run(self, times):
        """Lets packets come one by one, so that each is known when its receiver has answered."""
        for _ in range(times):
            if not self.scene.queue:
                break
            receiver, packet, _ = self.scene.queue[0]
            self.packet = packet_text(packet)
            if receiver not in self.scene.actors:
                self.steps.append('%d <- %s: nobody is there' % (receiver, self.packet))
            self.scene.run(1)
        self.packet = None

    def do(self, line):
        """Does a line, and shows it."""
        if line.command[0] == 'run':
            self._run(line.command[1])
        else:
            do(self.scene, line.command)
        steps, self.steps = self.steps, []
        if self.span and not self.span[0] <= line.number <= self.span[1]:
            return
        nodes = states(self.scene.actors, self.version, self.names, self.known)
        queue = ['packet %d, to %d: %s' % (place, waiting.receiver, packet_text(waiting.packet))
                 for place, waiting in enumerate(self.scene.queue, 1)]
        _write('\n'.join(['line %d: %s' % (line.number, line.text), *('  ' + it for it in [*steps, *nodes, *queue]), '', '']))


def _watch(content, span, known):
    """Shows one line of a script after the other."""
    watched, steps = None, []
    for line in lines(content):
        if watched is None:
            watched = Watch(span, known, int(line.text[-1]))
        elif line.text != 'end':
            steps.append(line.number)
            try:
                watched.do(line)
            except Broken as broken:
                raise Wrong(line.number, REASONS[str(broken)]) from broken
    if span and not any(span[0] <= number <= span[1] for number in steps):
        raise Unshown('no command is in the lines %d to %d: the commands are in lines %d to %d' % (*span, steps[0], steps[-1]))


def _do(asked):
    if asked.run:
        watch(asked.run, asked.ticks, asked.names, _write)
        return
    if not asked.file and sys.stdin.isatty():
        streams.say('play: reading a script from the terminal')
    if asked.file:
        with open(asked.file, 'rb') as it:
            content = it.read()
    else:
        content = sys.stdin.buffer.read()
    if not asked.plain:
        _watch(content, asked.lines, asked.names)
    elif not streams.write(plain(content)):
        raise WriteFailed


def main(words):
    """Does what the arguments ask for, and returns the status."""
    streams.reserve()
    asked = read_words(words)
    signals.on_ending(signals.interrupt)
    try:
        _do(asked)
    except KeyboardInterrupt:
        streams.say('play: interrupted')
    except Wrong as wrong:
        streams.say('play: %s, %s' % (asked.file or 'the input', wrong))
    except Unshown as unshown:
        streams.say('play: %s' % unshown)
    except OSError as error:
        streams.say('play: %s: %s' % (error.filename or 'the input', error.strerror))
    except WriteFailed:
        return streams.unwritten('play')
    else:
        return 0
    return 1
