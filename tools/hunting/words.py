"""The arguments of `tools/hunt`, and what it does with them."""
import argparse
import os
from functools import partial

from hunting.block import BLOCK, Block
from hunting.hunt import Hunt, Seeds
from hunting.judge import Judge
from hunting.near import Near, read_script
from hunting.prey import Found
from playing import script
from playing.node import Node
from running import signals, streams
from running.words import Words
from shrinking.program import Program, Refused
from shrinking.words import Progress, add_words_of_program

DESCRIPTION = """Searches for runs of the protocol that break the specifications:

    tools/hunt --seeds 0 9999

Each seed makes a script: networks part and heal; packets, above all commit tokens and Joins, are lost, late, or come again; timers
expire in every state; processes crash and return. `totem sim` follows each script, and `totem audit` judges its run. If a script is the
first to reach something, such as an input in a state of a node, or a ring that is entered twice, later seeds continue from there: a seed
builds on those before it, from the last multiple of %d on. So a seed makes the same script on every machine.

    tools/hunt --near examples/broken/*.script --seeds 0 999

With --near each seed makes one to three changes to one of these scripts: a line is left out, doubled or moved, or gets another number. A
line that then breaks a rule, such as a `drop` where no packet is, is left out, too.

    tools/hunt --near examples/broken/*.script --seeds 0 999 --enter-once

With --enter-once no node enters a ring that it has entered before, the step by which all known broken runs come about (docs/PROTOCOL.md,
"Why runs are audited"). tools/playing makes these runs, and they are not compared with those of `totem sim`; `totem audit` judges them.""" % BLOCK
EXAMPLES = """For each set of broken specifications the folder keeps the shortest script, shortened as by `tools/shrink --script`, and the
file `noes` there has a line for each seed that was a no; an interrupt loses none of that. A shorter script that is there already stays, and
another file with its name gets a new name. At the end the hunt prints what it saw and found.
A no is rare: of the seeds 0 to 139999 none breaks 1.4, 2.2 or 4. examples/broken has a script of each kind that is known.
It knows what the nodes do from an implementation of docs/PROTOCOL.md in tools/playing, and also reports scripts for which the program makes
another run.

The status is 0, even if broken runs were found; 1 if the program is not there, does not answer, or makes another run than tools/playing, or
if the folder can't be written; 4 if the output fails; 64 for a usage error."""

ONCE = 'no node entered a ring again: tools/playing made the runs, which were not compared with `totem sim`'


def read_words(words):
    """What the arguments ask for."""
    parser = Words(prog='hunt', allow_abbrev=False, formatter_class=argparse.RawDescriptionHelpFormatter, description=DESCRIPTION,
                   epilog=EXAMPLES)
    what = parser.add_mutually_exclusive_group(required=True)
    what.add_argument('--seeds', type=int, nargs=2, metavar=('FROM', 'TO'), help='hunt with these seeds')
    what.add_argument('--show', type=int, metavar='SEED', help='write the script of this seed, and do nothing else')
    parser.add_argument('--near', nargs='+', metavar='SCRIPT', help='let each seed change one of these scripts')
    parser.add_argument('--enter-once', action='store_true', help='let no node enter a ring again')
    parser.add_argument('--keep', metavar='FOLDER', default='found', help='the folder for what is found (found)')
    add_words_of_program(parser)
    asked = parser.parse_args(words)
    if asked.seeds and not 0 <= asked.seeds[0] <= asked.seeds[1] or asked.show is not None and asked.show < 0:
        parser.error('seeds are 0 or more, in ascending order')
    if asked.jobs < 1:
        parser.error('--jobs is 1 or more')
    return asked


def _seeds(asked):
    """The seeds that are asked for."""
    block = partial(Near, [read_script(path) for path in asked.near]) if asked.near else Block
    return Seeds(*(asked.seeds or (asked.show, asked.show)), block)


def _show(seeds):
    """The script of the first seed."""
    _, commands, _ = next(seeds.scripts(seeds.blocks[0]))
    return script.write(commands)


def _hunt(asked, seeds):
    """Hunts, and prints what was seen and found, also after an interrupt."""
    program = Judge(asked.program) if asked.enter_once else Program(asked.program, makes_runs=True)

    def judge(text):
        run = program.play(text)
        verdict = program.audit(run) if run is not None else None
        return verdict.broken if verdict and verdict.is_no else None

    found = Found(asked.keep, judge)
    found.check_folder()
    with signals.held():
        hunt = Hunt(program, seeds, asked.jobs, found)
        signals.on_ending(hunt.ask_to_end)
    progress = Progress()
    try:
        if not hunt.follow(lambda: progress.show('%d runs, %d no' % (found.counts['runs'], found.counts['no']))):
            streams.say('hunt: interrupted')
    finally:
        try:
            hunt.end()
        finally:
            progress.wipe()
            said = [*([ONCE] if asked.enter_once else []), *found.lines()]
            is_written = streams.write(b''.join(os.fsencode(line) + b'\n' for line in said))
    return _written(is_written) or (1 if found.others else 0)


def _written(is_written):
    """The status of what was written."""
    return 0 if is_written else streams.unwritten('hunt')


def main(words):
    """Does what the arguments ask for, and returns the status."""
    streams.reserve()
    asked = read_words(words)
    signals.on_ending(signals.interrupt)
    try:
        Node.may_enter_again = not asked.enter_once
        seeds = _seeds(asked)
        return _hunt(asked, seeds) if asked.show is None else _written(streams.write(_show(seeds)))
    except KeyboardInterrupt:
        streams.say('hunt: interrupted')
    except Refused as refused:
        streams.say('hunt: %s' % refused)
    except OSError as error:
        streams.say('hunt: %s: %s' % (error.filename or asked.keep, error.strerror))
    return 1
