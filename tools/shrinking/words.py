"""The arguments of `tools/shrink`, and what it does with them."""
import argparse
import os
import sys

from running import names, signals, streams, texts
from running.words import Words
from shrinking.program import Program, Refused
from shrinking.runs import RunShrinker
from shrinking.scripts import ScriptShrinker

DESCRIPTION = """Makes a broken run small:

    tools/shrink my.run > small.run

For a run with the verdict no, it searches for the smallest run that breaks the same specifications. It leaves out whole processes, whole
configurations, messages with all their deliveries and single entries, as long as the program still names these specifications.
A message that breaks 1.3 because it was sent elsewhere keeps a send. Then it gives processes, rings and messages small numbers, unless
--keep-names says otherwise. It explains the small run on standard error, and lists there which names it had before.

With --script it does the same for a script whose run is broken (`totem sim`): it leaves out, moves and joins steps."""
EXAMPLES = """The run is read from standard input if no file is given. The program crates/totem/out/totem judges each run that is tried, or
if it is not built crates/totem_auditor/out/totem_auditor (`./totem prove` and `./totem audit` build them); in an archive it is ./totem. If
that program was not proved from the sources as they are, a note says so.

An interrupt writes the smallest run that was found so far, at once. The status is 0, or 1 if the run is not broken, can't be read, or the
program is not there; also 1 if the program failed later: then it writes the smallest run that was found until then. It is 4 if the output
fails, and 64 for a usage error."""


def add_words_of_program(parser):
    """Adds the arguments that say which program to run, and how many runs in parallel."""
    parser.add_argument('--program', metavar='PATH', help='the built program to run')
    parser.add_argument('--jobs', type=int, metavar='N', default=os.cpu_count() or 1,
                        help='how many runs to try in parallel (all cores)')


def read_words(words):
    """What the arguments ask for."""
    parser = Words(prog='shrink', allow_abbrev=False, formatter_class=argparse.RawDescriptionHelpFormatter, description=DESCRIPTION,
                   epilog=EXAMPLES)
    parser.add_argument('file', nargs='?', metavar='FILE')
    parser.add_argument('--script', action='store_true', help='the file is a script')
    parser.add_argument('--specification', metavar='S', help='only this one of the broken specifications has to stay broken, such as 5')
    parser.add_argument('--same-places', action='store_true',
                        help='the first fault of each specification has to name the same kinds of events too, and to be broken for the same '
                             'kind of reason')
    parser.add_argument('--keep-names', action='store_true', help='processes, rings and messages keep their numbers')
    names.add_word(parser)
    add_words_of_program(parser)
    asked = parser.parse_args(words)
    if asked.jobs < 1:
        parser.error('--jobs is 1 or more')
    return asked


def _read_input(path):
    if not path:
        if sys.stdin.isatty():
            streams.say('shrink: reading from the terminal; `shrink FILE` reads a file')
        return sys.stdin.buffer.read()
    with open(path, 'rb') as it:
        return it.read()


class Progress:
    """A line on a terminal that shows the progress."""

    def __init__(self):
        self.is_shown = sys.stderr.isatty()

    def show(self, text):
        """Shows this text instead of the last one."""
        if self.is_shown:
            streams.say('\r\033[K' + text, end='')

    def tell(self, lines, tried):
        """Shows how many lines there are now, and how many runs were tried."""
        self.show('%d lines, %d tried' % (lines, tried))

    def wipe(self):
        """Takes the line away."""
        self.show('')


def _read(asked, program, text):
    """What makes this text small."""
    progress = Progress()
    words = {'jobs': asked.jobs, 'tell': progress.tell, 'keep_names': asked.keep_names, 'specification': asked.specification,
             'same_places': asked.same_places}
    return (ScriptShrinker if asked.script else RunShrinker)(program, text, **words), progress


def _shrink(shrinker, progress):
    """Looks for the smallest text. Returns why that failed, or None; what was found stays with the shrinker."""
    try:
        shrinker.shrink()
    except KeyboardInterrupt:
        streams.say('shrink: interrupted')
    except Refused as refused:
        return str(refused)
    except OSError as error:
        return '%s: %s' % (error.filename or 'the program', error.strerror)
    finally:
        progress.wipe()
    return None


def _numbers(renamed):
    """The new numbers of processes, each with the old one."""
    return [tuple(name.split(' ')[1].partition(':')[0] for name in pair) for pair in renamed if pair[0].startswith('process ')]


def _tell_outcome(asked, program, text, small, renamed):
    """Reports the outcome: how many lines there were and are, and the verdict in words."""
    known = asked.names.renamed(_numbers(renamed))
    run = program.play(small) if asked.script else small
    faults = ['fault %s %s' % (specification, ' '.join(places)) for specification, places in program.audit(run).faults]
    what = 'script' if asked.script else 'run'
    streams.say('shrink: a %s of %d lines became one of %d' % (what, text.count(b'\n'), small.count(b'\n')))
    streams.say('\n'.join(faults) + '\n\n' + known.in_words(program.explain(run)), end='')


def _tell_names(known, renamed):
    """Reports new names, each with the one before."""
    if renamed:
        streams.say('shrink: new names, and what they were before:')
        width = max(len(new) for new, _ in renamed)
        streams.say('\n'.join('  %s  %s' % (new.ljust(width), known.in_words(old)) for new, old in renamed))


def _do(asked):
    """Makes the text small, writes the outcome, and only then reports it. Returns the status."""
    program = Program(asked.program, makes_runs=asked.script)
    text = _read_input(asked.file)
    if texts.flaw_of(text):
        raise Refused('%s %s' % (asked.file or 'the input', texts.flaw_of(text)))
    if not asked.script and text.startswith(b'totem-script '):
        raise Refused('this is a script: --script makes it small')
    if asked.script and text.startswith(b'totem-run '):
        raise Refused('this is a run and no script: leave out --script')
    shrinker, progress = _read(asked, program, text)
    why = _shrink(shrinker, progress)
    signals.ignore_ending()
    program.end()
    small = shrinker.text
    is_written = streams.write(small)
    signals.end_as_usual()
    try:
        if not why:
            _tell_outcome(asked, Program(program.path), text, small, shrinker.names())
    finally:
        _tell_names(asked.names, shrinker.names())
    if why:
        streams.say('shrink: %s; so this is only the smallest that was found until then' % why)
    if not is_written:
        return streams.unwritten('shrink')
    return 1 if why else 0


def main(words):
    """Does what the arguments ask for, and returns the status."""
    streams.reserve()
    asked = read_words(words)
    signals.on_ending(signals.interrupt)
    try:
        return _do(asked)
    except KeyboardInterrupt:
        streams.say('shrink: interrupted before anything was tried')
    except Refused as refused:
        streams.say('shrink: %s' % refused)
    except OSError as error:
        streams.say('shrink: %s: %s' % (error.filename or 'the input', error.strerror))
    return 1
