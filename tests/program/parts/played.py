"""Scripts watched by `tools/play`."""
import os
import re
import tempfile
from functools import partial

from harness import process
from parts.scripts import BROKEN
from parts.shrunk import call
from parts.texts import EXAMPLES

FOLDERS = (EXAMPLES, os.path.join(EXAMPLES, 'broken'))
# A script with comments, the same without, and what is shown of its last two lines: worked out by hand, from docs/PROTOCOL.md.
COMMENTED = b"""# All of it.
totem-script 2  # lives

ring 4.1 1 2
submit 1 s x # safe
run 3
crash 2
end # and no more
"""
PLAIN = b'totem-script 2\nring 4.1 1 2\nsubmit 1 s x\nrun 3\ncrash 2\nend\n'
SHOWN = b"""line 6: run 3
  1 <- token 1 of ring 4.1 (messages to 0, aru 0): taken; send r4.1 s 4.1#1
  2 <- message 4.1#1 of 1 (safe): taken
  2 <- token 2 of ring 4.1 (messages to 1, aru 1): taken
  node 1:1: Operational, ring 4.1 (holds 1, delivered to 0, safe to 0, keeps token 2)
  node 2:1: Operational, ring 4.1 (holds 1, delivered to 0, safe to 0, keeps token 3)
  packet 1, to 1: token 3 of ring 4.1 (messages to 1, aru 1)

line 7: crash 2
  2 <- crash: taken; fail r4.1
  node 2:1: Crashed
  packet 1, to 1: token 3 of ring 4.1 (messages to 1, aru 1)

"""
# A token whose aru is that of one who lacks a message; who sees the same, and what a commit token says of each member.
TELLING = (
    ('4.script', '  packet 4, to 2: token 3 of ring 8.2 (messages to 4, aru 1, aru_id 3, asks for 2)\n'),
    ('4.script', '; gathers 1-3; noted Joins of none, the same of none\n'),
    ('4.script', '3 <- commit token of ring 8.2, round 2 (2: ring 4.1, aru 0, delivered to 0 / 3: ring 4.1, aru 0, delivered to 0): enters\n'),
)
# Lines that a script may have and the program refuses there, or later; the tool doesn't count processes or what is left of the numbers.
NOT_REFUSED = ('7 End', '9 TooMany', '8 Truncated')


def differs(came, status, output, errors=b''):
    """What is wrong with an answer."""
    return None if (came.status, came.output, came.errors) == (status, output, errors) else 'came: %s' % came


def watch_commented(_program):
    """Lines are those of the file, and comments are left out."""
    return differs(call('play', ['--lines', '6-9'], COMMENTED), 0, SHOWN)


def write_plain(program):
    """Without comments it is the same script for the program."""
    made, _ = process.run([program, 'sim'], PLAIN)
    return differs(call('play', ['--plain'], COMMENTED), 0, PLAIN) or made.status and 'it is no script: %s' % made


def entries_of_run(text):
    """The entries of each process in a run but the first change of each life: all lives in a row."""
    found = {}
    for line in text.decode().splitlines():
        if line.startswith('log '):
            own, is_first = found.setdefault(line[4:].partition(':')[0], []), True
        elif ' ' in line and not line.startswith('totem-run'):
            own += [] if is_first else [line]
            is_first = False
    return found


def entries_shown(text):
    """The entries of each process that are shown."""
    found = {process: [] for process in re.findall(r'(?m)^  node (\d+)', text.decode())}
    for who, rest in re.findall(r'(?m)^  (\d+) <- .*?: (?:refused, )?[a-zA-Z ]+((?:; .*)?)$', text.decode()):
        found.setdefault(who, []).extend(rest.split('; ')[1:])
    return found


def watch_example(path, program):
    """What is shown is what the program writes; and it is the same after each line, if the script ends there."""
    with open(path, 'rb') as file:
        text = file.read()
    came = call('play', [path])
    made, _ = process.run([program, 'sim'], text)
    wanted = entries_of_run(made.output)
    if came.status or entries_shown(came.output) != wanted or not any(wanted.values()):
        return 'it shows %r, and the run has %r' % (entries_shown(came.output), wanted)
    parts, lines = came.output.split(b'\nline ')[:-1], text.splitlines(True)
    for number, part in enumerate(parts, 1):
        made, _ = process.run([program, 'sim'], b''.join([*lines[:number + 1], b'end\n']))
        shown = entries_shown(b'\nline '.join(parts[:number]))
        if shown != entries_of_run(made.output):
            return 'after line %d it shows %r, and the run has %r' % (number + 1, shown, entries_of_run(made.output))
    return None


def watch_telling(name, line, _program):
    """What the break of a specification turns on is shown; and of a node only what is new."""
    came = call('play', [os.path.join(EXAMPLES, 'broken', name)]).output.decode()
    return None if line in came and came.count('node 1: Crashed') == 1 else 'came: %s' % came[-2000:]


# The first ticks of a run whose packets are all lost, and what is shown of the first and the last one: worked out by hand.
RUN, RUN_SHOWN = '--nodes 2 --lose 100 --ticks 8', b"""tick 8:
  1 <- timer: taken
  1 -> 2: token 2 of ring 4.1 (messages to 0, aru 0): lost
  1 <- submit: taken
  node 1: Operational, ring 4.1 (holds none, delivered to 0, safe to 0, keeps token 2); 1 to send; timer 1
  node 2: Operational, ring 4.1 (holds none, delivered to 0, safe to 0)

messages: 0 sent, 0 delivered by every node, no delivery; rings formed: 0; packets: 3 sent, 2 lost and 0 duplicated by the plan; on their way \
at the end: 0 held back, 0 waiting, 0 sent in the last tick
"""


def watch_ticks(_program):
    """Of a run only some ticks are shown."""
    return differs(call('play', ['--run', RUN, '--ticks', '3-8']), 0, RUN_SHOWN)


def watch_run(program):
    """What is shown of runs is what the program writes, with the same summary, which says when anything was delivered last."""
    for words in ('--nodes 2 --ticks 400', '--nodes 3 --lose 20 --repeat 10 --hold 2 --ticks 1500 --seed 3', '--nodes 2 --lose 100 --ticks 80'):
        came, made = call('play', ['--run', words]), process.run([program, 'run', *words.split()])[0]
        wanted = entries_of_run(made.output)
        ticks = [int(tick) for tick, text in re.findall(r'(?ms)^tick (\d+):\n(.*?)\n\n', came.output.decode()) if '; dlv ' in text]
        last = ', last delivery in tick %d; ' % ticks[-1] if ticks else ', no delivery; '
        ending = made.errors.decode().removeprefix('totem: ')
        if came.status or entries_shown(came.output) != wanted or last not in ending or not came.output.decode().endswith(ending):
            return 'it shows %r, and the run has %r, and %r' % (came.output[-3000:], wanted, ending)
    return None


def watch_broken(script, line, _program):
    """A line that breaks a rule is named, after all that is before it."""
    came = call('play', [], script.encode())
    is_right = came.status == 1 and came.errors.startswith(b'play: the input, line %d: ' % line) and came.errors.count(b'\n') == 1
    return None if is_right and came.output.count(b'\nline ') <= line else 'came: %s' % came


def watch_nothing(words, status, errors, _program):
    """Usage errors, and files that can't be read."""
    with tempfile.TemporaryDirectory() as folder:
        came = call('play', [word.replace('FOLDER', folder) for word in words.split()])
        wanted = errors.replace('FOLDER', folder).encode()
    is_right = (came.status, came.output) == (status, b'') and came.errors.endswith(wanted)
    return None if is_right else 'came: %s' % came


def watch_full(_program):
    """If the output accepts no more, the status says so."""
    with open('/dev/full', 'wb') as full:
        return differs(call('play', [], PLAIN, output=full), 4, None, b'play: write failed\n')


SPAN = 'play: argument --lines: lines are a number of 1 or more, or two, such as 7-12\n'
NOTHING = {
    'a number of nodes that there is not': ('--run=--nodes=33', 64, 'play --run: argument --nodes: 33 is no number from 1 to 32\n'),
    'a run and a file': ('--run=--nodes=3 a', 64, 'play: --run shows a run: it goes with --ticks and --names alone\n'),
    'ticks after the last one': ('--run=--ticks=80 --ticks 81', 64, 'play: --ticks 81: the run has 80 ticks\n'),
    'ticks of a script': ('--ticks 5 a', 64, 'play: --ticks goes with --run; --lines selects lines of a script\n'),
    'line 0': ('--lines 0', 64, SPAN),
    'lines that go back': ('--lines 7-6', 64, SPAN),
    'lines that are a word': ('--lines all', 64, SPAN),
    'an option that there is not': ('--all', 64, 'play: unrecognized arguments: --all\n'),
    'two files': ('a b', 64, 'play: unrecognized arguments: b\n'),
    'a line that there is not': ('--lines 500 ' + os.path.join(EXAMPLES, 'broken', '4.script'), 1,
                                 'play: no command is in the lines 500 to 500: the commands are in lines 2 to 57\n'),
    'a missing file': ('FOLDER/none', 1, 'play: FOLDER/none: No such file or directory\n'),
    'a folder': ('FOLDER', 1, 'play: FOLDER: Is a directory\n'),
}


def played():
    """What is shown of scripts, and what is refused."""
    yield 'a script with comments', watch_commented
    yield 'a script without its comments', write_plain
    for folder in FOLDERS:
        for name in sorted(name for name in os.listdir(folder) if name.endswith('.script')):
            yield name, partial(watch_example, os.path.join(folder, name))
    for script, kind, line in BROKEN:
        if kind not in NOT_REFUSED and '4294967292' not in script:
            yield '%s in line %d: %r' % (kind, line, script[:60]), partial(watch_broken, script, line)
    yield 'no end', partial(watch_broken, 'totem-script 1\nring 4.1 1 2\n', 3)
    yield 'something after the end', partial(watch_broken, 'totem-script 1\nring 4.1 1 2\nend\njoin\n', 4)
    yield 'no text', partial(watch_broken, '', 1)
    for what, given in NOTHING.items():
        yield what, partial(watch_nothing, *given)
    yield 'a full device', watch_full
    for name, line in TELLING:
        yield 'what %s turns on: %s' % (name, line.strip()), partial(watch_telling, name, line)
    yield 'some ticks of a run', watch_ticks
    yield 'runs of nodes in threads', watch_run
