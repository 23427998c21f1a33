"""Broken runs made small by `tools/shrink`, and looked for by `tools/hunt`."""
import hashlib
import os
import re
import signal
import subprocess
import tempfile
import time
from functools import partial

from harness import process
from harness import rows as row_files
from parts.texts import EXAMPLES

TOOLS = os.path.join(row_files.REPOSITORY, 'tools')

# The small run of the recording in which a message is delivered on two rings.
DELIVERED_TWICE = b"""totem-run 1
log 1
conf r4.1 1
dlv r4.1 8.1#1
conf t8.1/1 1
conf r8.1 1
dlv r8.1 8.1#1
open
end
"""
# A run that breaks 3, 4 and 7.1, and its small runs if all three have to stay broken, or only 3.
THREE = b"""totem-run 1
log 3
conf r4.3 3 5 7
send r4.3 s 4.3#2
dlv r4.3 4.3#2
send r4.3 a 4.3#5
conf t8.3/3 3 5
conf r8.3 3 5
open
log 5
conf r4.3 3 5 7
conf t8.3/3 3 5
conf r8.3 3 5
open
log 7
conf r4.3 3 5 7
fail r4.3
failed
end
"""
SMALL_THREE = b"""totem-run 1
log 1
conf r4.1 1 2
send r4.1 s 4.1#1
dlv r4.1 4.1#1
send r4.1 a 4.1#2
conf t8.1/1 1 2
conf r8.1 1 2
open
log 2
conf r4.1 1 2
conf t8.1/1 1 2
conf r8.1 1 2
open
end
"""
SMALL_OWN = b'totem-run 1\nlog 1\nconf r4.1 1\nsend r4.1 a 4.1#1\nconf t8.1/1 1\nconf r8.1 1\nopen\nend\n'
# A program that knows little: 2.2 is broken by an entry that is not in the configuration of the last change, and 1.3 by the first delivery of
# a message that is not sent in the last regular one.
KNOWS_LITTLE = """#!/bin/sh
[ "$1" = audit ] || { cat >/dev/null; echo "In words."; exit 1; }
exec awk '/^log / { who = $2; at = 0; now = ""; next }
    NF > 1 && !/^totem-run/ { at++ }
    $1 == "send" { sent[$4] = sent[$4] " " $2 " " }
    $1 == "conf" { now = $2; inside = $2 ~ /^r/ ? $2 : inside }
    NF > 1 && !/^totem-run/ && $2 != now { print "verdict no\\nfault 2.2 " who "@" at "\\nend"; bad = 1; exit 1 }
    $1 == "dlv" { place[++count] = who "@" at; message[count] = $3; configuration[count] = inside }
    END {
        if (bad) exit 1
        for (i = 1; i <= count; i++)
            if (!index(sent[message[i]], " " configuration[i] " ")) { print "verdict no\\nfault 1.3 " place[i] "\\nend"; exit 1 }
        print "verdict yes\\nend"
    }'
"""
# A message that is sent on one ring and delivered on the next, and its small runs; and what is told of its new names.
ELSEWHERE = b"""totem-run 2
log 3:2
conf r8.3 3:2 5:1
send r8.3 a 8.3#33
send r8.3 s 8.3#34
dlv r8.3 8.3#34
conf t12.3/3 3:2 5:1
conf r12.3 3:2 5:1
dlv r12.3 8.3#33
open
log 5:1
conf r8.3 3:2 5:1
dlv r8.3 8.3#34
conf t12.3/3 3:2 5:1
conf r12.3 3:2 5:1
dlv r12.3 8.3#33
open
end
"""
SMALL_ELSEWHERE = b"""totem-run 2
log 1:1
conf r4.1 1:1
send r4.1 a 4.1#1
conf r8.1 1:1
dlv r8.1 4.1#1
open
end
"""
KEPT_ELSEWHERE = b"""totem-run 2
log 3:2
conf r8.3 3:2
send r8.3 a 8.3#33
conf r12.3 3:2
dlv r12.3 8.3#33
open
end
"""
NEW_NAMES = b"""shrink: new names, and what they were before:
  process 1:1  process 3:2
  r4.1         r8.3
  r8.1         r12.3
  4.1#1        8.3#33
"""
SMALL_NOWHERE = b'totem-run 2\nlog 1:1\nconf r8.1 1:1\ndlv r8.1 4.3#1\nopen\nend\n'
# A delivery in another configuration than that of its log, and what is left of it; with its reason, the log stays somewhere.
ASTRAY = b'totem-run 1\nlog 1\nconf r4.1 1 2\ndlv r8.1 8.1#1\nopen\nlog 2\nconf r4.1 1 2\nopen\nend\n'
SMALL_ASTRAY = b'totem-run 1\nlog 1\ndlv r4.1 4.1#1\nopen\nend\n'
SAME_ASTRAY = b'totem-run 1\nlog 1\nconf r4.1 1\ndlv r8.1 8.1#1\nopen\nend\n'
# A safe message that a process never delivers, since it parts from the others, among much that has nothing to do with it; and what is left for
# that reason.
PARTED = b"""totem-run 3
log 1:1
conf r4.1 1:1 2:1 3:1
send r4.1 a 4.1#1
dlv r4.1 4.1#1
send r4.1 s 4.1#2
dlv r4.1 4.1#2
conf t8.1/1 1:1 2:1
conf r8.1 1:1 2:1
send r8.1 a 8.1#1
dlv r8.1 8.1#1
quiet
log 2:1
conf r4.1 1:1 2:1 3:1
dlv r4.1 4.1#1
dlv r4.1 4.1#2
conf t8.1/1 1:1 2:1
conf r8.1 1:1 2:1
dlv r8.1 8.1#1
quiet
log 3:1
conf r4.1 1:1 2:1 3:1
dlv r4.1 4.1#1
conf t8.3/3 3:1
conf r8.3 3:1
quiet
end
"""
SMALL_PARTED = b"""totem-run 1
log 1
conf r4.1 1 2
send r4.1 s 4.1#1
dlv r4.1 4.1#1
open
log 2
conf r4.1 1 2
conf t8.2/2 2
conf r8.2 2
open
end
"""
# The same with names so long that a reason takes two lines of an explanation.
LONG_PARTED = re.sub(rb'(\d)\.(\d)', rb'400000000\1.4000\2', re.sub(rb'(\d)(?=:1)|(?<=/)(\d)', rb'4000\1\2', PARTED))
YES = b'totem-run 1\nlog 1\nconf r4.1 1\nopen\nend\n'
# What is refused: the arguments, the input, and the message.
REFUSED = {
    'a run that is a yes': ('', YES, 'shrink: the verdict on this run is yes'),
    'a run that is none': ('', b'totem-run 1\nlog 1\n', 'shrink: totem: run refused: 7 Truncated'),
    'another specification': ('--specification 5', THREE, 'shrink: this run does not break 5, but 3, 4, 7.1'),
    'a script whose run is a yes': (
        '--script', b'totem-script 1\nring 4.1 1\nend\n', 'shrink: the verdict on the run of this script is yes'),
    'a script that is none': ('--script', b'totem-script 1\nring 4.1 1\nrun x\nend\n', 'shrink: totem: script refused: 3 Number'),
    'a script that is not said to be one': ('', b'totem-script 1\nring 4.1 1\nend\n', 'shrink: this is a script: --script makes it small'),
    'a run that is said to be a script': ('--script', YES, 'shrink: this is a run and no script: leave out --script'),
    'a program that is missing': ('--program /no/such/program', YES, 'shrink: the program /no/such/program is not there'),
    'a file that is missing': ('/no/such/file', b'', 'shrink: /no/such/file: No such file or directory'),
}
# The first seeds: how many, what is printed about them, and the scripts that they make.
SEEDS = 120
SEEN = b'120 runs: 21879 packets came, 180 rings were installed; 120 yes, 0 no\n'
SCRIPTS = '235cf057428cbc520a059d6d847b71ccaf64d70d97c9acc2d1bc679ce090a1d4'
# Seeds near an example that breaks 4: what is printed about them, as the nodes are and if none enters a ring again.
NEAR = ['--near', os.path.join(EXAMPLES, 'broken', '4.script'), '--seeds', '22', '27']
SEEN_NEAR = (b'6 runs: 295 packets came, 8 rings were installed; 5 yes, 1 no\n'
             b'4: 1 runs, the first by seed 25; the shortest script has 58 lines (seed 25), in found/4.script\n')
SEEN_ONCE = (b'no node entered a ring again: tools/playing made the runs, which were not compared with `totem sim`\n'
             b'6 runs: 261 packets came, 7 rings were installed; 6 yes, 0 no\n')


def call(tool, words, given=b'', output=subprocess.PIPE, folder=None):
    """The status, the output and the errors of a tool, called in a folder."""
    came = subprocess.run([os.path.join(TOOLS, tool), *words], input=given, stdout=output, stderr=subprocess.PIPE, cwd=folder,
                          env=process.ENVIRONMENT, timeout=process.allowed(process.SECONDS), check=False)
    return process.Answer(came.returncode, came.stdout, came.stderr)


def try_shrunk(words, given, wanted, told, program):
    """A run becomes this one, with these messages."""
    came = call('shrink', [*words, '--jobs', '1', '--program', program], given)
    is_right = (came.status, came.output) == (0, wanted) and told in came.errors
    return None if is_right else 'came: %s\n  wanted: %r, and told %r' % (came, wanted, told)


def try_recording(program):
    """A recording becomes nine lines, which are audited and explained."""
    folder = os.path.join(EXAMPLES, 'corosync', 'delivered-twice')
    given = call('logs', ['join', folder]).output
    told = b'lines became one of 9\nfault 1.4 1@2 1@5\n\nNo: the run as recorded breaks extended virtual synchrony.\n'
    return try_shrunk([], given, DELIVERED_TWICE, told, program)


def try_story(words, given, wanted, told, _program):
    """A message that breaks 1.3 stays sent if it was, and new names are told with the old ones."""
    with tempfile.TemporaryDirectory() as folder:
        path = os.path.join(folder, 'program')
        with open(path, 'w', encoding='ascii') as it:
            it.write(KNOWS_LITTLE)
        os.chmod(path, 0o755)
        came = call('shrink', [*words, '--jobs', '1', '--program', path], given)
    names = came.errors.partition(b'In words.\n')[2]
    is_right = (came.status, came.output, names) == (0, wanted, told)
    return None if is_right else 'came: %s\n  wanted: %r, and told %r' % (came, wanted, told)


def try_refused(words, given, said, program):
    """A refusal is one line, with nothing written."""
    came = call('shrink', [*words.split(), *([] if '--program' in words else ['--program', program])], given)
    is_right = (came.status, came.output, came.errors.count(b'\n')) == (1, b'', 1) and came.errors.startswith(said.encode())
    return None if is_right else 'came: %s\n  wanted: %r' % (came, said)


def try_words(tool, words, _program):
    """Usage errors get the usage."""
    came = call(tool, words.split())
    is_right = (came.status, came.output) == (64, b'') and came.errors.startswith(b'usage: %s ' % tool.encode())
    return None if is_right else 'came: %s' % came


def try_full(program):
    """If the output accepts no more, the status says so."""
    with open('/dev/full', 'wb') as full:
        came = call('shrink', ['--program', program], THREE, output=full)
    return None if came.status == 4 and came.errors.endswith(b'shrink: write failed\n') else 'came: %s' % came


def try_hunt(words, seen, kept, program):
    """A small hunt sees what it saw before, and keeps these files."""
    with tempfile.TemporaryDirectory() as folder:
        came = call('hunt', [*words, '--jobs', '1', '--program', program], folder=folder)
        found = os.path.join(folder, 'found')
        there = sorted(os.listdir(found)) if os.path.exists(found) else []
    is_right = (came.status, came.output, came.errors, there) == (0, seen, b'', kept)
    return None if is_right else 'came: %s, kept: %s' % (came, there)


def try_seeds(_program):
    """The same seeds make the same scripts everywhere."""
    made = b''.join(call('hunt', ['--show', str(seed)]).output for seed in (0, 17, SEEDS - 1))
    came = hashlib.sha256(made).hexdigest()
    return None if came == SCRIPTS else 'came: scripts of the sum %s' % came


def try_interrupt(program):
    """An interrupt ends a hunt, which prints what it has seen."""
    with tempfile.TemporaryDirectory() as kept:
        words = [os.path.join(TOOLS, 'hunt'), '--seeds', '0', '999999', '--keep', kept, '--jobs', '2', '--program', program]
        # (where the tests run in the background of a shell, interrupts are ignored)
        with subprocess.Popen(words, stdout=subprocess.PIPE, stderr=subprocess.PIPE, env=process.ENVIRONMENT,
                              preexec_fn=partial(signal.signal, signal.SIGINT, signal.SIG_DFL)) as hunt:
            time.sleep(process.allowed(2))
            hunt.send_signal(signal.SIGINT)
            output, errors = hunt.communicate(timeout=process.allowed(process.SECONDS))
    is_right = hunt.returncode == 0 and b' runs: ' in output and errors.endswith(b'hunt: interrupted\n')
    return None if is_right else 'came: status %s, output %r, errors %r' % (hunt.returncode, output, errors)


def try_near_nothing(_program):
    """A hunt near a file that is no script, or that has no line to change, says so."""
    with tempfile.TemporaryDirectory() as folder:
        for text, told in ((YES, b'line 1: the first line is neither `totem-script 1` nor `totem-script 2`'),
                           (b'totem-script 1\nring 4.1 1\nend\n', b'there is nothing after the rings that could be changed')):
            path = os.path.join(folder, 'given')
            with open(path, 'wb') as it:
                it.write(text)
            came = call('hunt', ['--near', path, '--show', '0'])
            if (came.status, came.output, came.errors) != (1, b'', b'hunt: %s, %s\n' % (path.encode(), told)):
                return 'came: %s' % came
    return None


def try_lost_program(_program):
    """A hunt without a program says so."""
    came = call('hunt', ['--seeds', '0', '9', '--program', '/no/such/program'])
    is_right = (came.status, came.output, came.errors) == (1, b'', b'hunt: the program /no/such/program is not there\n')
    return None if is_right else 'came: %s' % came


def shrunk():
    """Runs made small, and a small hunt."""
    yield 'a recording', try_recording
    yield 'three specifications', partial(try_shrunk, [], THREE, SMALL_THREE, b'\nfault 7.1 1@3\n')
    yield 'one of them', partial(try_shrunk, ['--specification', '3'], THREE, SMALL_OWN, b'\nfault 3 1@2\n')
    yield 'a delivery astray', partial(try_shrunk, [], ASTRAY, SMALL_ASTRAY, b'  No change comes before it.\n')
    yield 'a delivery astray for the same reason', partial(try_shrunk, ['--same-places'], ASTRAY, SAME_ASTRAY, b'  Process 1 was in r4.1 then.\n')
    yield 'a delivery that is missing for the same reason', partial(
        try_shrunk, ['--same-places'], PARTED, SMALL_PARTED, b'  Process 2 did not deliver 4.1#1: it went on to r8.2 (2@3).\n')
    yield 'a delivery that is missing for the same reason, with long names', partial(
        try_shrunk, ['--same-places'], LONG_PARTED, SMALL_PARTED, b'  Process 2 did not deliver 4.1#1: it went on to r8.2 (2@3).\n')
    yield 'a message that was sent elsewhere', partial(try_story, [], ELSEWHERE, SMALL_ELSEWHERE, NEW_NAMES)
    yield 'a message that was sent elsewhere, with its names', partial(try_story, ['--keep-names'], ELSEWHERE, KEPT_ELSEWHERE, b'')
    nowhere = ELSEWHERE.replace(b'send r8.3 a 8.3#33\n', b'')
    yield 'a message that was sent nowhere', partial(try_story, [], nowhere, SMALL_NOWHERE, NEW_NAMES.replace(
        b'  r4.1         r8.3\n', b'').replace(b'4.1#1', b'4.3#1'))
    for what, (words, given, said) in REFUSED.items():
        yield what, partial(try_refused, words, given, said)
    for tool, words in (('shrink', '--nothing'), ('shrink', '--jobs 0'), ('hunt', ''), ('hunt', '--seeds 7'), ('hunt', '--seeds 7 3'),
                        ('hunt', '--show -1'), ('hunt', '--near a.script'), ('hunt', '--seeds 0 9 --near'), ('hunt', '--enter-once')):
        yield 'the words %s %s' % (tool, words), partial(try_words, tool, words)
    yield 'a full device', try_full
    yield 'the first seeds', try_seeds
    yield 'a small hunt', partial(try_hunt, ['--seeds', '0', str(SEEDS - 1)], SEEN, [])
    yield 'a hunt near an example', partial(try_hunt, NEAR, SEEN_NEAR, ['4.script', 'noes'])
    yield 'a hunt near an example, without the step that breaks it', partial(try_hunt, [*NEAR, '--enter-once'], SEEN_ONCE, [])
    yield 'a hunt near nothing', try_near_nothing
    yield 'a hunt that is interrupted', try_interrupt
    yield 'a hunt without a program', try_lost_program
