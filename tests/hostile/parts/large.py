"""Inputs that are very large, or never end: a status, a time and a memory for each."""
import itertools
import os
import threading
from concurrent.futures import ThreadPoolExecutor

from harness import process
from harness.process import Answer

SECONDS = 10
MEGABYTES = 300
# The memory limit of the program: far above what counts as wrong, but it stops what grows without end.
MEGABYTES_GIVEN = 4096
MILLION = 1000000
RUN = b'totem-run 1\nlog 1\nconf r4.1 1\n'
SCRIPT = b'totem-script 1\nring 4.1 1 2 3\n'
ALL = b' '.join(b'%d' % number for number in range(1, 33))
CHANGE = b'conf r4.1 ' + ALL + b'\n'
CLOSED = b'open\nend\n'
# A run in threads that is longer than this many megabytes are enough for.
ENDED = 'run --quiet --nodes 3 --ticks 1000000', [], Answer(3, b'', b'totem: out of memory\n')
MEGABYTES_OF_ENDED = 200


def endless(block):
    """A block, repeated for ever, in pieces of about 64 KiB."""
    return itertools.repeat(block * (65536 // len(block) + 1))


def numbered(form, first, last):
    """A line, or a word, for each number."""
    for at in range(first, last + 1, 4096):
        yield b''.join(form % number for number in range(at, min(at + 4096, last + 1)))


def times(block, count):
    """A block, repeated this often."""
    for at in range(0, count, 4096):
        yield block * min(4096, count - at)


def logs_for_ever():
    """Logs of one entry, for more processes than are allowed."""
    return (b'log %d\nconf r4.1 %d\nopen\n' % (number, number) for number in itertools.count(1))


def run_refused(number, name):
    """The answer to a run's text that is refused with this fault."""
    return Answer(2, b'', b'totem: run refused: %d %s\n' % (number, name))


def certificate_refused(how, number, name):
    """The answer to a certificate that is refused with this fault."""
    return Answer(2, b'', b'totem: certificate %s: %d %s\n' % (how, number, name))


def script_refused(number, name):
    """The answer to a script that is refused with this fault."""
    return Answer(2, b'', b'totem: script refused: %d %s\n' % (number, name))


HEADER, WORD = run_refused(1, b'Header'), run_refused(2, b'Word')
NUMBER, TOO_MANY = run_refused(3, b'Number'), run_refused(8, b'TooMany')
SCRIPT_TOO_MANY = script_refused(9, b'TooMany')


def without_an_end():
    """Inputs that never end, or have one line of a gigabyte: what they are, the command, the pieces, the
    answer. (For an explanation, the first line of errors is compared.)"""
    for verb in ('audit', 'explain', 'check'):
        yield 'yes', verb, endless(b'y\n'), HEADER
        yield '/dev/zero', verb, '/dev/zero', HEADER
    yield 'yes', 'sim', endless(b'y\n'), script_refused(1, b'Header')
    yield '/dev/zero', 'sim', '/dev/zero', SCRIPT_TOO_MANY
    for verb in ('audit', 'explain'):
        yield 'an endless line', verb, itertools.chain([RUN], endless(b'1')), WORD
        yield 'an endless number', verb, itertools.chain([RUN, b'send r'], endless(b'4')), NUMBER
        yield 'endless spaces', verb, itertools.chain([RUN, b'send'], endless(b' ')), WORD
        yield 'a gigabyte behind a word', verb, itertools.chain([RUN, b'dlv '], times(b'r4.1', 1 << 28)), WORD
        yield 'endless members', verb, itertools.chain([RUN[:-1]], numbered(b' %d', 2, 70000)), TOO_MANY
        yield 'endless sends', verb, itertools.chain([RUN], endless(b'send r4.1 a 4.1#1\n')), TOO_MANY
        yield 'logs for ever', verb, itertools.chain([b'totem-run 1\n'], logs_for_ever()), TOO_MANY
    yield 'endless changes', 'audit', itertools.chain([RUN], endless(CHANGE)), TOO_MANY
    yield 'the first line for ever', 'audit', endless(b'totem-run 1\n'), WORD
    yield 'an endless script', 'sim', itertools.chain([SCRIPT], endless(b'timer 1\n')), SCRIPT_TOO_MANY
    certified = RUN + CLOSED + b'totem-cert 1\npos 1'
    yield 'endless positions', 'check', itertools.chain([certified], numbered(b' %d', 1, 3 * MILLION)), \
        certificate_refused(b'unreadable', 6, b'TooMany')
    yield 'a certificate of one endless number', 'check', itertools.chain([certified, b' '], endless(b'7')), \
        certificate_refused(b'unreadable', 3, b'Number')


def at_the_limits():
    """Inputs as large as allowed, or larger by one: the same. For a verdict, only the status is
    compared."""
    sends = b'send r4.1 a 4.1#%d\n'
    for verb in ('audit', 'explain'):
        yield 'a million entries of one log', verb, \
            itertools.chain([RUN], numbered(sends, 2, MILLION), [CLOSED]), 0
    yield 'a million entries and one', 'audit', \
        itertools.chain([RUN], numbered(sends, 1, MILLION), [CLOSED]), TOO_MANY
    yield 'a million entries, one of them twice', 'audit', \
        itertools.chain([RUN], numbered(sends, 2, MILLION - 1), [sends % 2, CLOSED]), 1
    yield 'a million changes with 32 members', 'audit', \
        itertools.chain([b'totem-run 1\nlog 1\n'], times(CHANGE, MILLION), [CLOSED]), \
        run_refused(9, b'MissingLog 2')
    yield 'a million positions of one entry', 'check', \
        itertools.chain([RUN, CLOSED, b'totem-cert 1\npos 1'], numbered(b' %d', 1, MILLION), [b'\nend\n']), \
        certificate_refused(b'refused', 1, b'Count')
    for verb in ('audit', 'explain'):
        yield 'a fault in each of 100,000 rings', verb, \
            itertools.chain([RUN], many_faults(100000), [CLOSED]), 1
    yield 'a certificate of 10,000 entries', 'check', \
        itertools.chain([RUN], numbered(sends, 2, 10000), [CLOSED, b'totem-cert 1\npos 1'],
                        numbered(b' %d', 1, 10000), [b'\nend\n']), 0
    yield 'a script of 65,536 bytes', 'sim', [script_of(65536)], 0
    yield 'a script of 65,537 bytes', 'sim', [script_of(65537)], SCRIPT_TOO_MANY


def many_faults(count):
    """This many rings, one after another, in each of which a process sends a message and never delivers it."""
    for ring in range(4, 4 * count + 4, 4):
        later = ring + 4
        yield b'send r%d.1 a %d.1#1\nconf t%d.1/1 1\nconf r%d.1 1\n' % (ring, ring, later, later)


def script_of(size):
    """A script of timers that has this many bytes: lines of eight bytes, and as many of five as it takes."""
    room = size - len(SCRIPT) - len(b'end\n')
    joins = 5 * room % 8
    return SCRIPT + b'join\n' * joins + b'timer 1\n' * ((room - 5 * joins) // 8) + b'end\n'


def long_scripts():
    """Small scripts that make much: the same."""
    ring = b'totem-script 1\nring 4.1 ' + ALL + b'\n'
    run, end = b'run 100000\n', b'end\n'
    yield 'a token that goes round 100,000 times', 'sim', [SCRIPT, run, end], 0
    yield 'a script of repeats', 'sim', [SCRIPT, b'repeat 1\n' * 7000, end], 0
    yield 'a script of timers that cross', 'sim', [ring, b'timer 1\ntimer 2\n' * 3000, run, end], 0
    yield '600 messages and 118,000 turns', 'sim', [SCRIPT, b'submit 1 a x\nrun 30\n' * 600, run, end], 0
    submits = b''.join(b'submit %d a x\n' % (at % 32 + 1) for at in range(1500))
    yield '32 nodes that submit', 'sim', [ring, submits, run, end], 0
    yield 'a script of many runs', 'sim', [SCRIPT, run * 100, end], 0


def feed(file, pieces, is_over):
    """Writes the pieces until there are no more, or nobody reads them."""
    try:
        for piece in pieces:
            while piece and not is_over.is_set():
                piece = piece[os.write(file, piece):]
            if is_over.is_set():
                break
    except BrokenPipeError:
        pass
    finally:
        os.close(file)


def run(words, pieces):
    """Runs a program over a file of this name, or over pieces that it gets through a pipe."""
    if isinstance(pieces, str):
        file = os.open(pieces, os.O_RDONLY)
        try:
            return process.run(words, seconds=SECONDS, others={0: file})
        finally:
            os.close(file)
    reader, writer = os.pipe()
    is_over = threading.Event()
    feeder = threading.Thread(target=feed, args=(writer, pieces, is_over))
    feeder.start()
    try:
        return process.run(words, seconds=SECONDS, others={0: reader})
    finally:
        is_over.set()
        os.close(reader)
        feeder.join()


def flaw(verb, wanted, answer, usage):
    """What was expected, if it isn't what came."""
    errors = answer.errors
    if verb == 'explain':
        errors = b''.join(errors.splitlines(True)[:1])
    if isinstance(wanted, int):
        is_right = answer.status == wanted and not errors
    else:
        is_right = Answer(answer.status, answer.output, errors) == wanted
    if not is_right:
        return wanted if isinstance(wanted, Answer) else 'status %d and no errors' % wanted
    return None if usage.peak <= MEGABYTES << 20 else 'at most %d MB, not %d' % (MEGABYTES, usage.peak >> 20)


def large(asked, tally):
    """Each answer is known, or at least its status, and comes within some seconds and some megabytes."""
    cases = [*without_an_end(), *at_the_limits(), *long_scripts(), ('a run that memory does not suffice for', *ENDED)]

    def one(case):
        what, verb, pieces, wanted = case
        given = MEGABYTES_OF_ENDED if verb == ENDED[0] else MEGABYTES_GIVEN
        limited = ['/bin/sh', '-c', 'ulimit -v %d; exec "$0" "$@"' % (given << 10), asked.program]
        return (what, verb, wanted, *run(limited + verb.split(), pieces))

    tally.begin()
    with ThreadPoolExecutor(asked.jobs) as pool:
        for what, verb, wanted, answer, usage in pool.map(one, cases):
            tally.tried += 1
            why = flaw(verb, wanted, answer, usage)
            took = usage.seconds, usage.peak >> 20
            print('  %-42s %-8s status %s, %5.2f s, %3d MB' % (what, verb, answer.status, *took), flush=True)
            if why:
                tally.fail(what, 'totem ' + verb, answer, why)
