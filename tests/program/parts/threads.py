"""Runs of nodes in threads, and what the model of tools/playing works out, which shares no code with the program."""
import os
import sys
from collections import Counter
from functools import partial
from itertools import zip_longest

from harness import process
from harness.counted import counted
from harness.rows import REPOSITORY
from parts.counts import logs_of

sys.path.insert(0, os.path.join(REPOSITORY, 'tools'))
from playing.network import Network, Plan  # noqa: E402  pylint: disable=wrong-import-position

SECONDS = 60
CERTIFICATE = b'totem-cert 1\n'
# How many messages the clients submit in a run with the default number of ticks.
SUBMITTED = 500
# Arguments of runs, with the ends of each range among them.
RUNS = (
    '', '--lose 10 --repeat 20 --hold 3', '--nodes 1 --ticks 80',
    '--nodes 8 --ticks 800 --seed 18446744073709551615', '--nodes 32 --ticks 80 --hold 255',
    '--ticks 80 --lose 60 --repeat 40', '--ticks 80 --lose 100', '--ticks 80 --repeat 100',
    '--nodes 32 --ticks 1 --seed 0 --lose 0 --repeat 0 --hold 0', '--nodes 2 --ticks 2000 --repeat 100 --quiet',
)
# Runs whose rings break and form again: how many rings are formed, how many of their configurations merge two others, and how many deliveries
# are in transitional configurations.
BREAKING = {
    '--nodes 3 --lose 20': (6, 1, 69),
    '--nodes 2 --lose 30': (23, 5, 36),
    '--lose 10': (1, 0, 3),
    '--nodes 8 --lose 15 --ticks 2000': (1, 0, 144),
    '--nodes 3 --lose 15 --ticks 40000': (14, 3, 172),
}
ROUGH = (
    '--nodes 3 --lose 5', '--nodes 3 --lose 2 --repeat 5 --hold 1', '--nodes 8 --lose 2 --repeat 5 --hold 1',
    '--nodes 16 --lose 1 --repeat 5 --hold 1',
)
SEEDS = range(1, 11)
# Smooth runs whose ring is woven.
WOVEN = ('', '--nodes 1', '--nodes 16 --ticks 800', '--nodes 32 --ticks 400', '--lose 100 --ticks 400')
# Nodes, what the network does, and how many of ten messages have to be accepted, and delivered by all.
DELIVERED = (
    (3, '', 9), (8, '', 9), (16, '', 9), (32, '', 9),
    (3, '--lose 1 --repeat 1', 8), (8, '--lose 1 --repeat 1', 8), (16, '--lose 1 --repeat 1', 8),
    (3, '--lose 1 --repeat 5 --hold 1', 8), (8, '--lose 1 --repeat 5 --hold 1', 8),
)


def number_of(words, name, default=0):
    """The number that these arguments give for an option."""
    words = words.split()
    return int(words[words.index(name) + 1]) if name in words else default


def predicted(words):
    """The run that these arguments ask for, as the model works it out, and what is said of it."""
    numbers = {name: number_of(words, '--' + name, default) for name, default in Plan()._asdict().items()}
    network = Network(Plan(**numbers))
    network.run()
    return network.text, b'totem: %s\n' % network.summary.encode()


def what_differs(words, made):
    """How the answer differs from what the model works out, or None. A woven run is not printed."""
    text, summary = predicted(words)
    if made.errors != (b'' if '--quiet' in words else summary):
        return 'said %r; predicted: %r' % (made.errors, summary)
    if '--weave' in words or made.output == text:
        return None
    lines = zip_longest(made.output.splitlines(), text.splitlines())
    return 'line %d is %r; predicted: %r' % next((number, *pair) for number, pair in enumerate(lines, 1) if pair[0] != pair[1])


def made_by(program, words):
    """Runs nodes in threads. Returns the answer, and what is wrong with it."""
    made, _ = process.run([program, 'run', *words.split()], seconds=SECONDS)
    return made, what_differs(words, made) if made.status == 0 else 'came: %s' % made


def try_judged(words, program):
    """Makes a run, has it judged, and has the checker accept the certificate of a yes. A no is printed with its run, for people to look
    at."""
    made, wrong = made_by(program, words)
    if wrong:
        return wrong
    report, _ = process.run([program, 'audit'], made.output)
    if report.status == 1 and report.output.startswith(b'verdict no\n') and not report.errors:
        print('a no: totem run %s\n%s\n%s' % (words, report.output.decode(), made.output.decode()), flush=True)
        return None
    if report.status != 0 or CERTIFICATE not in report.output:
        return 'the audit: %s' % report
    certificate = report.output[report.output.index(CERTIFICATE):]
    checked, _ = process.run([program, 'check'], made.output + certificate)
    return None if checked.status == 0 else 'the check: %s' % checked


def try_breaking(words, wanted, program):
    """The same for a run whose rings break and form again, with these counts."""
    wrong = try_judged(words, program)
    made, _ = process.run([program, 'run', *words.split()], seconds=SECONDS)
    counts = dict(counted(logs_of(made.output), None))
    came = counts['regular'] - 1, counts['merge'], counts['transitional']
    return wrong or (None if came == wanted else 'rings formed, merges, transitional deliveries: %r; wanted: %r' % (came, wanted))


def in_all_weathers(command, tried):
    """Short runs with each seed, over each kind of network."""
    for seed in SEEDS:
        for weather in ROUGH:
            words = '--ticks 240 --seed %d %s' % (seed, weather)
            yield command + words, partial(tried, words)


def judged():
    """What threads recorded is what the model works out, and can be judged."""
    for words in RUNS:
        yield 'totem run ' + words, partial(try_judged, words)
    for words, wanted in BREAKING.items():
        yield 'totem run ' + words, partial(try_breaking, words, wanted)
    yield from in_all_weathers('totem run ', try_judged)


def try_delivered(nodes, weather, of_ten, program):
    """Enough of ten messages that clients submit are sent, and enough of ten that are sent are delivered by all nodes;
    the nodes stay in one configuration if nothing is lost or held."""
    made, wrong = made_by(program, '--nodes %d %s' % (nodes, weather))
    if wrong:
        return wrong
    lines = [line.split() for line in made.output.splitlines()]
    kinds = Counter(line[0] for line in lines)
    deliveries = Counter(line[2] for line in lines if line[0] == b'dlv')
    by_all = sum(count == nodes for count in deliveries.values())
    stays = kinds[b'conf'] == nodes or weather
    is_right = stays and 10 * kinds[b'send'] >= of_ten * SUBMITTED and 10 * by_all >= of_ten * kinds[b'send']
    told = '%d changes, %d sent, %d delivered by all' % (kinds[b'conf'], kinds[b'send'], by_all)
    return None if is_right else '%s; wanted: %d of ten' % (told, of_ten)


def delivered():
    """Messages are delivered by all."""
    for nodes, weather, of_ten in DELIVERED:
        yield 'totem run --nodes %d %s' % (nodes, weather), partial(try_delivered, nodes, weather, of_ten)


def read_weave(text):
    """How many steps were woven, and what each member delivered to its node. None if the text has another form."""
    lines = text.split(b'\n')
    words = [line.split(b' ') for line in lines[:-2]]
    if lines[-2:] != [b'end', b''] or not words or words[0][0] != b'woven' or any(line[0] != b'handed' for line in words[1:]):
        return None
    return int(words[0][1]), {int(line[1]): line[2:] for line in words[1:]}


def what_is_wrong(handed, nodes):
    """What is wrong with the lists that the members of ring 4.1 delivered to their nodes. Of any two one must be a prefix of the
    other, and each must have the numbers from 1 on."""
    if sorted(handed) != list(range(1, nodes + 1)):
        return 'members %s' % sorted(handed)
    longest = max(handed.values(), key=len)
    if longest != [b'4.1#%d' % number for number in range(1, len(longest) + 1)]:
        return 'delivered to the nodes: %s' % longest
    return next(('%d delivered %s' % (node, names) for node, names in handed.items() if names != longest[:len(names)]), None)


def try_woven(words, program):
    """Weaves the books of a run. No call is left over: all nodes begin on ring 4.1, none comes back to it, and a packet
    comes after it was sent, so the order in time is a schedule."""
    made, wrong = made_by(program, '--weave ' + words)
    told = read_weave(made.output)
    if wrong or told is None:
        return wrong or 'came: %s' % made
    steps, handed = told
    nodes = number_of(words, '--nodes', 3)
    if steps < sum(map(len, handed.values())) or (not words and steps < SUBMITTED):
        return '%d steps; delivered to the nodes: %s' % (steps, handed)
    return what_is_wrong(handed, nodes)


def woven():
    """What threads did on ring 4.1 is one schedule."""
    for words in WOVEN:
        yield 'totem run --weave ' + words, partial(try_woven, words)
    yield from in_all_weathers('totem run --weave ', try_woven)
