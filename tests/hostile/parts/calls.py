"""Calls that are repeated if they were refused memory: each test of a test program, whichever request is
refused."""
import re

from harness import process
from harness.sweep import Sweeper

# What a test of `starved` prints if it could not make what it needs: a fault, or its name in quotes.
NOT_MADE = re.compile(rb'error: (AllocError|Memory|"Memory")\nthe test failed: its result gives status 1\n')
PASSES = 'the test passes'


def passes(ended):
    """For a test that repeats refused calls: it passes, whatever was refused."""
    return None if ended.answer.status == 0 else PASSES


def is_starved_rightly(ended):
    """For a test whose calls take no memory, when the k-th request and all later ones are refused: it could
    not make what it needs, and says so; or it passes, and nothing was refused except its last request,
    which it makes after the calls."""
    status = ended.answer.status
    if ended.met and status == 101 and NOT_MADE.fullmatch(ended.answer.errors):
        return None
    if status:
        return 'the test passes, or says that there was no memory for what it needs'
    return None if ended.refused <= 1 else 'one refusal at most where the test passes, not %d' % ended.refused


def sweep_starved(sweeper, what, make, count):
    """In one run the calls must have been made and only the last request refused."""
    ended = sweeper.sweep(what, make, 'REFUSE_GROWTH', count, is_starved_rightly, follows=True)
    called = sum(it.refused == 1 and it.answer.status == 0 for it in ended)
    if called != 1:
        wanted = 'one run whose last request alone is refused'
        sweeper.tally.fail(what, 'calls without memory', '%d such runs' % called, wanted)


def calls(asked, tally):
    """Runs each test in a process of its own. Those of `forged` run once, with nothing refused."""
    sweeper = Sweeper(tally, asked.jobs)
    listed, _ = process.run([asked.tests, '--list'])
    for name in re.findall(r'(?m)^(\S+): test$', listed.output.decode()):
        def make(**told):
            return asked.shim.run([asked.tests, name], **told)

        what = 'test ' + name
        plain = make()
        tally.begin()
        tally.judge(what, 'nothing refused', plain.answer if plain.answer.status else PASSES, PASSES)
        if plain.answer.status or name.startswith('forged::'):
            continue
        if name.startswith('starved::'):
            sweep_starved(sweeper, what, make, plain.growths)
        else:
            sweeper.sweep(what, make, 'REFUSE_GROWTH', plain.growths, passes)
