"""Threads refused, and memory refused in several threads: the audit's workers, and a run of nodes."""
import re
from dataclasses import replace

from harness import process, rows
from harness.sweep import MEMORY, Sweeper, one_of

MANY_JOBS = 'many-rings-three-faults'
WORKERS = ('--workers', '7')
# What a run says of itself; without memory for the line it is left out.
SUMMARY = re.compile(rb'totem: messages: .* sent in the last tick\n')
NODES = ('run', '--nodes', '3', '--ticks', '24', '--repeat', '5')


def workers(asked, tally):
    """Audits with seven workers. If they are refused memory: out of memory, or their own answer, since
    what a worker can't do is done again. If they are refused threads: their own answer."""
    sweeper = Sweeper(tally, asked.jobs)
    row = rows.read(MANY_JOBS)
    for verb, own in (('audit', row.answer), ('explain', None)):
        what = 'row %s by %r' % (row.name, ' '.join((verb, *WORKERS)))

        def make(**told):
            return asked.shim.run([asked.program, verb, *WORKERS], row.given, **told)

        plain = make()
        own = own or process.run([asked.program, verb], row.given)[0]
        tally.begin()
        tally.judge(what, 'nothing refused', plain.answer, own)
        alone = asked.shim.run([asked.program, verb, '--workers', '1'], row.given)
        tally.judge(what, 'threads that one worker asks for', alone.threads, 0)
        sweeper.sweep_alone_and_on(what, make, 'REFUSE_GROWTH', plain.growths, one_of(MEMORY, own))
        sweeper.sweep_alone_and_on(what, make, 'REFUSE_THREAD', plain.threads, one_of(own))


def is_audited(asked, output):
    """Whether the audit can read it as a run."""
    return asked.shim.run([asked.program, 'audit'], output).answer.status in (0, 1)


def is_woven(_asked, output):
    """Whether it is a complete woven ring."""
    return output.startswith(b'woven ') and output.endswith(b'\nend\n')


# Arguments of runs in threads, and what they make.
THREADS = ((NODES, 'a run that is audited', is_audited), (NODES + ('--weave',), 'a woven ring', is_woven))


def threads(asked, tally):
    """A run of nodes in threads: out of memory, or a run that the audit can read or whose ring is woven. It never hangs."""
    for words, wanted, is_right in THREADS:
        threads_of(asked, tally, words, wanted, is_right)


def threads_of(asked, tally, words, wanted, is_right):
    """The same for these arguments."""
    sweeper = Sweeper(tally, asked.jobs)
    what = 'words %r' % ' '.join(words)

    def make(**told):
        return asked.shim.run([asked.program, *words], **told)

    def judge(ended):
        # (a ring is woven after its run has said what came of it)
        if ended.met and replace(ended.answer, errors=SUMMARY.sub(b'', ended.answer.errors, count=1)) == MEMORY:
            return None
        is_told = SUMMARY.fullmatch(ended.answer.errors) or ended.met and not ended.answer.errors
        if ended.answer.status == 0 and is_told and is_right(asked, ended.answer.output):
            return None
        return '%s%s' % ('want of memory, or ' if ended.met else '', wanted)

    for name in ('growths', 'threads'):
        count = getattr(make(), name)
        ended = sweeper.sweep_alone_and_on(what, make, 'REFUSE_' + name[:-1].upper(), count, judge)
        if not any(it.answer == MEMORY for it in ended):
            tally.fail(what, 'refused ' + name, '%s each time' % wanted, 'want of memory at least once')
