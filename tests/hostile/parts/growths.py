"""Each request for memory refused: the commands over their rows, and arguments that ask for help, for nothing, or
for something that does not exist."""
from harness import rows
from harness.sweep import MEMORY, Sweeper, always, one_of

ROWS = (
    'one-message-delivered-by-both', 'empty-run', 'two-orders-of-two-messages', 'sent-and-open',
    'sent-and-failed', 'sent-and-moved-on', 'partition-that-is-still-open', 'certificate-of-a-good-run', 'the-checker-lists-what-is-open',
    'script-that-loses-a-message', 'script-that-parts-and-joins-a-ring', 'script-of-a-crash-in-recovery',
    'explained-yes', 'explained-no', 'explained-one-missing-delivery', 'explained-7-1-of-several', 'explained-1-4-delivered-twice',
    'message-that-members-lack', 'views-of-a-partition', 'brief-yes', 'explained-refusal', 'explained-script', 'drawn-yes',
    'drawn-no',
)
# The arguments after `totem`, and their status.
WORDS = (
    (('--help',), 0), (('help',), 0), (('help', 'run'), 0), (('--version',), 0), ((), 64), (('audti',), 64),
    (('audit', '--workers', '65'), 64), (('run', '--lose', '60', '--repeat', '41'), 64),
    (('sim', 'more'), 64),
)


def own_answer(tally, row, ended):
    """The row's answer, or that of the run if the row gives only parts of it. If the run has another one,
    records that as wrong and returns None."""
    if not row.is_met_by(ended.answer):
        tally.begin()
        tally.judge('row ' + row.name, 'nothing refused', ended.answer, row.answer or 'status %d' % row.status)
        return None
    return ended.answer


def growths(asked, tally):
    """Out of memory at each refusal, the row's own answer if nothing was refused. With several workers a refusal
    may also have the own answer: what a worker has no memory for, the others do."""
    sweeper = Sweeper(tally, asked.jobs)
    for row in (row for name in ROWS for row in rows.read_asked(name)):
        def make(**told):
            return asked.shim.run([asked.program, *row.words], row.given, **told)

        plain = make()
        own = own_answer(tally, row, plain)
        if own:
            judge = one_of(MEMORY, own) if '--workers' in row.words else always(own)
            sweeper.sweep_alone_and_on('row ' + row.name, make, 'REFUSE_GROWTH', plain.growths, judge)


def words(asked, tally):
    """The same for arguments that need no input. Usage errors may also have their own answer: the library that
    parses the arguments looks for a hint, and leaves it out if memory is refused."""
    sweeper = Sweeper(tally, asked.jobs)
    for given, status in WORDS:
        def make(**told):
            return asked.shim.run([asked.program, *given], **told)

        what = 'words %r' % ' '.join(given)
        plain = make()
        tally.begin()
        tally.judge(what, 'nothing refused', plain.answer.status, status)
        if plain.answer.status == status:
            judge = always(plain.answer) if status == 0 else one_of(MEMORY, plain.answer)
            sweeper.sweep_alone_and_on(what, make, 'REFUSE_GROWTH', plain.growths, judge)
