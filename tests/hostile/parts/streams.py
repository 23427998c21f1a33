"""Streams that fail, give or take one byte at a time, are interrupted, closed, full, or have no reader."""
import os
import re
from concurrent.futures import ThreadPoolExecutor
from functools import partial

from harness import process, rows
from harness.forms import LINES
from harness.process import Answer
from parts.growths import own_answer

# Rows whose whole input is read, and rows that are refused before its end.
READ_TO_THE_END = (
    'one-message-delivered-by-both', 'empty-run', 'two-orders-of-two-messages', 'sent-and-open',
    'sent-and-failed', 'certificate-of-a-good-run', 'script-that-loses-a-message',
    'script-that-repeats-a-token', 'script-of-a-crash-in-recovery', 'explained-yes', 'explained-no',
)
REFUSED = (
    'number-with-a-leading-zero', 'script-without-a-ring',
    'certificate-with-a-shared-number', 'explained-refusal', 'explained-script',
)
WORDS = (('--help',), ('--version',), ('help', 'sim'), ('audti',))
READ_FAILED = Answer(4, b'', b'totem: read failed\n')
NO_WRITE = b'totem: write failed\n'


def is_shown(own, came):
    """An explanation of refused input, which shows the line as far as it was read."""
    first = own.errors.split(b'\n')[0] + b'\n'
    lines = came.errors.removeprefix(first)
    return came.errors.startswith(first) and re.fullmatch(LINES.encode(), lines) and \
        (came.status, came.output) == (own.status, own.output)


class Streams:
    """Tries one row, or some arguments, in parallel."""

    def __init__(self, asked, tally, what, words, given, own):
        self.asked, self.tally = asked, tally
        self.what, self.words, self.given, self.own = what, [asked.program, *words], given, own
        tally.begin()

    def tries(self, wanted):
        """Runs with variables. `wanted` are pairs of variables and the right answers, or a function that says
        whether an answer is right. Returns how the runs ended."""
        def one(told):
            return self.asked.shim.run(self.words, self.given, **told)

        with ThreadPoolExecutor(self.asked.jobs) as pool:
            runs = list(pool.map(one, [told for told, _ in wanted]))
        for (told, right), ended in zip(wanted, runs):
            self.tally.tried += 1
            if not any(it(ended.answer) if callable(it) else it == ended.answer for it in right):
                done = ' '.join('%s=%s' % it for it in told.items())
                self.tally.fail(self.what, done, ended.answer, ' or '.join(map(str, right)))
        return runs

    def source(self, right):
        """The source fails at each byte, and at the end, which takes a read too."""
        self.tries([({'FAIL_READ': at}, right) for at in range(len(self.given) + 1)])

    def sinks(self):
        """The output, and then the errors, fail at each byte. What went out before is there; a failure of the errors
        is ignored."""
        status, output, errors = self.own.status, self.own.output, self.own.errors
        self.tries([({'FAIL_WRITE': at}, [Answer(4, output[:at], NO_WRITE)]) for at in range(len(output))])
        self.tries([({'FAIL_WRITE': len(output)}, [self.own])])
        ends = range(len(errors) + 1)
        self.tries([({'FAIL_ERRORS': at}, [Answer(status, output, errors[:at])]) for at in ends])
        self.tries([({'FAIL_WRITE': 0, 'FAIL_ERRORS': 0}, [Answer(4 if output else status, b'', b'')])])

    def slow(self, plain, right):
        """Streams that move one byte at a time, and calls that are interrupted, change nothing."""
        size = len(self.given) + len(self.own.output) + len(self.own.errors)
        [slow] = self.tries([({'SHORT_IO': 1}, right)])
        if slow.reads + slow.writes <= plain.reads + plain.writes and size > 2:
            self.tally.fail(self.what, 'SHORT_IO=1', 'no more calls than else', 'more calls')
        calls = range(1, plain.reads + plain.writes + 1)
        runs = self.tries([({'INTERRUPT': at}, right) for at in calls])
        if not any(ended.failures for ended in runs):
            self.tally.fail(self.what, 'INTERRUPT', 'no call was interrupted', 'one at least')
        self.tries([({'INTERRUPT': at, 'SHORT_IO': 1}, right) for at in range(1, size, 7)])


def own_answers(row, own):
    """The row's answers: for an explanation of refused input also those that show less of the line."""
    return [partial(is_shown, own)] if row.name == 'explained-refusal' else [own]


def rights_of(row, own):
    """The right answers if a row's source fails at some byte."""
    return [READ_FAILED] if row.name in READ_TO_THE_END else [READ_FAILED, *own_answers(row, own)]


def of_rows(asked, tally):
    """All of these for each row."""
    for name in READ_TO_THE_END + REFUSED:
        row = rows.read(name)
        plain = asked.shim.run([asked.program, *row.words], row.given)
        own = own_answer(tally, row, plain)
        if own:
            streams = Streams(asked, tally, 'row ' + name, row.words, row.given, own)
            streams.source(rights_of(row, own))
            streams.sinks()
            streams.slow(plain, own_answers(row, own))


def of_words(asked, tally):
    """The same for arguments that need no input."""
    for words in WORDS:
        plain = asked.shim.run([asked.program, *words])
        streams = Streams(asked, tally, 'words %r' % ' '.join(words), words, b'', plain.answer)
        streams.sinks()
        streams.slow(plain, [plain.answer])


def odd_streams(own):
    """The odd streams of a row: in words, as numbers of streams with their files (None: closed), and the
    expected answer."""
    status, output = own.status, own.output
    refused = b'totem: run refused: 7 Truncated\n'
    full, folder, nothing = '/dev/full', '/', '/dev/null'
    yield 'no output', {1: None}, Answer(4, b'', NO_WRITE)
    yield 'a full device for the output', {1: full}, Answer(4, b'', NO_WRITE)
    yield 'no input', {0: None}, READ_FAILED
    yield 'a folder for the input', {0: folder}, READ_FAILED
    yield 'no errors', {2: None}, Answer(status, output, b'')
    yield 'a full device for the errors', {2: full}, Answer(status, output, b'')
    yield 'an empty input', {0: nothing}, Answer(2, b'', refused)
    yield 'an empty input and no errors', {0: nothing, 2: None}, Answer(2, b'', b'')
    yield 'neither output nor errors', {1: None, 2: None}, Answer(4, b'', b'')
    yield 'neither input nor errors', {0: None, 2: None}, Answer(4, b'', b'')
    yield 'no stream at all', {0: None, 1: None, 2: None}, Answer(4, b'', b'')


def opened(path):
    """Opens a file: a device for reading and writing, any other one for reading."""
    return os.open(path, os.O_RDWR if path.startswith('/dev') else os.O_RDONLY)


def of_odd_streams(asked, tally):
    """Streams that are closed, full, empty or a folder."""
    tally.begin()
    for name in ('one-message-delivered-by-both',):
        row = rows.read(name)
        words = [asked.program, *row.words]
        own, _ = process.run(words, row.given)
        for done, streams, wanted in odd_streams(own):
            others = {number: path and opened(path) for number, path in streams.items()}
            came, _ = process.run(words, row.given, others=others)
            tally.judge('row ' + name, done, came, wanted)
            for file in filter(None, others.values()):
                os.close(file)


def of_an_unread_pipe(asked, tally):
    """A pipe that nobody reads: the signal ends the program, or, if it is ignored, the write
    fails."""
    tally.begin()
    row = rows.read('one-message-delivered-by-both')
    reader, writer = os.pipe()
    os.close(reader)
    came, _ = process.run([asked.program, *row.words], row.given, others={1: writer})
    os.close(writer)
    killed, failed = Answer('signal 13', b'', b''), Answer(4, b'', NO_WRITE)
    wanted = killed if came == killed else failed
    tally.judge('row ' + row.name, 'a pipe that nobody reads', came, wanted)


def streams(asked, tally):
    """Failed reads, failed writes, failed errors, slow, interrupted, closed, full and unread streams."""
    of_rows(asked, tally)
    of_words(asked, tally)
    of_odd_streams(asked, tally)
    of_an_unread_pipe(asked, tally)
