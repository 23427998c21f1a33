"""Broken texts: each row's text cut, doubled and changed at each byte, and many seeded changes."""
import re
from functools import partial
from xml.etree import ElementTree

from harness import rows
from harness.changes import Changes
from harness.process import Answer
from harness.trials import Case, faults, left_open, side_by_side

# Rows of longer texts are not changed byte by byte.
LONGEST = 1000
OTHER_BYTES = (0x20, 0x0a, 0x30, 0x39, 0xff)
# The beginning of a certificate's text, in either version.
CERTIFICATE = b'totem-cert '
TRUNCATED = {
    'run': b'totem: run refused: 7 Truncated\n',
    'certificate': b'totem: certificate unreadable: 5 Truncated\n',
    'script': b'totem: script refused: 8 Truncated\n',
}
MORE = {
    'run': b'totem: run refused: 6 End\n',
    'certificate': b'totem: certificate unreadable: 7 End\n',
    'script': b'totem: script refused: 7 End\n',
}
UNFIT = {
    'run': rb'totem: run refused: [1-6] [A-Za-z]+\n',
    'certificate': rb'totem: certificate unreadable: [1-4] [A-Za-z]+\n',
    'script': rb'totem: script refused: [1-5] [A-Za-z]+\n',
}


def is_text(row):
    """Whether the row's input is read to its end: a no is a text too, and so is what the checker refuses."""
    return row.status in (0, 1) or bool(row.answer and b'certificate refused' in row.answer.errors)


def kind_at(row, at):
    """The kind of text at a byte of a row's input."""
    if row.verb == 'sim':
        return 'script'
    return 'certificate' if row.verb == 'check' and at >= row.given.index(CERTIFICATE) else 'run'


def place_of(text, at):
    """What an explanation says of the place of a byte: its line and its column, from 1 on."""
    front = text[:at]
    return b'line %d, column %d:' % (front.count(b'\n') + 1, at - front.rfind(b'\n'))


def cases_at(row, at):
    """The cases at a byte of a row's text, each with the form of its line of errors, if that is known; for
    `explain` only those with a known form. (After the last byte there is the case in which the text comes twice.)"""
    text = row.given

    def case(done, changed, pattern=None):
        return Case(row.name, done, row.words, changed), pattern

    if at == len(text):
        yield case('doubled', text + text, re.escape(MORE[kind_at(row, at)]))
        return
    kind = kind_at(row, at)
    front, behind = text[:at], text[at + 1:]
    yield case('cut at %d' % at, front, re.escape(TRUNCATED[kind]))
    # A script is judged line by line: its last line then has no end.
    is_cut = kind == 'script' and not behind
    yield case('byte %d is 00' % at, front + b'\0' + behind, re.escape(TRUNCATED[kind]) if is_cut else UNFIT[kind])
    if row.verb == 'explain':
        return
    for byte in OTHER_BYTES:
        if text[at] != byte:
            yield case('byte %d is %02x' % (at, byte), front + bytes([byte]) + behind)
    yield case('without byte %d' % at, front + behind)


def try_byte(places, trial, number):
    """Tries the cases at one byte of one row."""
    row, at = places[number]
    for case, pattern in cases_at(row, at):
        answer = trial.tried(case)
        if not answer or not pattern:
            continue
        line, _, told = answer.errors.partition(b'\n')
        is_right = answer.status == 2 and bool(re.fullmatch(pattern, line + b'\n'))
        trial.wants(case, answer, is_right, 'status 2 and errors of the form %r' % pattern)
        if case.words[0] == 'explain' and is_right:
            place = place_of(case.text, at)
            trial.wants(case, answer, told.startswith(place + b'\n'), 'the place %r' % place)


def explained(row):
    """The same row, for `explain`."""
    words = tuple(word for word in row.words[1:] if word != '--brief')
    return rows.Row(row.name, ('explain', *words), row.given, row.status, None)


def is_picture(text):
    """Whether an XML reader can parse the text, and it has a title and a description."""
    try:
        root = ElementTree.fromstring(text)
    except ElementTree.ParseError:
        return False
    return [child.tag.rpartition('}')[2] for child in root][:2] == ['title', 'desc']


def try_picture(trial, case, audited):
    """A picture of a run: it is well formed, and has the status of the audit."""
    drawn = Case(case.row, case.done, ('explain', '--svg'), case.text)
    came = trial.answer(drawn)
    is_right = came and came.status == audited.status and came.errors.startswith(audited.errors)
    if is_right and came.status != 2:
        is_right = is_picture(came.output)
    trial.wants(drawn, came, is_right, 'a picture, or the line of errors, and the status of %s' % audited)


def try_run(trial, case, number):
    """A run: the audit gives the same answer with several workers; the checker says yes to its
    certificate, an explanation has its verdict and its faults, and a picture is well formed."""
    answer = trial.tried(case)
    if not answer:
        return
    if answer.status == 0:
        report = answer.output
        checked = Case(case.row, case.done, ('check',), case.text + report[report.index(CERTIFICATE):])
        wanted = b'\n'.join([b'verdict yes', *left_open(report), b'end', b''])
        came = trial.answer(checked)
        wanted = Answer(0, wanted, b'')
        trial.wants(checked, came, came == wanted, wanted)
    if answer.status == 1 or number % 8 == 0:
        again = Case(case.row, case.done, ('audit', '--workers', str(2 + number % 7)), case.text)
        came = trial.answer(again)
        trial.wants(again, came, came == answer, answer)
    if answer.status == 1 or number % 8 == 1:
        told = Case(case.row, case.done, ('explain',), case.text)
        came = trial.answer(told)
        is_same = came and came.status == answer.status and came.errors.startswith(answer.errors) and \
            faults(came.output) == faults(answer.output)
        trial.wants(told, came, is_same, 'the status, the faults and the line of errors of %s' % answer)
    if answer.status == 1 or number % 8 == 2:
        try_picture(trial, case, answer)


def try_script(trial, case, number):
    """A script: the audit can read the run that it makes. An explanation follows it to the same run, or
    prints the same line of errors and then the script's line."""
    answer = trial.tried(case)
    if answer and number % 8 == 0:
        told = Case(case.row, case.done, ('explain', '--script'), case.text)
        came = trial.answer(told)
        is_same = came and (came.status, came.output) == (answer.status, answer.output) and \
            (came.errors == answer.errors if answer.status == 0 else came.errors.startswith(answer.errors + b'line '))
        trial.wants(told, came, is_same, 'what sim answers, and the line where it refuses: %s' % answer)
    if answer and answer.status == 0:
        audited = Case(case.row, case.done, ('audit',), answer.output)
        came = trial.answer(audited)
        trial.wants(audited, came, came and came.status in (0, 1), 'a verdict')


def try_change(corpus, changes, trial, number):
    """Tries the change of this number."""
    chosen, text = changes.changed(number)
    row = corpus[chosen]
    case = Case(row.name, 'change %d of seed %d' % (number, changes.seed), row.words, text)
    if row.verb == 'audit' and '--brief' not in row.words:
        try_run(trial, case, number)
    elif row.verb == 'sim':
        try_script(trial, case, number)
    else:
        trial.tried(case)


def broken(asked, tally):
    """Known statuses, answers of known forms, bounded time and memory; and for some broken texts the known
    answer."""
    corpus = rows.read_texts()
    small = [row for row in corpus if len(row.given) <= LONGEST and row.verb != 'explain' and is_text(row)]
    small += [explained(row) for row in small if row.verb == 'audit']
    places = [(row, at) for row in small for at in range(len(row.given) + 1)]
    found = side_by_side(asked.jobs, asked.program, partial(try_byte, places), len(places))
    found.tell('each byte', tally)

    changes = Changes(asked.seed, [row.given for row in corpus])
    try_number = partial(try_change, corpus, changes)
    found = side_by_side(asked.jobs, asked.program, try_number, asked.mutations)
    found.tell('changes', tally)
    for verb in ('audit', 'check', 'explain', 'sim'):
        for status in (0, 2):
            if not found.statuses[verb, status] and asked.mutations >= 10000:
                tally.fail('changes', 'totem ' + verb, 'never status %d' % status, 'once at least')
