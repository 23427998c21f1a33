"""Explanations and pictures of texts that are made here: long ones, and each example of a row."""
import gzip
import lzma
import re
from functools import partial

from harness import process
from harness import rows as row_files

# The logs of a member that sends a message on each ring, and delivers none.
SENT = 'send r%d.1 a %d.1#1\nconf t%d.1/1 1\nconf r%d.1 1\n'
# The second byte of the 4,367th delivery is the last one in the program's buffer.
LENGTHS = (4366, 4367, 20000)


def told_by(program, words, text):
    """The answer of `totem explain` to a text."""
    return process.run([program, 'explain', *words], text.encode())[0]


def many_faults(rings):
    """A run with a fault on each of this many rings."""
    sent = ''.join(SENT % (ring, ring, ring + 4, ring + 4) for ring in range(4, 4 * rings + 4, 4))
    return 'totem-run 1\nlog 1\nconf r4.1 1\n%sopen\nend\n' % sent


def try_many_faults(program):
    """Of 101 faults a hundred are explained in full, and the last one is listed."""
    came = told_by(program, (), many_faults(101))
    text = came.output.decode()
    is_right = came.status == 1 and \
        '\nOf 101 faults the first 100 are explained in full.\n\nfault 3 1@2\n' in text and \
        '  Process 1 did not deliver 400.1#1 in r400.1 or what follows it: it went on to\n      r404.1 (1@301).\n' in text and \
        '      open\n\nfault 3 1@302\n' \
        'Specification 3: A process that sends a message delivers it, unless it fails or\n    is still in that configuration.\n' \
        '  1@302  process 1 sent 404.1#1 in r404.1, an agreed message\n\nWhat the run put to the test:\n' in text
    return None if is_right else 'came: %s' % came


def try_many_ends(program):
    """Of 31 quiet logs that lack what the 32nd delivers, the first twenty are named."""
    members = ' '.join('%d:1' % number for number in range(1, 33))
    lacking = ''.join('log %d:1\nconf r4.1 %s\nquiet\n' % (number, members) for number in range(1, 32))
    came = told_by(program, (), 'totem-run 3\n%slog 32:1\nconf r4.1 %s\nsend r4.1 a 4.1#7\ndlv r4.1 4.1#7\nquiet\nend\n' % (lacking, members))
    named = ''.join('  process %d:1 did not deliver 4.1#7\n' % number for number in range(1, 21))
    is_right = came.status == 0 and ' alone is not a fault:\n%s  and 11 more lines like these\nWhat' % named in came.output.decode()
    return None if is_right else 'came: %s' % came


def try_long_line(deliveries, program):
    """A refused line is shown even if the program's buffer ends within it."""
    text = 'totem-run 1\nlog 1\nconf r4.1 1\n%sdeliver' % ('dlv r4.1 4.1#1\n' * deliveries)
    came = told_by(program, (), text)
    wanted = 'totem: run refused: 2 Word\nline %d, column 2:\n  deliver\n   ^\nA line is `log`, `conf`, `send`, `dlv` or ' \
        '`fail` with what follows it, or `open`, `failed`, `quiet` (from version 3 on) or `end` alone.\n' % (deliveries + 4)
    return None if came.errors.decode() == wanted and came.status == 2 else 'came: %s\n  wanted: %r' % (came, wanted)


def long_run():
    """Two logs of 200 messages, and a delivery of what was never sent."""
    sends = ''.join('send r4.1 a 4.1#%d\n' % number for number in range(1, 201))
    deliveries = ''.join('dlv r4.1 4.1#%d\n' % number for number in range(1, 201))
    return 'totem-run 1\nlog 1\nconf r4.1 1 2\n%s%sopen\nlog 2\nconf r4.1 1 2\n%sdlv r4.1 4.1#999\nopen\nend\n' % (
        sends, deliveries, deliveries)


def try_long_picture(program):
    """A long run is drawn around its fault: the last four of 202 entries of log 2, nothing of log 1. The text about the
    gap has 14 letters, which take 102 pixels."""
    came = told_by(program, ('--svg',), long_run())
    text = came.output.decode()
    parts = (
        "<title id='title'>No: the run breaks specification 1.3. It requires: A message is delivered only",
        '>(1) 2@202: process 2 delivered 4.1#999 in r4.1</text>',
        '>.. 198, 1 conf</text>',
        '<title>2@199: process 2 delivered 4.1#198 in r4.1</title>',
        "stroke='#d55e00' stroke-width='3'/>\n<text x='569' y='78' text-anchor='middle' font-weight='bold' "
        "fill='#b34700'>1</text>",
    )
    is_right = came.status == 1 and all(part in text for part in parts) and text.count('<g>') == 4 and \
        'process 1<' not in text
    return None if is_right else 'came: %s' % came


def try_drawn(row, program):
    """The picture of each fault has as many red circles as the fault has places, and a dashed ring if something is missing; there is none of
    a further fault."""
    faults = re.findall(rb'(?m)^fault .*$', row.answer.output)
    for number, fault in enumerate(faults or [b''], 1):
        words = ('--svg', '--fault', str(number)) if faults else ('--svg',)
        came = told_by(program, words, row.given.decode())
        text = came.output.decode()
        is_missing = bool(re.match(rb'fault (2\.1|3|4|5|6\.3|7\.[12]) ', fault))
        is_right = came.status == row.status and text.startswith('<svg ') and text.endswith('</svg>\n') and \
            text.count("stroke='#d55e00'") == fault.count(b'@') and ("stroke='#b34700'" in text) == is_missing
        if not is_right:
            return 'came: %s\n  wanted: the picture of %r' % (came, fault)
    came = told_by(program, ('--svg', '--fault', str(len(faults) + 1)), row.given.decode())
    wanted = 'totem: there is no fault %d: faults in the report: %d\n' % (len(faults) + 1, len(faults))
    is_right = (came.status, came.output, came.errors.decode()) == (6, b'', wanted)
    return None if is_right else 'came: %s\n  wanted: %s' % (came, wanted)


def try_hint(text, status, hint, program):
    """What is refused only because of how it was saved is told so; and it is told of nothing else."""
    came, _ = process.run([program, 'explain'], text)
    told = came.errors.decode()
    is_right = came.status == status and (hint in told if hint else not any(other in told for _, _, other in HINTS.values() if other))
    return None if is_right else 'came: %s\n  wanted: status %d and %r' % (came, status, hint)


RUN = b'totem-run 1\nlog 1\nconf r4.1 1\nopen\nend\n'
# Texts that are taken for runs: the text, the status, and what is said of it.
HINTS = {
    'gzip': (gzip.compress(RUN), 2, 'gzip -dc'),
    'xz': (lzma.compress(RUN), 2, 'xz -dc'),
    'a byte order mark': (b'\xef\xbb\xbf' + RUN, 2, 'byte order mark'),
    'a carriage return in each line': (RUN.replace(b'\n', b'\r\n'), 2, 'carriage return'),
    'a carriage return in one line': (RUN.replace(b'r4.1 1\n', b'r4.1 1\r\n'), 2, 'carriage return'),
    'a carriage return at the end': (RUN[:-1] + b'\r\n', 2, 'carriage return'),
    'a log that begins with a send': (b'send r4.1 a 4.1#1\n', 2, 'tools/logs join'),
    'a log that begins with a delivery': (b'dlv r4.1 4.1#1\n', 2, 'tools/logs join'),
    'a log that begins with a failure': (b'fail r4.1\n', 2, 'tools/logs join'),
    'a certificate': (b'totem-cert 1\nend\n', 2, 'totem check'),
    'a carriage return within a line': (RUN.replace(b'conf r', b'conf\rr'), 2, ''),
    'another first line': (b'totem-run 9\n', 2, ''),
    'a run': (RUN, 0, ''),
}


def explained():
    """Explanations and pictures."""
    yield 'many faults', try_many_faults
    yield 'many ends', try_many_ends
    for deliveries in LENGTHS:
        yield '%d deliveries, and a line that is none' % deliveries, partial(try_long_line, deliveries)
    yield 'a long run, drawn', try_long_picture
    for row in map(row_files.read, row_files.names()):
        if row.words == ('explain',) and row.answer and row.answer.output:
            yield row.name + ', drawn', partial(try_drawn, row)
    for name, case in HINTS.items():
        yield name, partial(try_hint, *case)
