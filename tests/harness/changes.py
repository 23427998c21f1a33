"""Seeded changes of texts. Each case has a generator of its own, so a seed and a number identify it."""
import random
import re

# Numbers at the edges of ranges, beyond them, and with invalid spellings.
NUMBERS = [it.encode() for it in (
    '0 1 2 3 4 9 31 32 33 64 100 255 256 999 1000 65535 65536 100000 100001 1000000 1000001 4294967295 '
    '4294967296 18446744073709551615 18446744073709551616 01 00 -1 +1 1e3 0x1 '
    '99999999999999999999999999999999999999').split()]
# The words that begin a line inside of a run, a certificate or a script.
INNER_WORDS = (
    b'conf', b'send', b'dlv', b'fail', b'pos',
    b'submit', b'run', b'drop', b'repeat', b'cut', b'join', b'timer', b'crash',
)
BEHIND_LINES = (b' ', b'\r', b' 5', b'\n', b'\0', b' ' + b'9' * 200, b'x' * 5000)
BETWEEN_WORDS = (b'  ', b'\t', b'', b'\r', b' 1 ')


def cut(draw, text, at, _):
    """Everything after a place is left out."""
    return text[:at]


def insert(draw, text, at, _):
    """One byte more."""
    return text[:at] + bytes([draw.randrange(256)]) + text[at:]


def replace(draw, text, at, _):
    """Another byte."""
    return text[:at] + bytes([draw.randrange(256)]) + text[at + 1:]


def turn(draw, text, at, _):
    """One bit is another."""
    return text[:at] + bytes(byte ^ 1 << draw.randrange(8) for byte in text[at:at + 1]) + text[at + 1:]


def leave_out(draw, text, at, _):
    """Some bytes are left out."""
    return text[:at] + text[at + draw.randrange(1, 12):]


def zeros(draw, text, at, _):
    """Bytes 00 between two bytes."""
    return text[:at] + b'\0' * draw.choice((1, 1, 2, 9)) + text[at:]


def again(draw, text, at, _):
    """Some bytes come twice or more often."""
    end = at + draw.randrange(1, 40)
    return text[:end] + text[at:end] * draw.choice((1, 1, 2, 40)) + text[end:]


def graft(draw, text, at, others):
    """Some bytes of another text."""
    other = draw.choice(others)
    begin = draw.randrange(len(other) + 1)
    return text[:at] + other[begin:begin + draw.randrange(1, 60)] + text[at:]


def number(draw, text, _at, _):
    """Another number."""
    found = list(re.finditer(rb'[0-9]+', text))
    if not found:
        return text
    it = draw.choice(found)
    return text[:it.start()] + draw.choice(NUMBERS) + text[it.end():]


def rearranged(draw, parts, among):
    """The text of these lines after a change to those at some places: two are swapped, one comes again elsewhere, or
    one is left out."""
    first, second = draw.choice(among), draw.choice(among)
    kind = draw.randrange(3)
    if kind == 0:
        parts[first], parts[second] = parts[second], parts[first]
    elif kind == 1:
        parts.insert(first, parts[second])
    else:
        del parts[first]
    return b'\n'.join(parts)


def lines(draw, text, _at, _):
    """Two lines are swapped, or one comes again elsewhere, or one is left out."""
    parts = text.split(b'\n')
    return rearranged(draw, parts, range(len(parts)))


def ends_of_lines(draw, text, _at, _):
    """Other bytes between two words, or after a line."""
    parts = text.split(b'\n')
    at = draw.randrange(len(parts))
    if draw.randrange(2):
        parts[at] = parts[at].replace(b' ', draw.choice(BETWEEN_WORDS), 1)
    else:
        parts[at] += draw.choice(BEHIND_LINES)
    return b'\n'.join(parts)


def inner_lines(text):
    """The lines of a text, and the places of the inside ones: a text may have them anywhere, more often or
    not at all."""
    parts = text.split(b'\n')
    return parts, [at for at, line in enumerate(parts) if line.split(b' ')[0] in INNER_WORDS]


def inner_number(draw, text, _at, _):
    """One number of an inside line becomes another number of the inside."""
    parts, inner = inner_lines(text)
    numbers = re.findall(rb'[0-9]+', b' '.join(parts[at] for at in inner))
    if not numbers:
        return text
    at = draw.choice(inner)
    found = list(re.finditer(rb'[0-9]+', parts[at])) or [re.search(b'$', parts[at])]
    it = draw.choice(found)
    parts[at] = parts[at][:it.start()] + draw.choice(numbers) + parts[at][it.end():]
    return b'\n'.join(parts)


def inner_line(draw, text, _at, _):
    """Two inside lines are swapped, or one comes again elsewhere, or one is left out."""
    parts, inner = inner_lines(text)
    if not inner:
        return text
    return rearranged(draw, parts, inner)


# Kinds of change that mostly break the text, and kinds that mostly leave a valid one. Some are listed
# more than once, so that they come more often.
BREAKING = (
    cut, insert, replace, turn, leave_out, zeros, again, graft, number, number, lines, lines, ends_of_lines,
    ends_of_lines,
)
KEEPING = (inner_number, inner_line)


class Changes:
    """Changed texts, each identified by its number."""

    def __init__(self, seed, texts):
        self.seed = seed
        self.texts = texts

    def changed(self, case):
        """The place of a text in the list, and that text after one to six changes of one kind."""
        draw = random.Random('%d/%d' % (self.seed, case))
        chosen = draw.randrange(len(self.texts))
        text = self.texts[chosen]
        kinds = draw.choice((BREAKING, KEEPING))
        for _ in range(draw.choice((1, 1, 1, 2, 2, 3, 6))):
            text = draw.choice(kinds)(draw, text, draw.randrange(len(text) + 1), self.texts)
        return chosen, text
