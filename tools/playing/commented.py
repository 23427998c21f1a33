"""Scripts with comments, read strictly: what is no command is refused with its line."""
import re
from typing import NamedTuple

from playing.script import MOST_BYTES, read_line

_PROCESS, _COUNT = r'[1-9]\d{0,4}', r'(?:[1-9]\d{0,4}|100000)'
_MEMBERS = '%s(?: %s)*' % (_PROCESS, _PROCESS)
_COMMAND = re.compile('|'.join((
    r'ring [1-9]\d{0,9}\.%s %s' % (_PROCESS, _MEMBERS), 'submit %s [as] [a-z0-9]{1,64}' % _PROCESS, '(?:run|drop|repeat) ' + _COUNT,
    'cut %s(?: / %s)*' % (_MEMBERS, _MEMBERS), 'join', '(?:timer|crash|return) ' + _PROCESS)), re.ASCII)


class Wrong(Exception):
    """What is wrong with a line, and its number."""

    def __init__(self, number, what):
        super().__init__('line %d: %s' % (number, what))


class Line(NamedTuple):
    """A line of a script: its number, its text without a comment, and its command (None in the first line)."""

    number: int
    text: str
    command: tuple = None


def _command_of(number, text, version, before):
    if text != 'end' and not _COMMAND.fullmatch(text):
        raise Wrong(number, 'this is no command: %s' % text)
    command = read_line(text.split(' '))
    if command[0] == 'return' and version == 1:
        raise Wrong(number, 'only a script of version 2 has `return`')
    if before is None and command[0] != 'ring':
        raise Wrong(number, 'a script begins with a ring')
    if before not in (None, 'ring') and command[0] == 'ring':
        raise Wrong(number, 'rings come before all other commands')
    return command


def lines(content):
    """The lines of a script, one after the other; raises at the first that is wrong. A comment begins with `#`; blank lines are left out."""
    version, before = None, None
    for number, text in enumerate(content.decode('ascii', 'replace').splitlines(), 1):
        text = text.partition('#')[0].rstrip()
        if not text:
            continue
        if before == 'end':
            raise Wrong(number, 'this is after the last line')
        if version:
            command = _command_of(number, text, version, before)
            before = command[0]
            yield Line(number, text, command)
        elif text in ('totem-script 1', 'totem-script 2'):
            version = int(text[-1])
            yield Line(number, text)
        else:
            raise Wrong(number, 'the first line is neither `totem-script 1` nor `totem-script 2`')
    if before != 'end':
        raise Wrong(content.count(b'\n') + 1, 'the last line, `end`, is missing')


def plain(content):
    """The same script without comments, as the program reads it."""
    text = ''.join(line.text + '\n' for line in lines(content)).encode('ascii')
    if len(text) > MOST_BYTES:
        raise Wrong(1, 'without its comments it has %d bytes, and a script has %d at most' % (len(text), MOST_BYTES))
    return text
