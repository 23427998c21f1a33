"""Names of nodes beside the numbers of processes."""
import argparse
import html
import re

LINE = re.compile(r'([1-9][0-9]{0,19})[ \t]+(\S.*)')
NUMBER = r'[1-9][0-9]*(?::[0-9]+)?(?![0-9.:#@])'
# One process, or a list of several ("processes 4, failures 2" are counts); also one that another one waits for. In a long explanation a list may
# go on in the next line.
PROCESSES = re.compile(r'\b(?:[Pp]rocess(?: {n}|es\s+{n}(?:,\s+{n})*\s+and\s+{n})|waits\s+for\s+{n})'.format(n=NUMBER))
# A list in the membership: "r4.1, members 1 2", "  began here: 1 2".
LIST = re.compile(r'^(?:r\S+, members|  .*:)(?: {n})+$'.format(n=NUMBER), re.MULTILINE)
# The heading of a column of entries.
HEADING = re.compile(r'(?<=  )log (%s)( *)$|(?<=  )log (%s)(  +)' % (NUMBER, NUMBER), re.MULTILINE)
# The name of a process in front of its lane, in a picture.
LANE = re.compile(r"<text x='(16)' y='([0-9]+)'>process (%s)</text>" % NUMBER)
# So many letters have room there.
ROOM = 13
HELP = 'put the names of nodes beside the numbers of processes: a line of the file is a number and a name, such as `2 db-west`'


class Names:
    """The names of processes, by their numbers."""

    def __init__(self, known=()):
        self.known = dict(known)

    def renamed(self, numbers):
        """The names when processes have these numbers in place of others: pairs of the new and the old one."""
        numbers = dict(numbers)
        return Names((number, self.known[old]) for number, old in [*((it, it) for it in self.known if it not in numbers), *numbers.items()]
                     if old in self.known)

    def beside(self, number):
        """The name of a process as it is put beside its number; nothing if it has none."""
        return ' (%s)' % self.known[number] if number in self.known else ''

    def in_words(self, text):
        """A text with names beside the numbers of processes."""
        return PROCESSES.sub(self._listed, text)

    def _listed(self, found):
        """What was found, with names beside the numbers in it that stand alone."""
        return re.sub('(?<= )' + NUMBER, lambda number: number[0] + self.beside(number[0].split(':')[0]), found[0])

    def in_picture(self, text):
        """What `totem explain --svg` writes, with names above the numbers of processes in front of lanes, cut if they are long, and beside them
        in sentences."""
        known = Names((number, html.escape(name)) for number, name in self.known.items())
        return '\n'.join(LANE.sub(self._laned, line) if LANE.fullmatch(line) else known.in_words(line) for line in text.split('\n'))

    def _laned(self, found):
        name = self.known.get(found[3].split(':')[0])
        if name is None:
            return found[0]
        shown = name if len(name) <= ROOM else name[:ROOM - 2] + '..'
        return "<text x='%s' y='%d'><title>%s</title>%s</text>\n%s" % (found[1], int(found[2]) - 14, html.escape(name), html.escape(shown), found[0])

    def in_explanation(self, text):
        """What `totem explain` writes, with names beside the numbers of processes, also in lists and where a column of entries begins; columns
        stay where they were if there is room."""
        if text.startswith('<svg '):
            return self.in_picture(text)

        def headed(found):
            who, room = found[1] or found[3], found[2] or found[4] or ''
            name = self.beside(who.split(':')[0])
            return 'log %s%s%s' % (who, name, ' ' * max(len(room) - len(name), min(len(room), 2)))
        return HEADING.sub(headed, LIST.sub(self._listed, self.in_words(text)))


def read(path):
    """The names in a file, for the parser of arguments."""
    known = {}
    try:
        with open(path, encoding='utf-8') as it:
            lines = it.read().splitlines()
    except (OSError, UnicodeDecodeError) as error:
        raise argparse.ArgumentTypeError('%s: %s' % (path, getattr(error, 'strerror', None) or 'this is no text in UTF-8')) from error
    for number, line in enumerate(lines, 1):
        found = LINE.fullmatch(line.strip())
        if not found and line.strip() and not line.startswith('#'):
            raise argparse.ArgumentTypeError('%s, line %d: a line is a number of a process and a name, such as `2 db-west`' % (path, number))
        if found and found[1] in known:
            raise argparse.ArgumentTypeError('%s, line %d: process %s has two names' % (path, number, found[1]))
        if found:
            known[found[1]] = found[2]
    return Names(known)


def add_word(parser):
    """Adds the argument."""
    parser.add_argument('--names', metavar='FILE', type=read, default=Names(), help=HELP)
