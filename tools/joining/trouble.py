"""Messages to the caller of the tool, and the list of all changes."""
import os
import shutil
import sys

# How many lines are printed for one kind of change; of further ones only the count. The list of changes has them all.
MOST_TOLD = 20


class Refused(Exception):
    """The input can't be joined. The text says which file, which line, and what is wrong."""


class WriteFailed(Exception):
    """The output accepts no more, or standard error: a run whose changes can't be told is not written."""


def tell(text):
    """Reports on standard error what was changed or left out."""
    try:
        if sys.stderr is None:
            raise OSError
        print('logs: ' + text, file=sys.stderr, flush=True)
    except OSError as error:
        raise WriteFailed from error


def tell_each(lines):
    """Reports each of these, or the first ones and how many more there are."""
    for line in lines[:MOST_TOLD]:
        tell(line)
    if len(lines) > MOST_TOLD:
        tell('.. and %d more of the same kind' % (len(lines) - MOST_TOLD))


def shown(line):
    """A line for a person, shortened if it is long. A blank at its end can be seen."""
    text = line.rstrip(b'\n').decode('ascii', 'replace')
    text = ''.join(letter if ' ' <= letter <= '~' else '?' for letter in text)
    if len(text) > 60:
        return text[:60] + '..'
    return "'%s', with a blank at its end" % text if text.endswith(' ') else text


def some(names):
    """A few of these names, for a person."""
    first = ', '.join(name.decode() if isinstance(name, bytes) else name for name in names[:5])
    return first + (', ..' if len(names) > 5 else '')


class Changes:
    """The list of all changes, one a line, for whoever wants to make the run from the logs by hand. It is gathered in a folder for temporary
    files; without a path there is none."""

    def __init__(self, path, working):
        self.path = path
        self.gathered = os.path.join(working, 'changes') if path else os.devnull
        self.out = open(self.gathered, 'w', encoding='ascii', errors='replace')

    def add(self, text):
        """Adds a change."""
        if self.path:
            self.out.write(text + '\n')

    def put_in_place(self):
        """Writes the list to its path. Nothing else is written before that."""
        self.out.close()
        if self.path:
            with open(self.gathered, 'rb') as it, open(self.path, 'wb') as out:
                shutil.copyfileobj(it, out)
            tell('all changes are written to %s' % self.path)
