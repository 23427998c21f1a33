"""The standard streams of the tools: none of them may be closed, and a message that can't be written ends nothing."""
import os
import sys


def reserve():
    """Opens /dev/null for each standard stream that is closed, so that no other file takes its number. A closed output stays unwritable."""
    for number in (0, 1, 2):
        try:
            os.fstat(number)
        except OSError:
            os.open(os.devnull, os.O_RDWR)
    if sys.stderr is None:
        sys.stderr = os.fdopen(2, 'w', encoding='utf-8', errors='backslashreplace', closefd=False)


def give_up(stream, number):
    """Lets a stream that takes nothing more end in /dev/null, so that the end of this process does not try it again."""
    with open(os.devnull, 'wb') as it:
        os.dup2(it.fileno(), number)
    try:
        stream.flush()
    except (OSError, ValueError):
        pass


def say(text, end='\n'):
    """Writes a message to standard error, if that takes it."""
    if sys.stderr is None:
        return
    try:
        print(text, end=end, file=sys.stderr, flush=True)
    except (OSError, ValueError):
        give_up(sys.stderr, 2)


# Whether the reader of standard output has gone, as `head` does when it has what it wants.
_is_reader_gone = False


def write(content):
    """Writes bytes to standard output. Returns whether all of them were written."""
    global _is_reader_gone  # pylint: disable=global-statement
    if sys.stdout is None:
        return False
    try:
        sys.stdout.buffer.write(content)
        sys.stdout.buffer.flush()
    except (OSError, ValueError) as error:
        _is_reader_gone = isinstance(error, BrokenPipeError)
        give_up(sys.stdout, 1)
        return False
    return True


def unwritten(tool):
    """Says that standard output took no more, unless its reader has gone. Returns the status of that."""
    if not _is_reader_gone:
        say('%s: write failed' % tool)
    return 4
