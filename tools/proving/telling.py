"""Lines for people, and why there is no program."""
from running import streams


class Unmade(Exception):
    """Why there is no program, in one line."""


def tell(line):
    """Prints a line on standard error, if that takes it."""
    streams.say('totem: ' + line)
