"""What the recorder says, and why it can't record."""
from running import streams


class Refused(Exception):
    """Nothing can be recorded. The text says what is wrong, where, and what to do."""


class Ended(Refused):
    """Somebody asked for the end before anything was recorded."""


class LifeOver(Exception):
    """This life can't go on, and another one can begin: the daemon is gone, or the log of this life is there already."""


def say(text):
    """Says something on standard error, if that takes it."""
    streams.say('record: ' + text)
