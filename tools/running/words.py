"""The arguments of the tools, and their statuses."""
import argparse
import sys

from running import signals, streams


class Words(argparse.ArgumentParser):
    """Usage errors have the status 64, as those of totem have, and help that can't be written the status 4."""

    def print_help(self, file=None):
        """Writes the help to standard output."""
        if not streams.write(self.format_help().encode()):
            sys.exit(streams.unwritten(self.prog.split(' ')[0]))

    def error(self, message):
        streams.say('%s%s: %s' % (self.format_usage(), self.prog, message))
        sys.exit(64)


def status_of(call, *given):
    """What a tool's function returns or ends with; 4 if standard output did not take all that was written to it."""
    try:
        status = call(*given)
    except SystemExit as end:
        status = end.code or 0
    signals.ignore_to_the_end()
    return status if streams.write(b'') or sys.stdout is None else 4
