"""What recorders have written so far: the folder of their logs, read while it grows."""
import os
import re
import time
from typing import NamedTuple

from parts.children import Broken

NAME = re.compile(r'([0-9]+)\.([0-9]+)\.log')
# How often what is awaited is looked for.
PERIOD = 0.2


class Line(NamedTuple):
    """A line that is an entry or `quiet`: its number in the file from 0, its time, its kind, and the words after it."""

    number: int
    time: str
    kind: str
    words: tuple


class Log:
    """A log as it is now."""

    def __init__(self, folder, name):
        self.name = name
        self.path = os.path.join(folder, name)
        self.node, self.life = map(int, NAME.fullmatch(name).groups())
        with open(self.path, encoding='ascii', errors='replace') as it:
            self.text = it.read()
        # (a last line may be there in part)
        self.rows = self.text.split('\n')[:-1]
        split = [(number, row.split(' ')) for number, row in enumerate(self.rows) if not row.startswith('#')]
        self.lines = [Line(number, words[0], words[1], tuple(words[2:])) for number, words in split if len(words) > 1 and words[1] != '#']

    def of_kind(self, kind):
        """The lines of a kind."""
        return [line for line in self.lines if line.kind == kind]

    @property
    def ending(self):
        """How the log ends: `quiet`, `fail`, or `open`."""
        return self.lines[-1].kind if self.lines and self.lines[-1].kind in ('quiet', 'fail') else 'open'

    @property
    def nodes(self):
        """The nodes of the last regular configuration; none before the first one."""
        views = [line.words for line in self.of_kind('conf') if line.words[0].startswith('r')]
        return {int(member.split(':')[0]) for member in views[-1][1:]} if views else set()


def logs_in(folder):
    """All logs of a folder, those of each node in the order in which they began."""
    logs = [Log(folder, name) for name in os.listdir(folder) if NAME.fullmatch(name)]
    return sorted(logs, key=lambda log: (log.node, log.lines[0].time if log.lines else '~'))


def newest(folder):
    """The newest log of each node."""
    names = [name for name in os.listdir(folder) if NAME.fullmatch(name)]
    names.sort(key=lambda name: os.stat(os.path.join(folder, name)).st_mtime_ns)
    return {log.node: log for log in (Log(folder, name) for name in {name.split('.')[0]: name for name in names}.values())}


def await_that(holds, seconds, what, happened=lambda: None):
    """Waits until something holds; after so many seconds the test is broken. `happened` may find an earlier end."""
    limit = time.monotonic() + seconds
    while not holds():
        happened()
        if time.monotonic() > limit:
            raise Broken('after %d s: %s' % (seconds, what))
        time.sleep(PERIOD)
