"""What the commands of this folder share: their arguments, what they need, and the lines about what came."""
import os
import sys
import time

from parts import needs
from parts.jobs import Jobs, Unusable, check_place
from parts.judging import REPOSITORY
from running import signals

# The auditor alone answers the same as the whole program.
PROGRAMS = [os.path.join(REPOSITORY, 'crates', name, 'out', name) for name in ('totem', 'totem_auditor')]
RECORDER = os.path.join(REPOSITORY, 'tools', 'record')


def add_words(parser, jobs):
    """Adds the arguments that all commands have."""
    parser.add_argument('--jobs', type=int, default=jobs, help='how many clusters at a time (%d)' % jobs)
    built = next((program for program in PROGRAMS if os.access(program, os.X_OK)), PROGRAMS[0])
    parser.add_argument('--program', type=os.path.abspath, default=built, help='what judges: the program or the auditor')
    parser.add_argument('--recorder', type=os.path.abspath, default=RECORDER, help='another recorder than tools/record')
    parser.add_argument('--keep', type=os.path.abspath, metavar='FOLDER',
                        help='keep the logs, what the daemons wrote, the runs and the verdicts in a new folder')


def say(text):
    """Says something about the test itself."""
    print('cluster: %s' % text, file=sys.stderr, flush=True)


def lacks(asked, judges):
    """Whether anything is missing; says what, and how it is come by."""
    # (a shell that `su` makes root lacks these)
    os.environ['PATH'] += ':/usr/sbin:/sbin'
    lines = needs.missing()
    if judges and not os.access(asked.program, os.X_OK):
        lines.append('%s is not there: `rt ci` builds it, or give another one by --program' % asked.program)
    if not os.path.isfile(asked.recorder):
        lines.append('%s is not there: give another recorder by --recorder' % asked.recorder)
    try:
        check_place(asked.keep)
    except Unusable as error:
        lines.append(str(error))
    for line in lines:
        say(line)
    return bool(lines)


class Counted:
    """What passed and failed, and a line about each."""

    def __init__(self):
        self.passed = self.failed = 0
        self.begun = {}

    def begin(self, name):
        """A task begins."""
        self.begun[name] = time.monotonic()

    def tell(self, task, results):
        """Says what came of a task: a list of results, each a name, what came, and what is wrong; or why it could not be done."""
        seconds = time.monotonic() - self.begun[task]
        for name, words, wrongs in [(task, 'could not be done', [results])] if isinstance(results, str) else results:
            self.passed, self.failed = self.passed + (not wrongs), self.failed + bool(wrongs)
            print('%s%-14s %6.1f s  %s' % ('FAILED ' if wrongs else '', name, seconds, words))
            print(''.join('  %s\n' % wrong.rstrip().replace('\n', '\n  ') for wrong in wrongs), end='', flush=True)


def run_all(tasks, asked, counted, judges=True):
    """Runs tasks, and says what came of each. A status if it ends early. `judges`: the program is needed."""
    if lacks(asked, judges):
        return 1
    signals.on_ending(signals.interrupt)
    try:
        Jobs(tasks, asked.jobs, asked.keep, counted).run()
    except KeyboardInterrupt:
        say('interrupted; all that was started has ended')
        return 130
    return None
