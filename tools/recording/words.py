"""The arguments of `tools/record`, and the process that starts one life of the recorder after another."""
import argparse
import os
import re
import signal
import time
import traceback

from recording.library import MOST_OF_A_NAME, Failed
from recording.life import Life
from recording.requests import HELD
from recording.trouble import Ended, LifeOver, Refused, say
from running import streams
from running.signals import end_with_parent
from running.words import Words

DESCRIPTION = """Records what Corosync's closed process groups deliver on this node, for `totem audit`: run it on each node of a cluster.

    tools/record --logs /var/log/totem

It joins a group of its own, sends small messages, and writes a line for each message, delivery and change of the members into the file P.L.log
of the folder, P being the node, and L the life of this process. Ctrl-C on one node ends the recording of all nodes; SIGTERM ends that of this
one. If corosync ends, this waits until it is there again, and then begins a new life with a file of its own. Collect the files of all nodes
in one folder, and then

    tools/logs join --map my.map FOLDER > my.run
    ./totem explain < my.run

docs/COROSYNC.md says what a verdict means. It needs Python 3.9 and the library libcpg.so.4, which comes with Corosync, and root, or a user
that /etc/corosync/uidgid.d allows. Nothing of the cluster is changed, and no other group is read."""
STATUS = """The status is 0 if the recording ended as somebody asked, 1 if nothing can be recorded, or the recording was stopped by a second
Ctrl-C, 64 for a usage error."""
# The status of a life after which another one begins.
AGAIN = 75
# How long a life that was asked to end may take before it is killed: a call of the library can wait for the daemon for ever.
MOST_SECONDS_TO_LEAVE, MOST_SECONDS_TO_STOP = 15, 3


def _group(word):
    """The name of a group."""
    if not re.fullmatch('[!-~]{1,%d}' % MOST_OF_A_NAME, word):
        raise argparse.ArgumentTypeError('the name of a group has 1 to %d letters, digits and signs, without blanks' % MOST_OF_A_NAME)
    return word


def _number(least, most, kind):
    """Numbers from one to another."""
    def read(word):
        try:
            number = kind(word)
        except ValueError:
            number = least - 1
        if not least <= number <= most:
            raise argparse.ArgumentTypeError('%r is not a number from %g to %d' % (word, least, most))
        return number
    return read


def read_words(words):
    """What the arguments ask for."""
    parser = Words(prog='record', allow_abbrev=False, description=DESCRIPTION, epilog=STATUS,
                   formatter_class=argparse.RawDescriptionHelpFormatter)
    parser.add_argument('--logs', metavar='FOLDER', required=True, help='where the logs are written; it is made if it is not there')
    parser.add_argument('--group', type=_group, default='totem-record', metavar='NAME', help='the group, the same on all nodes (totem-record)')
    parser.add_argument('--rate', type=_number(.01, 1000, float), default=5, metavar='N',
                        help='messages a second (5); at 2, 5 and 20 each of three daemons took 2 %%, 6 %% and 12 %% of a core')
    parser.add_argument('--size', type=_number(64, 1000000, int), default=100, metavar='BYTES', help='how long a message is (100)')
    parser.add_argument('--for', type=_number(.1, 10000000, float), dest='seconds', metavar='SECONDS',
                        help='end the recording of all nodes after this time')
    parser.add_argument('--no-sync', action='store_false', dest='sync',
                        help='do not wait until the line of each message is on the disk before the message goes out: after a power failure the '
                        'log may lack messages that others have')
    asked = parser.parse_args(words)
    asked.ends_at = time.monotonic() + asked.seconds if asked.seconds else None
    return asked


def _explain(error):
    """An error of the system in words."""
    return '%s: %s' % (error.filename or 'the log', error.strerror or error)


def _live(asked, is_first):
    """Lives one life. Returns the status of its process."""
    try:
        return Life(asked, is_first).live()
    except (LifeOver, Failed) as over:
        say('%s: another life begins when it can' % over)
        return AGAIN
    except Ended as ended:
        say(str(ended))
        return 1 if is_first else 0
    except Refused as refused:
        say(str(refused))
    except OSError as error:
        say('%s; nothing more is recorded' % _explain(error))
    return 1


class Recorder:
    """Starts one life after another, each as a process of its own, and hands signals on. It goes on if corosync, a life, or this node's part
    of the cluster ends, and ends when somebody asks for it."""

    def __init__(self, asked):
        self.asked = asked
        self.life, self.interrupts, self.is_leaving, self.is_killed = None, 0, False, False

    def _interrupt(self, *_):
        self.interrupts += 1
        self._hand_on(signal.SIGUSR1)
        if self.interrupts == 2:
            signal.alarm(MOST_SECONDS_TO_STOP)

    def _leave(self, *_):
        self.is_leaving = True
        self._hand_on(signal.SIGTERM)
        signal.alarm(MOST_SECONDS_TO_LEAVE)

    def _give_up(self, *_):
        self.is_killed = True
        self._hand_on(signal.SIGKILL)

    def _hand_on(self, number):
        if self.life:
            try:
                os.kill(self.life, number)
            except ProcessLookupError:
                pass

    def _listen(self):
        for number, handler in ((signal.SIGINT, self._interrupt), (signal.SIGTERM, self._leave), (signal.SIGHUP, self._leave),
                                (signal.SIGALRM, self._give_up)):
            signal.signal(number, handler)

    def _start(self, is_first):
        """Starts a life, and returns what became of it: a status, or None if it was killed."""
        parent = os.getpid()
        signal.pthread_sigmask(signal.SIG_BLOCK, HELD)
        self.life = os.fork()
        if self.life == 0:
            status = 1
            try:
                end_with_parent(signal.SIGKILL, parent)
                status = _live(self.asked, is_first)
            except BaseException:  # pylint: disable=broad-exception-caught
                traceback.print_exc()
            finally:
                os._exit(status)  # pylint: disable=protected-access
        signal.pthread_sigmask(signal.SIG_UNBLOCK, HELD)
        _, ended = os.waitpid(self.life, 0)
        self.life = None
        return os.WEXITSTATUS(ended) if os.WIFEXITED(ended) else None

    def run(self):
        """Records until somebody asks for the end. Returns the status."""
        self._listen()
        is_first, status = True, AGAIN
        while not (self.interrupts or self.is_leaving) or is_first:
            status = self._start(is_first)
            if self.is_killed:
                say('corosync did not answer: the log stays open, and the next recorder on this node closes it')
                return 1
            if status is None:
                say('the recording process was killed: another life begins when it can')
            elif status != AGAIN:
                return status
            is_first = False
            time.sleep(1)
        return 0


def main(words):
    """Does what the arguments ask for, and returns the status."""
    streams.reserve()
    asked = read_words(words)
    try:
        os.makedirs(asked.logs, exist_ok=True)
    except OSError as error:
        say(_explain(error))
        return 1
    return Recorder(asked).run()
