"""The built program: its commands, each applied to a text, and its answers."""
import os
import signal
import subprocess
import threading
from typing import NamedTuple

from running import streams

TOP = os.path.dirname(os.path.dirname(os.path.dirname(os.path.abspath(__file__))))
# Where the launcher puts the whole program, and the auditor alone, which answers `audit` and `explain`; and where an archive has the program.
WHOLE, AUDITOR = (os.path.join(TOP, 'crates', name, 'out', name) for name in ('totem', 'totem_auditor'))
RELEASED = os.path.join(TOP, 'totem')
IS_ARCHIVE = os.path.exists(os.path.join(TOP, 'PROVED.txt'))
ENVIRONMENT = {'PATH': '/usr/bin:/bin', 'LANG': 'C.UTF-8'}


class Refused(Exception):
    """The input can't be used. The text says what, where, and why."""


class Answer(NamedTuple):
    """The status of the program, its output, and its errors."""

    status: int
    output: bytes
    errors: bytes


class Verdict(NamedTuple):
    """What an audit says: whether it is a no, and the faults, each as its specification and its places."""

    is_no: bool
    faults: tuple

    @property
    def broken(self):
        """The specifications that are broken, in the order of the report, each once."""
        return tuple(dict.fromkeys(specification for specification, _ in self.faults))


def _verdict_of(report):
    """The verdict of a report, or None if there is none."""
    words = [line.split() for line in report.decode('ascii', 'replace').splitlines()]
    if words[:1] not in ([['verdict', 'yes']], [['verdict', 'no']]) or words[-1] != ['end']:
        return None
    return Verdict(words[0][1] == 'no', tuple((line[1], tuple(line[2:])) for line in words if line[:1] == ['fault'] and len(line) > 2))


def _content_of(file):
    """All that is in a file in memory."""
    with open(file, 'rb', closefd=False) as it:
        it.seek(0)
        return it.read()


def _note_if_stale(place):
    """Says so if a program was not proved from the sources as they are."""
    words = [os.path.join(TOP, 'tools', 'sources'), 'state', os.path.basename(place)]
    came = subprocess.run(words, stdin=subprocess.DEVNULL, stdout=subprocess.PIPE, check=False)
    if came.stdout != b'fresh\n':
        streams.say('note: %s was not proved from the sources as they are; `./totem prove` makes one that is' % place)


class Program:
    """The program at a path; if none is given, the one of this repository or archive."""

    def __init__(self, path, makes_runs=False):
        places = [path] if path else [RELEASED] if IS_ARCHIVE else [WHOLE] if makes_runs else [WHOLE, AUDITOR]
        self.path = next((os.path.abspath(place) for place in places if os.access(place, os.X_OK) and os.path.isfile(place)), None)
        if not self.path:
            builds = '' if path or IS_ARCHIVE else ': `./totem prove` builds it, and --program takes another one'
            raise Refused('the program %s is not there%s' % (places[0], builds))
        if not path and not IS_ARCHIVE:
            _note_if_stale(self.path)
        # What runs. (A signal's handler may come here while this thread has the lock.)
        self.lock, self.running, self.is_over = threading.RLock(), set(), False

    def ask(self, words, given):
        """Runs the program to its end. Its streams are files in memory."""
        files = [os.memfd_create(name) for name in ('input', 'output', 'errors')]
        try:
            with open(files[0], 'wb', closefd=False) as it:
                it.write(given)
            os.lseek(files[0], 0, os.SEEK_SET)
            status = self._run(words, [(os.POSIX_SPAWN_DUP2, file, number) for number, file in enumerate(files)])
            return Answer(status, *map(_content_of, files[1:]))
        finally:
            for file in files:
                os.close(file)

    def _run(self, words, actions):
        """Runs the program in a group of its own, which an interrupt from the terminal does not reach. Returns its status."""
        with self.lock:
            if self.is_over:
                raise Refused('the program was ended')
            # (with the signals of a shell's children, though Python ignores some)
            pid = os.posix_spawn(self.path, [self.path, *words], ENVIRONMENT, file_actions=actions, setpgroup=0,
                                 setsigdef=[signal.SIGPIPE, signal.SIGXFSZ])
            self.running.add(pid)
        try:
            os.waitid(os.P_PID, pid, os.WEXITED | os.WNOWAIT)
        except KeyboardInterrupt:
            os.kill(pid, signal.SIGKILL)
            raise
        finally:
            with self.lock:
                _, code = os.waitpid(pid, 0)
                self.running.discard(pid)
        return os.WEXITSTATUS(code) if os.WIFEXITED(code) else 128 + os.WTERMSIG(code)

    def end(self):
        """Ends all that runs; nothing begins after that."""
        with self.lock:
            self.is_over = True
            for pid in self.running:
                os.kill(pid, signal.SIGKILL)

    def audit(self, text):
        """The verdict on the text of a run, or None if it is refused."""
        return self._judged(self.ask(['audit'], text), 'audit')

    def play(self, script):
        """The text of the run that a script makes, or None if the script is refused."""
        answer = self.ask(['sim'], script)
        if answer.status not in (0, 2):
            raise Refused('`%s sim` ended with status %d: %s' % (self.path, answer.status, self._told(answer)))
        return answer.output if answer.status == 0 else None

    def explain(self, text, columns=79):
        """The verdict in words, in lines of so many columns."""
        return self.ask(['explain', '--columns', str(columns)], text).output.decode('utf-8', 'replace')

    def flaw(self, text, is_script):
        """Why the program refuses a text, in a line."""
        return self._told(self.ask(['sim' if is_script else 'audit'], text))

    def _judged(self, answer, verb):
        if answer.status not in (0, 1, 2):
            raise Refused('`%s %s` ended with status %d: %s' % (self.path, verb, answer.status, self._told(answer)))
        if answer.status == 2:
            return None
        verdict = _verdict_of(answer.output)
        if verdict is None or verdict.is_no != (answer.status == 1):
            raise Refused('`%s %s` ended with status %d, but has no such verdict' % (self.path, verb, answer.status))
        return verdict

    @staticmethod
    def _told(answer):
        lines = answer.errors.decode('utf-8', 'replace').splitlines()
        return lines[0] if lines else 'it told nothing'
