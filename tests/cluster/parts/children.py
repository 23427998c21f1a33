"""Programs that end when the process that started them ends, however that ends."""
import os
import signal
import subprocess

from running import signals

# How long a command that sets something up may take.
SECONDS = 60
TICKS = os.sysconf('SC_CLK_TCK')


class Broken(Exception):
    """What a test stands on doesn't work. The text says what."""


def start(words, output=subprocess.DEVNULL):
    """Starts a program, in a session of its own, so that no signal of a terminal comes to it. Its output and its errors go into one file."""
    parent = os.getpid()

    def begin():
        # (a shell lets its background ignore interrupts, and a recorder ends by one)
        for number in signals.ENDING:
            signal.signal(number, signal.SIG_DFL)
        signals.end_with_parent(signal.SIGKILL, parent)

    return subprocess.Popen(words, stdin=subprocess.DEVNULL, stdout=output, stderr=subprocess.STDOUT, start_new_session=True, preexec_fn=begin)


def end(process):
    """Kills a program, by its number, if it still runs, and waits for its end."""
    if process.poll() is None:
        process.kill()
    process.wait()


def ask(words):
    """Runs a program to its end: its status, and its output with its errors in it."""
    came = subprocess.run(words, stdin=subprocess.DEVNULL, stdout=subprocess.PIPE, stderr=subprocess.STDOUT, text=True, timeout=SECONDS, check=False)
    return came.returncode, came.stdout


def do(words):
    """Runs a program that has to succeed: its output."""
    status, output = ask(words)
    if status:
        raise Broken('%s: status %d: %s' % (' '.join(words), status, output.strip()))
    return output


def _words_of(pid):
    """What the system says of a process, from its state on; nothing if it has ended."""
    try:
        with open('/proc/%d/stat' % pid, encoding='utf-8', errors='replace') as it:
            return it.read().rpartition(')')[2].split()
    except OSError:
        return []


def family(pid):
    """A process and those that it started."""
    words = {int(name): _words_of(int(name)) for name in os.listdir('/proc') if name.isdigit()}
    found = [pid]
    for who in found:
        found += [other for other, about in words.items() if about and int(about[1]) == who]
    return found


def processor_seconds(pids):
    """The processor time that processes took so far, for themselves and in the system."""
    return sum((int(words[11]) + int(words[12])) / TICKS for words in map(_words_of, pids) if words)
