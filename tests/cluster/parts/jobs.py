"""Tasks, each in a process of its own, a few at a time. However it ends, all that they started ends with them."""
import multiprocessing
import os
import shutil
import signal
import sys
import tempfile
import traceback
from multiprocessing.connection import wait

from parts.children import Broken
from parts.spaces import is_hidden
from running import signals

# How long a process may take to end what it started.
SECONDS = 20


class Unusable(Exception):
    """Something that was given can't be used. The text says what."""


def place_for(name, keep):
    """A new folder for a task: one that is kept, or a temporary one."""
    if not keep:
        return tempfile.mkdtemp(prefix='cluster-%s-' % name)
    path = os.path.join(keep, name)
    os.makedirs(path)
    return path


def check_place(keep):
    """Refuses a place where daemons can't write, or where something is."""
    place = keep or tempfile.gettempdir()
    if is_hidden(place):
        raise Unusable('%s is a folder of which each daemon has its own: take another one by %s' % (place, '--keep' if keep else 'TMPDIR'))
    if keep and os.path.isdir(keep) and os.listdir(keep):
        raise Unusable('%s is not empty: give --keep a new folder' % keep)


def _work(task, name, keep, pipe, parent):
    """What a process does. An end of the process that started it is a request to end."""
    os.setsid()
    signals.on_ending(signals.interrupt)
    folder = None
    try:
        signals.release()
        signals.end_with_parent(signal.SIGTERM, parent)
        folder = place_for(name, keep)
        pipe.send(task(folder))
    except KeyboardInterrupt:
        sys.exit(1)
    except (Broken, OSError) as error:
        pipe.send(str(error))
    except Exception:  # pylint: disable=broad-exception-caught
        pipe.send(traceback.format_exc())
    finally:
        if folder and not keep:
            shutil.rmtree(folder, ignore_errors=True)


class Jobs:
    """Tasks by name, so many at a time; each is called with a folder of its own. `counted` is told of each that begins, and
    of each that ends: what it returned, or a text if it could not be done."""

    def __init__(self, tasks, most, keep, counted):
        self.left, self.most, self.keep, self.counted = list(tasks.items()), most, keep, counted
        self.running = {}

    def run(self):
        """Runs all tasks."""
        try:
            while self.left or self.running:
                while self.left and len(self.running) < self.most:
                    self._begin(*self.left.pop(0))
                for pipe in wait(list(self.running)):
                    self._take(pipe)
        finally:
            self._end()

    def _begin(self, name, task):
        self.counted.begin(name)
        context = multiprocessing.get_context('fork')
        pipe, other = context.Pipe(duplex=False)
        worker = context.Process(target=_work, args=(task, name, self.keep, other, os.getpid()))
        with signals.held():
            worker.start()
            self.running[pipe] = name, worker
        other.close()

    def _take(self, pipe):
        name, worker = self.running[pipe]
        try:
            result = pipe.recv()
        except EOFError:
            result = 'its process ended without a word'
        worker.join()
        del self.running[pipe]
        self.counted.tell(name, result)

    def _end(self):
        """Ends what still runs, if this ends early."""
        for _, worker in self.running.values():
            worker.terminate()
        for _, worker in self.running.values():
            worker.join(SECONDS)
            if worker.is_alive():
                worker.kill()
                worker.join()
