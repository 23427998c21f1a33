"""A hunt: scripts by seed, each played and judged, in several processes."""
import multiprocessing
import os
import re
import signal
from collections import Counter
from multiprocessing.connection import wait
from typing import Callable, NamedTuple

from hunting.block import BLOCK
from playing import script
from running import signals
from shrinking.program import Refused
from shrinking.scripts import ScriptShrinker

# After how many seeds a process reports its counts.
SEEDS_AT_ONCE = 20
RING = re.compile(rb'(?m)^conf (r[0-9.]+) ')


class Seeds(NamedTuple):
    """The seeds of a hunt, and what makes the scripts of a block, given its number."""

    first: int
    last: int
    block: Callable

    @property
    def blocks(self):
        """The numbers of the blocks."""
        return range(self.first // BLOCK, self.last // BLOCK + 1)

    def scripts(self, number):
        """Each of these seeds that is in a block, with its commands and the scene after them."""
        block = self.block(number)
        for seed in range(number * BLOCK, min((number + 1) * BLOCK, self.last + 1)):
            commands, scene = block.script()
            if seed >= self.first:
                yield seed, commands, scene


class _Hunter:
    """Plays the seeds of blocks, and reports what they see."""

    def __init__(self, program, seeds, tell):
        self.program, self.seeds, self.tell = program, seeds, tell
        self.counts = Counter()

    def hunt(self, number):
        """Plays the seeds of a block, and shortens the first script for each set of broken specifications."""
        kinds = set()
        for seed, commands, scene in self.seeds.scripts(number):
            self._judge(seed, commands, scene, kinds)
        self._tell_counts()

    def _tell_counts(self):
        self.tell(('counts', self.counts))
        self.counts = Counter()

    def _judge(self, seed, commands, scene, kinds):
        text = script.write(commands)
        if len(text) > script.MOST_BYTES:
            self.counts.update(long=1)
            return
        run = self.program.play(text)
        if run is None or run != scene.text(script.version_of(commands)):
            self.tell(('other', seed, text))
            return
        verdict = self.program.audit(run)
        if verdict is None:
            raise Refused('`%s audit` refuses the run that it made of the script of seed %d' % (self.program.path, seed))
        self.counts.update(runs=1, packets=scene.came, rings=len(set(RING.findall(run))), no=verdict.is_no, yes=not verdict.is_no)
        if verdict.is_no:
            self._tell_counts()
            self.tell(('no', seed, verdict.broken, text))
            if verdict.broken not in kinds:
                kinds.add(verdict.broken)
                shrinker = ScriptShrinker(self.program, text)
                shrinker.shrink()
                self.tell(('script', seed, verdict.broken, shrinker.text))
        if self.counts['runs'] >= SEEDS_AT_ONCE:
            self._tell_counts()


def _work(program, blocks, seeds, pipe, parent):
    """What one process does. It ends when its parent ends, however that ends, and the program ends with it."""
    program = type(program)(program.path)

    def end(*_):
        program.end()
        os._exit(1)

    signals.ignore_ending()
    signal.signal(signal.SIGTERM, end)
    signals.release()
    signals.end_with_parent(signal.SIGTERM, parent)
    try:
        hunter = _Hunter(program, seeds, pipe.send)
        for number in blocks:
            hunter.hunt(number)
    except Refused as refused:
        pipe.send(('refused', str(refused)))
    except OSError as error:
        pipe.send(('refused', '%s: %s' % (error.filename or program.path, error.strerror)))


class Hunt:
    """Hunts through seeds, in this many processes, and reports to `found` what they find. It is made while signals are held."""

    def __init__(self, program, seeds, jobs, found):
        context = multiprocessing.get_context('fork')
        self.found = found
        self.workers = {}
        # (a pipe, so that a signal is seen between two reports and not within one)
        self.bell, self.ringer = os.pipe()
        for number in range(min(jobs, len(seeds.blocks))):
            reader, pipe = context.Pipe(duplex=False)
            worker = context.Process(target=_work, args=(program, seeds.blocks[number::jobs], seeds, pipe, os.getpid()), daemon=True)
            worker.start()
            pipe.close()
            self.workers[reader] = worker

    def ask_to_end(self, *_):
        """Lets `follow` return early. A signal may call this at any moment, and again."""
        signals.ignore_ending()
        os.write(self.ringer, b'.')

    def follow(self, tell):
        """Takes the reports of the processes, until these end, and calls `tell` after each report. Returns whether they came to the end."""
        left = list(self.workers)
        while left:
            ready = wait([*left, self.bell])
            if self.bell in ready:
                return False
            for reader in ready:
                try:
                    self._take(*reader.recv())
                except (EOFError, ConnectionError):
                    left.remove(reader)
                    self._check_end(self.workers[reader])
            tell()
        return True

    @staticmethod
    def _check_end(worker):
        worker.join()
        if worker.exitcode:
            raise Refused('a process of the hunt ended with the code %d: its seeds were not all played' % worker.exitcode)

    def _take(self, kind, *told):
        if kind == 'refused':
            raise Refused(*told)
        getattr(self.found, 'add_' + kind)(*told)

    def end(self):
        """Ends the processes, and takes the reports that they had sent."""
        for worker in self.workers.values():
            worker.terminate()
        for reader, worker in self.workers.items():
            # (before its end, as it may wait until somebody reads)
            self._take_rest(reader)
            worker.join()

    def _take_rest(self, reader):
        while True:
            try:
                kind, *told = reader.recv()
            except (EOFError, OSError):
                return
            if kind != 'refused':
                self._take(kind, *told)
