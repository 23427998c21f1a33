"""The library `refuse.c`, built once, and programs that run under it."""
import os
import struct
import subprocess
from dataclasses import dataclass

from harness import process

SOURCE = os.path.join(os.path.dirname(os.path.abspath(__file__)), 'refuse.c')
COUNTS = struct.Struct('7Q')


class NotLoaded(Exception):
    """The library was not loaded into a program, so nothing can be refused to it."""


@dataclass(frozen=True)
class Ended:
    """How a run ended: its answer, what it requested, and what it was refused."""

    answer: process.Answer
    growths: int
    refused: int
    threads: int
    refused_threads: int
    reads: int
    writes: int
    failures: int

    @property
    def met(self):
        """Whether anything was refused, or failed."""
        return self.refused + self.refused_threads + self.failures > 0


class Shim:
    """Stands between programs and the C library."""

    def __init__(self, folder):
        self.library = os.path.join(folder, 'refuse.so')
        compiler = os.environ.get('CC', 'cc')
        subprocess.run([compiler, '-O2', '-Wall', '-shared', '-fPIC', '-o', self.library, SOURCE], check=True)

    def run(self, words, given=b'', others=None, **variables):
        """Runs a program. The variables are those at the head of `refuse.c`."""
        report = os.memfd_create('report')
        try:
            environment = dict(process.ENVIRONMENT, LD_PRELOAD=self.library)
            environment['REFUSE_REPORT'] = '/proc/%d/fd/%d' % (os.getpid(), report)
            environment.update((name, str(value)) for name, value in variables.items())
            answer, _ = process.run(words, given, environment=environment, others=others)
            counts = os.pread(report, COUNTS.size, 0)
        finally:
            os.close(report)
        if len(counts) < COUNTS.size:
            raise NotLoaded('%s does not load %s: %s' % (words[0], self.library, answer))
        return Ended(answer, *COUNTS.unpack(counts))
