"""Thousands of random folders, joined by `tools/logs join`: whether the tool says all that it changes. The command `unsaid`, beside the folder
of the parts, tries them, in processes of its own; by hand it tries more."""
import os
import re
import subprocess
import sys
from functools import partial

from harness import process
from harness import rows as row_files

COMMAND = os.path.join(row_files.REPOSITORY, 'tests', 'program', 'unsaid')
CASES = 3000
SECONDS = 240
# What has to happen in some of the cases: the verdict on the folder, and on what was written.
SEEN = ('the same verdict', 'no became yes', 'no became not joined', 'yes became not joined', 'refused became not joined')


def try_cases(seed, program):
    """All cases of a seed."""
    words = [sys.executable, '-B', COMMAND, '--cases', str(CASES), '--seed', seed, '--program', program,
             '--patience', str(process.allowed(1))]
    came = subprocess.run(words, stdin=subprocess.DEVNULL, capture_output=True, env=process.ENVIRONMENT, timeout=process.allowed(SECONDS),
                          check=False)
    told = came.stdout.decode().splitlines()[-1:]
    is_right = came.returncode == 0 and told and all(re.search(r'\b%s [1-9]' % what, told[0]) for what in SEEN)
    return None if is_right else 'status %d: %s\n%s' % (came.returncode, came.stdout.decode(), came.stderr.decode())


def unsaid():
    """Nothing is changed unsaid."""
    yield 'the first seed', partial(try_cases, '1')
