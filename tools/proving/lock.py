"""One proof at a time in a clone."""
import fcntl
import os
from contextlib import contextmanager

from proving.copies import TOP
from proving.telling import tell


@contextmanager
def locked():
    """Waits until nobody else proves here, or makes a release. (The folder itself is locked, as git replaces the files in it.)"""
    file = os.open(TOP, os.O_RDONLY | os.O_DIRECTORY)
    try:
        try:
            fcntl.flock(file, fcntl.LOCK_EX | fcntl.LOCK_NB)
        except BlockingIOError:
            tell('another call is proving here; waiting until it ends')
            fcntl.flock(file, fcntl.LOCK_EX)
        yield
    finally:
        os.close(file)
