"""The folder for the copies of a proof; and those that killed proofs left."""
import fcntl
import os
import shutil
import stat
import tempfile
from contextlib import contextmanager

from proving.telling import tell

PREFIX = 'totem-prove-'
# The file that says that the folder is locked as long as the proof runs.
MARK = 'locked'


def _lock(path):
    """Opens a folder and locks it. Returns the open folder, or None if somebody else has the lock."""
    file = os.open(path, os.O_RDONLY | os.O_DIRECTORY | os.O_NOFOLLOW)
    try:
        fcntl.flock(file, fcntl.LOCK_EX | fcntl.LOCK_NB)
    except OSError:
        os.close(file)
        return None
    return file


def _is_own(path):
    found = os.lstat(path)
    return stat.S_ISDIR(found.st_mode) and found.st_uid == os.geteuid() and os.path.exists(os.path.join(path, MARK))


def _sweep(room):
    """Removes what proofs left that were killed."""
    try:
        names = os.listdir(room)
    except PermissionError:
        # (a folder in which one may only make others)
        return
    for name in names:
        path = os.path.join(room, name)
        try:
            file = _lock(path) if name.startswith(PREFIX) and _is_own(path) else None
        except OSError:
            # (it has ended in the meantime)
            continue
        if file is not None:
            tell('removing the copies that a killed proof left in %s' % path)
            shutil.rmtree(path, ignore_errors=True)
            os.close(file)


@contextmanager
def folder_in(room):
    """A new folder in `room`, which is removed in the end."""
    _sweep(room)
    path = tempfile.mkdtemp(prefix=PREFIX, dir=room)
    file = None
    try:
        file = _lock(path)
        with open(os.path.join(path, MARK), 'w', encoding='ascii'):
            pass
        yield path
    finally:
        shutil.rmtree(path, ignore_errors=True)
        if file is not None:
            os.close(file)
