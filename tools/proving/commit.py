"""Which commit a copy of the sources is."""
import hashlib
import os
import subprocess

from proving.copies import LEFT_OUT, TOP, part_of
from proving.telling import Unmade


def _git(*words):
    """What git prints about the repository of this folder, whatever the environment says; or None if it fails or is not there."""
    environment = {name: value for name, value in os.environ.items() if not name.startswith('GIT_')}
    try:
        came = subprocess.run(['git', '-C', TOP, *words], env=environment, stdin=subprocess.DEVNULL, stdout=subprocess.PIPE, stderr=subprocess.DEVNULL,
                              check=False)
    except OSError:
        return None
    return came.stdout if came.returncode == 0 else None


def _files_of(folder):
    """The files of a copy of crates: their names below its top, and their contents."""
    for at, _, names in os.walk(os.path.join(folder, 'crates')):
        for name in names:
            path = os.path.join(at, name)
            with open(path, 'rb') as it:
                yield os.fsencode(os.path.relpath(path, folder)), it.read()
    with open(os.path.join(folder, 'HANDLES'), 'rb') as it:
        yield b'HANDLES', it.read()


def _is_left_out(name):
    words = name.split(b'/')
    return len(words) > 3 and words[2] in map(os.fsencode, LEFT_OUT)


def _blobs_of(commit, names):
    """The names of the files of these crates in a commit, and what git calls their contents."""
    told = _git('ls-tree', '-r', '-z', '--full-tree', commit, '--', 'HANDLES', *('crates/%s/' % it for it in names))
    found = {}
    for entry in (told or b'').split(b'\0')[:-1]:
        what, _, name = entry.partition(b'\t')
        if not _is_left_out(name):
            found[name] = what.split(b' ')[2].decode('ascii')
    return found


def _is_of(commit, folder, program):
    """Whether a copy of a program's sources has what a commit has, and nothing else."""
    whole = _git('show', commit + ':crates.txt')
    with open(os.path.join(folder, 'crates.txt'), encoding='utf-8') as it:
        part = it.read()
    try:
        if whole is None or part != part_of(whole.decode('utf-8'), program):
            return False
    except (UnicodeDecodeError, Unmade):
        return False
    blobs = _blobs_of(commit, os.listdir(os.path.join(folder, 'crates')))
    kind = hashlib.sha1 if len(commit) == 40 else hashlib.sha256
    return blobs == {name: kind(b'blob %d\0' % len(it) + it).hexdigest() for name, it in _files_of(folder)}


def commit_of(folder, program):
    """The commit of the sources that a copy was made from; whether the copy differs from it; 'unknown' where there is no commit."""
    told = _git('rev-parse', '--verify', 'HEAD^{commit}')
    prefix = _git('rev-parse', '--show-prefix')
    if told is None or prefix is None or prefix.strip():
        return 'unknown'
    commit = told.decode('ascii').strip()
    return commit if _is_of(commit, folder, program) else commit + ', with changes'
