"""PROVED.txt, beside a program: what it was made from, with which kit, and what the prover said of each crate. tools/sources reads its
third and fourth line."""
import hashlib
import os
import shutil

from proving.telling import Unmade

NAME = 'PROVED.txt'
PROGRAM = 'program as built, not stripped: sha256 '


def digest_of(path):
    """The SHA-256 of a file."""
    found = hashlib.sha256()
    with open(path, 'rb') as it:
        while True:
            part = it.read(1 << 20)
            if not part:
                return found.hexdigest()
            found.update(part)


def _text_of(kit, commit, sources, program, said):
    """The text of PROVED.txt: `said` has a pair for each crate, its name and the prover's last line about it."""
    lines = ['kit: ' + kit, 'commit: ' + commit, 'sources: sha256 ' + sources, PROGRAM + program,
             *('%s: %s' % it for it in said)]
    return ''.join(line + '\n' for line in lines)


def _move(path, place):
    """Moves a file into its place at once, when all of it is on the disk."""
    with open(path, 'rb') as it:
        os.fsync(it.fileno())
    os.replace(path, place)


def put_in_place(built, place, **made):
    """Moves a program into its place, and then PROVED.txt beside it. In between, what is there doesn't name this program, so the program
    doesn't count as proved."""
    if not os.access(built, os.X_OK) or not os.path.isfile(built):
        raise Unmade('rt ci passed, but built no program')
    path = os.path.join(os.path.dirname(place), NAME)
    shutil.copy(built, place + '.new')
    with open(path + '.new', 'w', encoding='utf-8') as it:
        it.write(_text_of(program=digest_of(built), **made))
    _move(place + '.new', place)
    _move(path + '.new', path)
