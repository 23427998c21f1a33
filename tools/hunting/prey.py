"""What a hunt has seen and found, and where that is kept."""
import fcntl
import os
import tempfile
from collections import Counter
from contextlib import contextmanager

from playing import script
from shrinking.program import Refused


def name_of(broken):
    """The specifications that a run breaks, as a word."""
    return '-'.join(broken)


def length_of(text):
    """What is to be small of a script: its lines, then its bytes."""
    return text.count(b'\n'), len(text)


def _read(path):
    """What is in a file, or None if it is not there."""
    try:
        with open(path, 'rb') as it:
            return it.read()
    except FileNotFoundError:
        return None


class Found:
    """Counts of what was seen, and for each set of broken specifications the shortest script. It is written to a folder at once, so a hunt
    that is killed loses nothing; and nothing that is there is lost to another hunt. `judge` returns what the run of a script breaks, or
    None if it breaks nothing or the text is no script."""

    def __init__(self, folder, judge):
        self.folder, self.judge = folder, judge
        self.counts = Counter()
        self.noes = {}
        # The shortest script of each set: its length, and its seed, or None if it was there before.
        self.shortest = {}
        # What this hunt wrote last of each set.
        self.written = {}
        self.others = []
        # What was there and had to make room.
        self.moved = []

    def check_folder(self):
        """Writes a file to the folder, or to where it would be made, and removes it; raises if that fails."""
        folder = os.path.abspath(self.folder)
        while not os.path.lexists(folder):
            folder = os.path.dirname(folder)
        try:
            with tempfile.NamedTemporaryFile(dir=folder) as it:
                it.write(b'tried')
                it.flush()
        except OSError as error:
            raise Refused('the folder %s can\'t be written: %s: %s' % (self.folder, folder, error.strerror)) from error

    @contextmanager
    def _locked(self):
        """Makes the folder, and keeps other hunts from writing to it."""
        os.makedirs(self.folder, exist_ok=True)
        file = os.open(self.folder, os.O_RDONLY | os.O_DIRECTORY)
        try:
            fcntl.flock(file, fcntl.LOCK_EX)
            yield
        finally:
            os.close(file)

    def _put(self, name, text):
        """Writes a file at once: a hunt that is killed leaves no part of it."""
        path = os.path.join(self.folder, name)
        with open(path + '.new', 'wb') as it:
            it.write(text)
        os.replace(path + '.new', path)

    def _make_room(self, name):
        """Gives a file that is something else another name."""
        place = number = None
        while place is None or os.path.lexists(os.path.join(self.folder, place)):
            number = (number or 0) + 1
            place = '%s.%d' % (name, number)
        os.rename(os.path.join(self.folder, name), os.path.join(self.folder, place))
        self.moved.append((name, place))

    def _breaks(self, text, broken):
        try:
            return self.judge(text) == broken
        except Refused:
            return False

    def add_counts(self, counts):
        """Adds what some seeds saw."""
        self.counts.update(counts)

    def add_no(self, seed, broken, text):
        """Records a broken run."""
        self.noes.setdefault(broken, []).append(seed)
        with self._locked(), open(os.path.join(self.folder, 'noes'), 'ab') as it:
            it.write(('seed %d: %s\n' % (seed, ' '.join(broken))).encode())
        self.add_script(seed, broken, text)

    def add_script(self, seed, broken, text):
        """Keeps a script that breaks these, if it is the shortest so far, also of those that were there before."""
        if broken in self.shortest and (*length_of(text), seed) >= self.shortest[broken]:
            return
        name = name_of(broken) + '.script'
        with self._locked():
            there = _read(os.path.join(self.folder, name))
            if there not in (None, self.written.get(broken)):
                if not self._breaks(there, broken):
                    self._make_room(name)
                elif length_of(there) <= length_of(text):
                    # (a seed is 0 or more)
                    self.shortest[broken] = (*length_of(there), -1)
                    return
            self._put(name, text)
        self.shortest[broken], self.written[broken] = (*length_of(text), seed), text

    def add_other(self, seed, text):
        """Records a script for which the program makes another run than docs/PROTOCOL.md."""
        self.others.append(seed)
        name = 'other-%d.script' % seed
        with self._locked():
            if _read(os.path.join(self.folder, name)) not in (None, text):
                self._make_room(name)
            self._put(name, text)

    def _line_of(self, broken):
        """What was found of a set of specifications."""
        line = '%s: %d runs, the first by seed %d' % (' and '.join(broken), len(self.noes[broken]), min(self.noes[broken]))
        if broken not in self.shortest:
            return line + '; its script could not be written'
        length, _, seed = self.shortest[broken]
        return '%s; the shortest script has %d lines (%s), in %s' % (
            line, length, 'it was there before' if seed < 0 else 'seed %d' % seed, os.path.join(self.folder, name_of(broken) + '.script'))

    def lines(self):
        """What was seen and found, for people."""
        counts = self.counts
        yield '%d runs: %d packets came, %d rings were installed; %d yes, %d no' % (
            counts['runs'], counts['packets'], counts['rings'], counts['yes'], counts['no'])
        if counts['long']:
            yield '%d seeds were not played: their scripts have more than %d bytes' % (counts['long'], script.MOST_BYTES)
        for broken in sorted(self.noes, key=lambda broken: (len(broken), broken)):
            yield self._line_of(broken)
        for seed in sorted(self.others):
            yield 'seed %d: the program makes another run than tools/playing, in %s' % (
                seed, os.path.join(self.folder, 'other-%d.script' % seed))
        for name, place in self.moved:
            yield '%s was no script for this, and is now %s' % (os.path.join(self.folder, name), os.path.join(self.folder, place))
