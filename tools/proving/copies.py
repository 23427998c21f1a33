"""The crates of a program, and copies of their sources."""
import os
import shutil
import subprocess
from collections import namedtuple

from proving.telling import Unmade

TOP = os.path.dirname(os.path.dirname(os.path.dirname(os.path.abspath(__file__))))
# What is in a crate's folder and is not part of its sources. (tools/sources leaves out the same.)
LEFT_OUT = ('out', 'must-fail')

Crate = namedtuple('Crate', 'name below size')


def _lines(text):
    """The lines of a crates.txt, each with the crate that it is about and the crates that this one uses."""
    for line in text.split('\n'):
        name, colon, below = line.partition('#')[0].partition(':')
        if colon and name.split():
            yield line + '\n', name.split()[0], below.split()


def _needed(text, program):
    """The crates that a program uses, and its own, by a crates.txt."""
    listed = {name: below for _, name, below in _lines(text)}
    if program not in listed:
        raise Unmade('crates.txt names no crate %s' % program)
    reached, left = set(), [program]
    while left:
        name = left.pop()
        if name in listed and name not in reached:
            reached.add(name)
            left += listed[name]
    return reached


def part_of(text, program):
    """The lines of a crates.txt about the crates that a program uses, and about its own."""
    names = _needed(text, program)
    return ''.join(line for line, name, _ in _lines(text) if name in names)


def _text_of(top):
    """The text of the crates.txt in a folder."""
    path = os.path.join(top, 'crates.txt')
    try:
        with open(path, encoding='utf-8') as it:
            return it.read()
    except UnicodeDecodeError as error:
        raise Unmade('%s is not a text in UTF-8' % path) from error


def _size_of(folder):
    """How many bytes of code a crate has."""
    total = 0
    for at, folders, files in os.walk(folder):
        folders[:] = [it for it in folders if it not in LEFT_OUT]
        total += sum(os.lstat(os.path.join(at, it)).st_size for it in files if it.endswith('.rt'))
    return total


def crates_of(program, top=TOP):
    """The crates that a program uses, lowest first, and its own."""
    text = _text_of(top)
    needed, found = _needed(text, program), {}
    for _, name, below in _lines(text):
        if name in needed:
            above = [it for it in below if it in needed and it not in found]
            if name in found:
                raise Unmade('crates.txt: %s is listed twice' % name)
            if above:
                raise Unmade('crates.txt: %s is listed before %s, which it uses' % (name, above[0]))
            found[name] = Crate(name, [it for it in below if it in needed], _size_of(os.path.join(top, 'crates', name)))
    return list(found.values())


def copy_crates(program, folder, top=TOP):
    """Copies the sources of a program's crates to a new folder: a repository of these crates alone."""
    os.makedirs(os.path.join(folder, 'crates'))
    shutil.copy(os.path.join(top, 'HANDLES'), folder, follow_symlinks=False)
    part = part_of(_text_of(top), program)
    with open(os.path.join(folder, 'crates.txt'), 'w', encoding='utf-8') as it:
        it.write(part)
    for _, name, _ in _lines(part):
        place = os.path.join(top, 'crates', name)
        # (a link stays a link, and sum_of refuses it)
        shutil.copytree(place, os.path.join(folder, 'crates', name), symlinks=True,
                        ignore=lambda at, names, place=place: [it for it in names if at == place and it in LEFT_OUT])


def _answer_of(*words):
    """What tools/sources answers."""
    came = subprocess.run([os.path.join(TOP, 'tools', 'sources'), *words], stdin=subprocess.DEVNULL, stdout=subprocess.PIPE, text=True,
                          check=False)
    if came.returncode or not came.stdout.strip():
        raise Unmade('tools/sources %s ended with status %d' % (words[0], came.returncode))
    return came.stdout.strip()


def sum_of(folder, program):
    """The sum of a program's sources in a folder."""
    return _answer_of('sum', folder, program)


def is_fresh(program):
    """Whether a program was proved from the sources as they are now."""
    return _answer_of('state', program) == 'fresh'
