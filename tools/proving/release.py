"""An archive with a proved program."""
import gzip
import os
import re
import shutil
import subprocess
import tarfile
import tempfile

from proving import record
from proving.copies import TOP, is_fresh
from proving.making import make, out_of
from proving.telling import Unmade

PROGRAM = 'totem'
# The tools that need no sources, with their packages, and the pages that are about the sources.
TOOLS = 'record', 'logs', 'shrink', 'play', 'hunt'
PACKAGES = 'recording', 'joining', 'shrinking', 'hunting', 'playing', 'running'
SOURCE_PAGES = ('ARCHITECTURE.md', 'CONTRIBUTING.md', 'DECISIONS.md', 'LIBRARY.md')
LINK = re.compile(r'\[([^]]*)\]\(([^)#]+)(?:#[^)]*)?\)')
SECTION = re.compile(r'(?ms)^## ([^\n]*)\n.*?(?=^## |\Z)')


def _answer_of(what, *words):
    """What a command prints; raises if it fails."""
    try:
        came = subprocess.run(words, stdin=subprocess.DEVNULL, stdout=subprocess.PIPE, encoding='utf-8', errors='replace', check=False)
    except OSError as error:
        raise Unmade('there is no release: %s: %s' % (what, error)) from error
    if came.returncode:
        raise Unmade('there is no release: %s ended with status %d' % (what, came.returncode))
    return came.stdout


def _version_of(program):
    """The version that a program names."""
    words = _answer_of('the program', program, '--version').split()
    if len(words) != 2 or words[0] != PROGRAM or not words[1].replace('.', '').replace('-', '').isalnum():
        raise Unmade('there is no release: the program names no version, but says %r' % ' '.join(words))
    return words[1]


def _copy_built(folder):
    """Copies the program and its PROVED.txt to a folder. Raises if they don't belong together, or not to the sources as they are."""
    built, told = os.path.join(folder, 'built'), os.path.join(folder, record.NAME)
    shutil.copy(os.path.join(out_of(PROGRAM), PROGRAM), built)
    shutil.copyfile(os.path.join(out_of(PROGRAM), record.NAME), told)
    with open(told, encoding='utf-8') as it:
        lines = it.read().splitlines()
    if record.PROGRAM + record.digest_of(built) not in lines:
        raise Unmade('there is no release: %s is not about the program beside it' % os.path.join(out_of(PROGRAM), record.NAME))
    if not is_fresh(PROGRAM):
        raise Unmade('there is no release: a source changed since the program was proved')
    return built


def _line_of(path, name):
    """A line of SHA256SUMS, as sha256sum writes it."""
    spelled = name.replace('\\', '\\\\').replace('\n', '\\n').replace('\r', '\\r')
    return '%s%s  %s\n' % ('\\' * (spelled != name), record.digest_of(path), spelled)


def _write_sums(folder):
    """Writes the SHA-256 of all files below a folder to its file SHA256SUMS."""
    names = [os.path.relpath(os.path.join(at, name), folder) for at, _, files in os.walk(folder) for name in files]
    lines = [_line_of(os.path.join(folder, name), './' + name) for name in sorted(names, key=os.fsencode)]
    with open(os.path.join(folder, 'SHA256SUMS'), 'w', encoding='utf-8', errors='surrogateescape') as it:
        it.writelines(lines)


def _plain(entry):
    """An entry of the archive, without what differs from machine to machine."""
    entry.mtime = entry.uid = entry.gid = 0
    entry.uname = entry.gname = ''
    entry.mode = 0o755 if entry.isdir() or entry.mode & 0o100 else 0o644
    return entry


def _pack(folder, path):
    """Writes a folder to an archive, its files in order."""
    with open(path, 'wb') as file, gzip.GzipFile('', 'wb', 9, file, 0) as packed, \
            tarfile.open(fileobj=packed, mode='w', format=tarfile.GNU_FORMAT) as archive:
        archive.add(folder, os.path.basename(folder), filter=_plain)


def _put(path, folder, name):
    """Moves a file to a folder, at once."""
    place = os.path.join(folder, name)
    shutil.copyfile(path, place + '.new')
    os.replace(place + '.new', place)
    return place


def _copy_tree(name, whole, *left_out):
    """Copies a folder of the repository to the archive's folder."""
    shutil.copytree(os.path.join(TOP, name), os.path.join(whole, name), ignore=shutil.ignore_patterns('__pycache__', *left_out))


def _readme():
    """The archive's README: a line `{..}` of tools/proving/ARCHIVE.md stands for the section of README.md with this title."""
    with open(os.path.join(TOP, 'README.md'), encoding='utf-8') as it:
        sections = {found[1]: found[0] for found in SECTION.finditer(it.read())}
    with open(os.path.join(TOP, 'tools', 'proving', 'ARCHIVE.md'), encoding='utf-8') as it:
        return re.sub(r'(?m)^\{(.*)\}\n', lambda found: sections[found[1]], it.read()).rstrip('\n') + '\n'


def _cut_dead_links(whole):
    """In the archive's pages, leaves only the text of links to what the archive does not have."""
    for at, _, names in os.walk(whole):
        for name in names:
            if name.endswith('.md'):
                path = os.path.join(at, name)
                with open(path, encoding='utf-8') as it:
                    text = it.read()
                with open(path, 'w', encoding='utf-8') as it:
                    it.write(LINK.sub(lambda found, at=at: found[0] if os.path.exists(os.path.join(at, found[2])) else found[1], text))


def _copy_rest(whole):
    """Copies examples, tools and pages to the archive's folder."""
    _copy_tree('examples', whole)
    _copy_tree('docs', whole, *SOURCE_PAGES)
    os.mkdir(os.path.join(whole, 'tools'))
    for name in TOOLS:
        shutil.copy(os.path.join(TOP, 'tools', name), os.path.join(whole, 'tools'))
    for name in PACKAGES:
        _copy_tree(os.path.join('tools', name), whole)
    shutil.copy(os.path.join(TOP, 'CHANGELOG.md'), whole)
    with open(os.path.join(whole, 'README.md'), 'w', encoding='utf-8') as it:
        it.write(_readme())
    _cut_dead_links(whole)


def release(folder, anew):
    """Proves the program, and writes its archive to a folder; returns the path of the archive. Whoever calls this has the lock."""
    os.makedirs(folder, exist_ok=True)
    make(PROGRAM, anew)
    with tempfile.TemporaryDirectory() as room:
        built = _copy_built(room)
        name = '%s-%s-x86_64-linux' % (PROGRAM, _version_of(built))
        whole = os.path.join(room, name)
        _copy_rest(whole)
        shutil.copy(os.path.join(room, record.NAME), whole)
        _answer_of('strip', 'strip', '--strip-all', '-o', os.path.join(whole, PROGRAM), built)
        _write_sums(whole)
        archive, sums = os.path.join(room, 'archive'), os.path.join(room, 'sums')
        _pack(whole, archive)
        with open(sums, 'w', encoding='ascii') as it:
            it.write(_line_of(archive, name + '.tar.gz'))
        # (an archive never stands beside the checksum of another one)
        if os.path.exists(os.path.join(folder, name + '.tar.gz.sha256')):
            os.remove(os.path.join(folder, name + '.tar.gz.sha256'))
        place = _put(archive, folder, name + '.tar.gz')
        _put(sums, folder, name + '.tar.gz.sha256')
    return place
