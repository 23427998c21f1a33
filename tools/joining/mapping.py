"""Maps: where each entry of a run came from. `tools/logs join --map` writes one, and `tools/logs where` reads it.

    totem-map 1
    log 2:1 0123abcd 2.1.log
    1-1542 1
    1543 1601
    1544 added
    end

A log of the run has a line with its process, as the run names it, the CRC-32 of its entries in the run, and its file. The lines after it have
its entries in their order: the entries from the first number to the second one are lines in a row of that file, from the third number on. A
single entry may have the time of its line after it. `added` is an entry that no line has (--failed, --torn), `added 7` one that was added before
line 7 (--transitional). All entries of a log that --made-up makes up are `1-12 made up`. If the logs are cut into several runs, each begins with a
line `run part-1.run`."""
import mmap
import os

from joining.lines import WIDTH
from joining.texts import who
from joining.trouble import WriteFailed, tell

HEAD = b'totem-map 1\n'


def _rows_with_times(part):
    """The entries of a part of a log that has times, each with its line and its time."""
    with open(part.log.times, 'rb') as it, mmap.mmap(it.fileno(), 0, access=mmap.ACCESS_READ) as times:
        for first, last, line in part.log.lines.rows(part.first, part.last):
            for entry in range(first, last + 1):
                own = line + entry - first
                if entry in part.log.lines.added:
                    yield entry, entry, own, b''
                    continue
                time = times[(own - 1) * WIDTH:own * WIDTH].rstrip()
                yield entry, entry, own, b' ' + time if time else b''


def _rows(part):
    """The rows of the entries of a part of a log, in the numbers of the part."""
    added = part.log.added.count(b'\n') if part.is_last else 0
    if part.log.is_made_up:
        yield b'1-%d made up\n' % (part.last - part.first + 1 + added)
        return
    if part.log.times:
        rows = _rows_with_times(part)
    else:
        rows = ((*row, b'') for row in part.log.lines.rows(part.first, part.last))
    before = part.first - 1
    for first, last, line, time in rows:
        numbers = b'%d' % (first - before) if first == last else b'%d-%d' % (first - before, last - before)
        how = b'added ' if first in part.log.lines.added else b''
        yield b'%s %s%d%s\n' % (numbers, how, line, time)
    for number in range(added):
        yield b'%d added\n' % (part.last - before + 1 + number)


def make_room(path):
    """Makes the file, empty, before the run is written: if that fails, there is no run."""
    with open(path, 'wb'):
        pass


def write(path, version, runs, sums, number):
    """Writes the map of these runs, by their names, which are empty if there is one run. `sums` has the CRC-32 of each log of each run."""
    try:
        _write(path, version, runs, sums, number)
    except OSError as error:
        raise WriteFailed('%s: %s: the run is written, and its map is not' % (path, error.strerror)) from error
    tell('where each entry came from is written to %s' % path)


def _write(path, version, runs, sums, number):
    with open(path, 'wb') as out:
        out.write(HEAD)
        for (name, parts), of_run in zip(runs.items(), sums):
            out.write(b'run %s\n' % name.encode() if name else b'')
            for part, of_log in zip(parts, of_run):
                out.write(b'log %s %08x %s\n' % (who(version, part, number).encode(), of_log, os.fsencode(part.log.name)))
                out.writelines(_rows(part))
        out.write(b'end\n')
