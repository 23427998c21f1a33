"""Writes logs, or parts of them, as the text of a run."""
from typing import NamedTuple
from zlib import crc32

from joining.folder import Log, blocks


class Part(NamedTuple):
    """The entries of a log from one offset of its file up to another, whether its end is that of the log, and the numbers of the first and
    the last one in the log."""

    log: Log
    begin: int
    end: int
    is_last: bool
    first: int
    last: int


def whole(log):
    """All of a log."""
    return Part(log, 0, log.size, True, 1, log.entries)


def who(version, part, number):
    """The process of a part as a run of this version names it."""
    return '%d' % number(part.log.process) + ('' if version == 1 else ':%d' % (part.log.life or 1))


def closing(part):
    """What closes a log."""
    return part.log.ending if part.is_last else 'open'


def version_of(parts):
    """The least version that can express these parts."""
    if any(closing(part) == 'quiet' for part in parts):
        return 3
    return 1 if all(part.log.life is None for part in parts) else 2


def _entries(part, steps):
    """The entries of a part, in blocks. Each of the `steps` changes a block."""
    for block in blocks(part.log.path, part.begin, part.end):
        for step in steps:
            block = step(part.log, block)
        yield block
    if part.is_last and part.log.added:
        block = part.log.added
        for step in steps:
            block = step(part.log, block)
        yield block


def write(out, version, parts, steps, number):
    """Writes the text of a run; `number` returns the number of a process. Returns the CRC-32 of the entries of each log."""
    sums = []
    out.write(b'totem-run %d\n' % version)
    for part in parts:
        out.write(('log %s\n' % who(version, part, number)).encode())
        sums.append(0)
        for block in _entries(part, steps):
            out.write(block)
            sums[-1] = crc32(block, sums[-1])
        out.write(closing(part).encode() + b'\n')
    out.write(b'end\n')
    return sums
