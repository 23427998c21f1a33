"""Scripts that are refused: what is wrong, and in which line."""
from functools import partial

from harness import process

OF_32 = ' '.join(str(number) for number in range(1, 33))
# Scripts, what is wrong with each, and the line that is named.
BROKEN = (
    ('totem-script 3\nend\n', '1 Header', 1),
    ('totem-script 1', '8 Truncated', 1),
    ('', '8 Truncated', 1),
    ('totem-script 1\nring 4.1 1 2\nrun x\nend\n', '3 Number', 3),
    ('totem-script 1\nring 4.1 1 2\nwalk\nend\n', '2 Word', 3),
    ('totem-script 1\nring 4.1 1\ncrash 1\nreturn 1\nend\n', '2 Word', 4),
    ('totem-script 2\nring 4.1 1 2\nreturn x\nend\n', '3 Number', 3),
    ('totem-script 1\nend\n', '4 Order', 2),
    ('totem-script 1\nring 4.1 1 2\njoin\nring 4.3 3\nend\n', '4 Order', 4),
    ('totem-script 1\nring 4.2 1 2\nend\n', '5 Members', 2),
    ('totem-script 1\nring 4.1 1 2 2\nend\n', '5 Members', 2),
    ('totem-script 1\nring 4.1 1 2\nring 4.2 2 3\nend\n', '5 Members', 3),
    ('totem-script 1\nring 4.1 1 2\ntimer 3\nend\n', '5 Members', 3),
    ('totem-script 2\nring 4.1 1 2\nreturn 3\nend\n', '5 Members', 3),
    ('totem-script 1\nring 4.1 1 2\ncut 1\nend\n', '5 Members', 3),
    ('totem-script 1\nring 4.1 1 2\ncut 1 2 / 1\nend\n', '5 Members', 3),
    ('totem-script 1\nring 4.1 1 2\ndrop 2\nend\n', '6 Place', 3),
    ('totem-script 1\nring 4.1 1 2\nrepeat 2\nend\n', '6 Place', 3),
    ('totem-script 2\nring 4.1 1 2\nreturn 1\nend\n', '6 Place', 3),
    ('totem-script 2\nring 4294967292.1 1 2\ncrash 1\nreturn 1\nend\n', '6 Place', 4),
    ('totem-script 1\nring 4.1 1 2\nend\nx', '7 End', 4),
    ('totem-script 1\nring 4.1 1 2\nend\n\n', '7 End', 4),
    ('totem-script 1\nring 4.1 1 2\nend', '8 Truncated', 3),
    ('totem-script 1\nring 4.1 1 2\njoin\n', '8 Truncated', 4),
    ('totem-script 1\nring 4.1 %s 33\nend\n' % OF_32, '9 TooMany', 2),
    ('totem-script 2\nring 4.1 %s\ncrash 7\nreturn 7\nend\n' % OF_32, '9 TooMany', 4),
)
# Lines whose first unexpected byte is where a number is expected, or takes one out of its range.
NO_NUMBERS = ('run 0', 'run 01', 'run 100001', 'run ', 'timer 65536', 'return x', 'cut /', 'cut 1 / / 2', 'cut 1 x', 'ring x.1 1',
              'ring 4.x y', 'ring 4294967296.1 1', 'ring 4.1  1', 'ring 4.1 1 a', 'submit x a y')
LETTERS = 'submit 1 a 0123456789abcdef0123456789abcdef0123456789abcdef0123456789abcdef'
# Lines whose first unexpected byte is any other one; the end of the line is such a byte too.
NO_WORDS = ('', 'rings 4.1 1', ' ring 4.1 1', 'ring 4 1', 'ring 4.1', 'ring 4.1.2 1', 'run', 'run 1x', 'run 1 ', 'timer 1 2', 'return',
            'return 1 2', 'join 1', 'end ', 'cut', 'cut 1 /', 'cut 1 /2', 'submit 1', 'submit 1 a', 'submit 1 b x', 'submit 1 a X',
            'submit 1 a x y', 'repeats 1', LETTERS + 'g')
# Lines at the limits of what a script may have, and a process that returns so often that it has 32 lives, or one more.
TAKEN = (LETTERS, 'submit 2 s a1z', 'run 100000', 'cut 2 1', 'cut 2 / 1')
RETURNS = 'crash 1\nreturn 1\n' * 31
# 65,532 bytes: `join` in each line from the third on, 13,100 times.
LONG = 'totem-script 1\nring 4.1 1 2 345\n' + 'join\n' * 13100


def try_broken(script, kind, line, program):
    """A script is refused in this line. `sim` says what is wrong, `explain` also shows the line."""
    wanted = 'totem: script refused: %s\n' % kind
    made, _ = process.run([program, 'sim'], script.encode())
    told, _ = process.run([program, 'explain', '--script'], script.encode())
    is_right = (made.status, made.output, made.errors.decode()) == (2, b'', wanted) and told.status == 2 and \
        told.errors.decode().startswith(wanted + 'line %d:\n' % line)
    return None if is_right else 'came: %s and %s\n  wanted: %r in line %d' % (made, told, wanted, line)


def try_logs(script, count, program):
    """A script makes a run of this many logs."""
    made, _ = process.run([program, 'sim'], script.encode())
    is_right = made.status == 0 and made.output.count(b'\nlog ') == count
    return None if is_right else 'came: %s' % made


def scripts():
    """What is wrong with a script, and the limits of one."""
    for script, kind, line in BROKEN:
        yield '%s in line %d: %r' % (kind, line, script[:60]), partial(try_broken, script, kind, line)
    for fault, lines in (('3 Number', NO_NUMBERS), ('2 Word', NO_WORDS)):
        for line in lines:
            yield '%s: %r' % (fault, line), partial(try_broken, 'totem-script 2\nring 4.1 1 2\n%s\nend\n' % line, fault, 3)
    for line in TAKEN:
        yield 'taken: %r' % line, partial(try_logs, 'totem-script 2\nring 4.1 1 2\n%s\nend\n' % line, 2)
    yield '32 lives', partial(try_logs, 'totem-script 2\nring 4.1 1\n%send\n' % RETURNS, 32)
    yield '33 lives', partial(
        try_broken, 'totem-script 2\nring 4.1 1\n%scrash 1\nreturn 1\nend\n' % RETURNS, '9 TooMany', 66)
    yield '65,536 bytes and one', partial(try_broken, LONG + 'end\nx', '7 End', 13104)
    yield '65,537 bytes', partial(try_broken, LONG + 'join\n', '9 TooMany', 13103)
    yield '65,536 bytes', partial(try_logs, LONG + 'end\n', 3)
    yield '32 processes', partial(try_logs, 'totem-script 1\nring 4.1 %s\nend\n' % OF_32, 32)
