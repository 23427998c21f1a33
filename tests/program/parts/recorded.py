"""`tools/record` over a stand-in for Corosync's library: what it refuses, what it says, and the logs that it leaves."""
import os
import shutil
import signal
import subprocess
from datetime import datetime
from functools import partial

from harness import process, stand_in
from harness.stand_in import ALONE, COMPILER, LEAVE, LIBRARY, NODE, Place, Started
from harness.together import Together
from parts import record_ends, record_files
from parts.record_checks import boot, checked, differs

# Little patience, for cases in which nothing comes.
IMPATIENT = {'TOTEM_RECORD_PATIENCE': '0.4'}
TERM = (signal.SIGTERM,)
BUSY = 'for 0.4 s corosync has been too busy to '
ENDED = 'ended before corosync let it record'
WAITS = 'waits for corosync (error %d of libcpg, %s)'
NO_RIGHT = 'no right to use corosync: run this as root, or allow the user in a file of /etc/corosync/uidgid.d: uidgid { uid: %d }' % os.geteuid()

# The daemon refuses something: the script, what is waited for on standard error before the signals, the signals, the status, and what is told.
REFUSALS = {
    'no daemon': (
        'answer initialize 2\n', '', (), 1,
        [WAITS % (2, 'library error'),
         'corosync does not answer (error 2 of libcpg, library error): is it running on this node? Start it (systemctl start corosync)']),
    'a daemon that never lets anybody connect': (
        'answer initialize 6\n', '', (), 1, [WAITS % (6, 'try again'), 'corosync does not answer (error 6 of libcpg, try again)']),
    'no right': ('answer initialize 11\n', '', (), 1, [NO_RIGHT]),
    'no right when the daemon is there': ('answer initialize 2 6 11\n', '', (), 1, [WAITS % (2, 'library error'), NO_RIGHT]),
    'an error that has no name': (
        'answer initialize 99\n', '', (), 1, [WAITS % (99, 'unknown'), 'corosync does not answer (error 99 of libcpg, unknown)']),
    'a node without a number, for ever': (
        'answer local 6\n', BUSY, TERM, 1, [BUSY + 'say which node this is', ENDED]),
    'a group that nobody may join, for ever': (
        'answer join 6\n', BUSY, TERM, 1, [' writes LOGS/', BUSY + 'let this process join the group', ENDED]),
    'a group that nobody may join, an interrupt': (
        'answer join 6\n', BUSY, (signal.SIGINT,), 1, [' writes LOGS/', BUSY + 'let this process join the group', ENDED]),
    'a group whose name is too long for the daemon': (
        'answer join 13\n', '', (), 1, [' writes LOGS/', '--group GROUP: cpg_join: error 13 of libcpg (name too long)']),
    'too many groups': ('answer join 6 30\n', '', (), 1, [' writes LOGS/', '--group GROUP: cpg_join: error 30 of libcpg (too many groups)']),
    'messages that are too big': (
        'answer mcast 26\n' + ALONE, '', (), 1,
        [' writes LOGS/', '--size 100: cpg_mcast_joined: error 26 of libcpg (too big)']),
}

# Arguments that are refused: nothing is begun.
USAGE = {
    'no folder': ['--group', 'g'],
    'no arguments': [],
    'an abbreviation': ['--log', 'LOGS'],
    'a word too many': ['--logs', 'LOGS', 'more'],
    **{'a group %r' % name: ['--logs', 'LOGS', '--group', name] for name in ('', 'g' * 129, 'two words', 'gr\u00fcn', 'a\nb')},
    **{'a rate of ' + rate: ['--logs', 'LOGS', '--rate=' + rate] for rate in ('0', '-1', '0.001', '1001', 'nan', 'inf', 'five')},
    **{'a size of ' + size: ['--logs', 'LOGS', '--size=' + size] for size in ('0', '-1', '63', '1000001', '99.5', 'big')},
    **{'an end after ' + seconds: ['--logs', 'LOGS', '--for=' + seconds] for seconds in ('0', '-1', 'nan', '10000001', 'soon')},
}


def refuse(script, waits_for, numbers, status, told, is_long, _program):
    """The daemon refuses something, perhaps for so long that the recorder says something of that."""
    with Place() as it:
        started = it.start(script if 'node' in script else 'node %d\n%s' % (NODE, script), given=IMPATIENT if is_long else {})
        if waits_for and not started.says(waits_for):
            return 'it did not say %r: %r' % (waits_for, started.said)
        return checked(it, started.end(*numbers), status, *told)


def refuse_early(numbers, words, status, _program):
    """Somebody ends it while it waits for the daemon."""
    with Place() as it:
        started = it.start('answer initialize 6\n', *words)
        if not started.says('waits for corosync'):
            return 'it did not wait: %r' % started.said
        return checked(it, started.end(*numbers), status, WAITS % (6, 'try again'), ENDED) or it.names() and 'it left %r' % it.names()


def refuse_words(words, _program):
    """A usage error has the status 64, and nothing is begun."""
    with Place() as it:
        environment = {**process.ENVIRONMENT, 'LD_AUDIT': os.path.join(LIBRARY.build(), 'libcpg.so.4')}
        came = Started([stand_in.TOOL, *(word.replace('LOGS', it.path) for word in words)], environment, None, {}).end()
        is_right = came.status == 64 and not came.output and b'\nrecord: ' in came.errors and came.errors.startswith(b'usage: record ')
        return None if is_right and not os.path.exists(it.path) else 'came: %s' % came


# ---- the library, and the daemon that comes

def no_library(_program):
    """The dynamic loader finds no library (it is hidden from it, should it be there)."""
    with Place() as it:
        came = it.start(ALONE, given={'LD_AUDIT': os.path.join(LIBRARY.build(), 'libcpg.so.4')}).end()
        return checked(it, came, 1, ': install the package libcpg4 (Debian, Ubuntu) or corosynclib (Fedora, RHEL)') or (
            b'cannot open shared object file' not in came.errors and 'it did not say why: %s' % came)


def broken_library(_program):
    """A file of its name is no library."""
    with Place() as it:
        with open(os.path.join(it.room.name, 'libcpg.so.4'), 'wb'):
            pass
        came = it.start(ALONE, given={'LD_LIBRARY_PATH': it.room.name}).end()
        return checked(it, came, 1, 'libcpg.so.4: file too short: install the package libcpg4 ')


def wait_for_daemon(_program):
    """The daemon comes later, and is busy: the recorder waits, and says so once."""
    with Place() as it:
        started = it.start('answer initialize 2 2 6 1\nanswer local 6 1\nanswer join 6 6 1\n' + ALONE)
        if not it.goes('mcast 1', count=2):
            return 'it did not come so far: %r, %r' % (it.calls(), started.said)
        wrong = checked(it, started.end(signal.SIGTERM), 0, WAITS % (2, 'library error'), ' writes LOGS/', 'members 5:', '; it left')
        wanted = ['initialize 2'] * 2 + ['initialize 6', 'initialize 1', 'local 6', 'local 1', 'join 6', 'join 6', 'join 1']
        called = [call.split(' tested')[0] for _, _, call in it.calls()][:len(wanted)]
        said = started.said['stderr'].count(b'waits for corosync')
        return wrong or (called != wanted and 'it called %r' % called) or (said != 1 and 'it said %d times that it waits' % said)


def keep_dead(_program):
    """The group keeps a dead member of this node, or of another one: who joined later is the one that counts, and the log says so."""
    with Place() as it:
        started = it.start('node 5\nview joined self 1 members 2:20 5:1 self\nring 2 25 2 5\necho\nawait sends 1\n'
                           'view joined 2:10 1 members 2:20 2:10 5:1 self\n' + LEAVE)
        if not it.goes('mcast 1', count=3):
            return 'it did not come so far: %r' % started.said
        wrong = checked(it, started.end(signal.SIGTERM), 0, 'members 2:21 5:', 'members 2:11 5:', '; it left')
        wanted = [members + '5:%d' % (it.lives()[0] % 65535 + 1) for members in ('2:21 ', '', '2:11 ')]
        text = it.text(it.names()[0])
        changes = [line.split(' ', 2)[2] for line in it.entries(it.names()[0]) if line.startswith('conf ')]
        return wrong or (changes != wanted and 'it was in %r' % changes) or next(
            ('it did not say that %s is left out: %s' % (who, text) for who in ('node 5: 5:1', 'node 2: 2:20')
             if ' # two members of %s is left out\n' % who not in text), None)


def send_again(answers, _program):
    """A message that the daemon doesn't take yet is tried again, the same one: it has one line."""
    with Place() as it:
        started = it.start('answer mcast %s 1\n' % answers + ALONE, '--rate', '20')
        if not it.goes('mcast 1', count=3):
            return 'it did not come so far: %r, %r' % (it.calls(), started.said)
        wrong = checked(it, started.end(signal.SIGTERM), 0, '; it left')
        sent = [call.split(' ') for _, _, call in it.calls() if call.startswith('mcast')]
        same = [name for _, _, _, name, _ in sent[:len(answers.split()) + 1]]
        lines = [line for line in it.entries(it.names()[0]) if not line.startswith('conf ')]
        rest = [name for _, answer, _, name, _ in sent if answer == '1']
        wanted = [line for name in rest for line in ('send %s a %s' % (lines[-1].split(' ')[1], name), 'dlv %s %s' % (lines[-1].split(' ')[1], name))]
        if len(set(same)) != 1 or len(set(rest)) != len(rest):
            return 'it sent %r' % sent
        return wrong or (lines[:-1] != wanted and 'it wrote %r for %r' % (lines, sent))


def send_never(_program):
    """The daemon takes no message: the recorder says so, and can still leave."""
    with Place() as it:
        started = it.start('answer mcast 6\n' + ALONE, given=IMPATIENT)
        if not started.says('does the ring hang?') or not it.goes('mcast 6', count=3):
            return 'it did not say it: %r' % started.said
        wrong = checked(it, started.end(signal.SIGTERM), 0, 'nothing is delivered for 0.4 s though messages wait: does the ring hang?',
                        'sends 1, deliveries 0, changes 1; it left')
        name = it.names()[0]
        words = [line.split(' ')[0] for line in it.entries(name)]
        return wrong or (words != ['conf', 'send', 'fail'] and 'it wrote %r' % words) or (
            it.text(name).count(' # nothing is delivered for 0.4 s though messages wait\n') != 1 and 'the log does not say it once: %s' % it.text(name))


# ---- streams

def record_into(streams, _program):
    """Standard streams are closed, full or read by nobody: the log is the same, and no file takes the place of a stream."""
    with Place() as it:
        reader, writer = os.pipe()
        os.close(reader)
        with open('/dev/full', 'wb') as full:
            files = {name: {'full': full, 'nobody': writer}.get(what, subprocess.DEVNULL) for name, what in streams.items()}
            closed = [number for number, name in enumerate(('stdin', 'stdout', 'stderr')) if streams.get(name) == 'closed']
            started = it.start(ALONE, before=lambda: [os.close(number) for number in closed], **files)
        os.close(writer)
        if not it.goes('mcast 1', count=2):
            return 'it did not come so far: %r' % it.calls()
        life, = it.lives()
        taken = [os.readlink('/proc/%d/fd/%d' % (life, number)) for number in closed if os.path.lexists('/proc/%d/fd/%d' % (life, number))]
        came = started.end(signal.SIGTERM)
        wrong = checked(it, came, 0, *[] if 'stderr' in streams else ['; it left'])
        return wrong or [file for file in taken if file != '/dev/null'] and 'a closed stream is %r' % taken


def show_help(_program):
    """Help goes to standard output, and needs no library."""
    came = Started([stand_in.TOOL, '--help'], process.ENVIRONMENT, None, {}).end()
    is_right = (came.status, came.errors) == (0, b'') and came.output.startswith(b'usage: record ') and all(
        word in came.output for word in (b'--logs', b'--group', b'--rate', b'--size', b'--for', b'--no-sync'))
    return None if is_right else 'came: %s' % came


def help_nowhere(_program):
    """Help that can't be written."""
    with open('/dev/full', 'wb') as full:
        came = Started([stand_in.TOOL, '--help'], process.ENVIRONMENT, None, {'stdout': full}).end()
    return None if (came.status, came.errors) == (4, b'record: write failed\n') else 'came: %s' % came


def words_of_log(words, wanted, size, rate, _program):
    """What the arguments do: the first line of the log, the size of messages, and that no more are sent than the rate says."""
    with Place() as it:
        started = it.start(ALONE, *words)
        if not it.goes('mcast 1', count=9):
            return 'it did not come so far: %r' % started.said
        wrong = differs(it, started.end(signal.SIGTERM), 0, '; it left') or it.wrong_log(it.names()[0], 'sync=yes' in wanted)
        text = it.text(it.names()[0])
        first = text.split('\n', 1)[0].replace('group=' + it.group, 'group=GROUP')
        sizes = {int(call.split(' ')[2]) for _, _, call in it.calls() if call.startswith('mcast')}
        times = [datetime.fromisoformat(line[:26]) for line in text.split('\n') if ' send ' in line]
        # (the first ones may come faster, since it makes good for a pause)
        seconds = (times[-1] - times[0]).total_seconds()
        return wrong or (not first.endswith(' %s boot=%s' % (wanted, boot())) and 'it begins %r' % first) or (
            sizes != {size} and 'it sent messages of %r bytes' % sizes) or (
                seconds < (len(times) - 8) / rate and 'it sent %d in %.2f s' % (len(times), seconds))


def sync(words, _program):
    """The line of a message is on the disk before the message goes out, unless nobody wants that."""
    with Place() as it:
        started = it.start(ALONE, *words, '--rate', '50', given={'LD_PRELOAD': os.path.join(LIBRARY.build(), 'libcpg.so.4')})
        if not it.goes('mcast 1', count=10):
            return 'it did not come so far: %r' % started.said
        wrong = differs(it, started.end(signal.SIGTERM), 0, '; it left')
        text, size, count = it.text(it.names()[0]), 0, 0
        for _, _, call in it.calls():
            kind, _, *rest = call.split(' ')
            if kind == 'fsync':
                size, count = int(call.split(' ')[1]), count + 1
            elif kind == 'mcast' and not words and ' a %s\n' % rest[1] not in text[:size]:
                return wrong or '%s went out before its line was on the disk' % rest[1]
        return wrong or (words and count and 'it synced %d times' % count)


def _cases():
    for what, case in REFUSALS.items():
        yield what, partial(refuse, *case, 'right' not in what)
    for number in (signal.SIGTERM, signal.SIGHUP, signal.SIGINT):
        yield 'no daemon, and the signal %d' % number, partial(refuse_early, (number,), (), 1)
    yield 'no daemon, and an end', partial(refuse_early, (), ('--for', '0.3'), 1)
    for what, words in USAGE.items():
        yield what, partial(refuse_words, words)
    yield 'no library', no_library
    yield 'a library that is none', broken_library
    yield 'a daemon that comes', wait_for_daemon
    for answers in ('6', '6 6 6 6'):
        yield 'messages that are tried again: ' + answers, partial(send_again, answers)
    yield 'messages that are never taken', send_never
    yield 'members that are dead', keep_dead
    yield from record_files.cases()
    for streams in ({'stderr': 'closed'}, {'stderr': 'full'}, {'stderr': 'nobody'}, {'stdout': 'closed'}, {'stdin': 'closed'},
                    {'stdin': 'closed', 'stdout': 'closed', 'stderr': 'closed'}):
        yield 'streams: %r' % streams, partial(record_into, streams)
    yield 'help', show_help
    yield 'help on a full device', help_nowhere
    for words, wanted, size, rate in (
            ([], 'group=GROUP sync=yes', 100, 5), (['--no-sync', '--rate', '10.5'], 'group=GROUP sync=no', 100, 10.5),
            (['--size', '64', '--rate', '1000'], 'group=GROUP sync=yes', 64, 1000),
            (['--size', '1000000', '--rate', '20'], 'group=GROUP sync=yes', 1000000, 20),
            (['--group', 'g' * 113 + str(os.getpid()).zfill(15)], 'group=%s%015d sync=yes' % ('g' * 113, os.getpid()), 100, 5)):
        yield 'the words %s' % ' '.join(words)[:40], partial(words_of_log, words, wanted, size, rate)
    for words in ([], ['--no-sync']):
        yield 'what is on the disk %s' % ' '.join(words), partial(sync, words)
    yield from record_ends.cases()


def recorded():
    """A recorder over a stand-in for the library. Most cases wait, so they are done beside each other."""
    if not shutil.which(COMPILER):
        yield 'a compiler', lambda _program: 'there is no C compiler (%s, or another one by $CC) for the stand-in for libcpg' % COMPILER
        return
    yield from Together(_cases(), 8)
