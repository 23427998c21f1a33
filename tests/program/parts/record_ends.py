"""How a recording ends: by signals, by the group, with the daemon, or with the recorder itself. What is on the disk is never lost."""
import os
import re
import signal
from functools import partial

from harness import process, stand_in
from harness.stand_in import ALONE, BEGIN, LEAVE, NODE, Place
from parts.record_checks import checked

IMPATIENT = {'TOTEM_RECORD_PATIENCE': '0.4'}
# Two members: this one, and 2:200, which says what a test lets it say after `await go`.
TWO = 'node %d\nview joined self 1 members 2:200 self\nring 2 25 2 %d\necho\nawait go\n' % (NODE, NODE)
OTHER = 'deliver 2:200 2500000.2#%d %s and so on\n'
HANGS = 'nothing is delivered for 0.4 s though messages wait: does the ring hang?'
REMARK = ' # nothing is delivered for 0.4 s though messages wait\n'
SUMMARY = re.compile(rb'record: (\S+\.log): sends ([0-9]+), deliveries ([0-9]+), changes ([0-9]+); ')


def last_words(it, name):
    """The word of the last entry of a log."""
    return it.entries(name)[-1].split(' ')[0]


def wrong_end(it, came, ending, name=None):
    """What is wrong with the last line of a log, and with the counts that are said of it."""
    name = name or it.names()[-1]
    words = [line.split(' ')[0] for line in it.entries(name)]
    said = {os.path.basename(path.decode()): tuple(map(int, counts)) for path, *counts in SUMMARY.findall(came.errors)}
    wanted = tuple(words.count(word) for word in ('send', 'dlv', 'conf'))
    if words[-1] != ending or words.count('fail') + words.count('quiet') != (ending in ('fail', 'quiet')):
        return '%s does not end with %s: %r' % (name, ending, it.text(name)[-300:])
    if ending == 'fail' and it.entries(name)[-1].split(' ')[1] != [line.split(' ')[1] for line in it.entries(name) if line.startswith('conf')][-1]:
        return '%s fails elsewhere: %r' % (name, it.text(name)[-300:])
    return None if said.get(name) == wanted else '%s has %r, and it said %r' % (name, wanted, said)


def words_sent(it, life=1):
    """The words that the messages of a life have, other than `-`."""
    sent = [call.split(' ') for number, _, call in it.calls() if number == life and call.startswith('mcast 1 ')]
    return [words[-1] for words in sent if words[-1] != '-']


def begun(script, *words, count=2, given=None):
    """A place, and a recorder there that has handed over some messages."""
    it = Place()
    started = it.start(script, *words, given=given)
    if not it.goes('mcast 1', count=count):
        it.__exit__()
        raise AssertionError('it did not come so far: %r, %r' % (it.calls(), started.said))
    return it, started


# ---- by signals

def leave(script, numbers, is_told, _program):
    """It leaves the group, and fails where it stands; that is no failure of the recorder."""
    it, started = begun(script)
    with it:
        came = started.end(*numbers)
        wrong = checked(it, came, 0, 'members 5:', '; it left') or wrong_end(it, came, 'fail')
        asked = [call for _, _, call in it.calls() if call.startswith('leave')]
        return wrong or (asked[-1:] != ['leave 1'] and 'it did not leave: %r' % asked) or words_sent(it) and 'it said %r' % words_sent(it) or (
            is_told != ('left %d:%d leave' % (NODE, it.lives()[0]) in it.text(it.names()[0])) and 'it was told: %r' % (not is_told))


def leave_all_at_once(_program):
    """A service manager sends SIGTERM to all of its processes, twice."""
    it, started = begun(ALONE)
    with it:
        os.killpg(started.process.pid, signal.SIGTERM)
        came = started.end(*[] if started.process.poll() is not None else [signal.SIGTERM])
        return checked(it, came, 0, '; it left') or wrong_end(it, came, 'fail')


def end_all(way, _program):
    """Ended by Ctrl-C (in the whole group of processes of a terminal, or by one signal) or after a time, a member that is alone answers itself."""
    it, started = begun(ALONE, *['--for', '1.5'] if way == '--for' else [])
    with it:
        if way == 'terminal':
            os.killpg(started.process.pid, signal.SIGINT)
        came = started.end(*[signal.SIGINT] if way == 'signal' else [])
        wrong = checked(it, came, 0, '; all have ended') or wrong_end(it, came, 'quiet')
        return wrong or (words_sent(it) != ['stop', 'bye'] and 'it said %r' % words_sent(it))


def end_of_two(begins, script, wanted, counts, _program):
    """All end when each member has answered, whoever began. `counts`: how many regular configurations the log has."""
    it, started = begun(TWO + script)
    with it:
        if begins:
            started.signal(signal.SIGINT)
            if not stand_in.until(lambda: words_sent(it) == ['stop', 'bye']):
                return 'it said %r' % words_sent(it)
        before = started.process.poll() is None and last_words(it, it.names()[0]) != 'quiet'
        it.go()
        came = started.end()
        wrong = checked(it, came, 0, '; all have ended') or wrong_end(it, came, 'quiet')
        changes = [line for line in it.entries(it.names()[0]) if line.startswith('conf r')]
        return wrong or (not before and 'it ended before the other one answered') or (
            (words_sent(it), len(changes)) != (wanted, counts) and 'it said %r, and has %r' % (words_sent(it), changes))


def interrupt_twice(_program):
    """The second Ctrl-C ends it at once, and its log stays open; the next recorder closes it."""
    it, started = begun(TWO)
    with it:
        started.signal(signal.SIGINT)
        if not stand_in.until(lambda: words_sent(it) == ['stop', 'bye']):
            return 'it said %r' % words_sent(it)
        came = started.end(signal.SIGINT)
        name = it.names()[0]
        wrong = checked(it, came, 1, '; it was stopped') or last_words(it, name) in ('quiet', 'fail') and 'it is closed: %r' % it.text(name)
        if wrong:
            return wrong
        other = it.start(ALONE)
        if not it.goes('mcast 1', which=2):
            return 'the next one did not come so far: %r' % other.said
        return checked(it, other.end(signal.SIGTERM), 0, name + ' is closed with `fail`', '; it left') or (
            last_words(it, name) != 'fail' and 'it is not closed: %r' % it.text(name))


def end_blocked(numbers, _program):
    """A call of the library doesn't return: the recorder says that nothing is delivered, can still be ended, and the log stays open."""
    with Place() as it:
        started = it.start('answer mcast 1 never\n' + BEGIN + 'await go\necho\n', given=IMPATIENT)
        if not started.says(HANGS):
            return 'it did not say it: %r' % started.said
        life, = it.lives()
        # (a signal that comes before the first one was handled is none, so there are as many as it takes)
        for number in numbers:
            started.signal(number)
            stand_in.until(lambda: started.process.poll() is not None, 5)
        wrong = checked(it, started.end(), 1, HANGS, 'corosync did not answer: the log stays open, and the next recorder on this node closes it')
        return wrong or (last_words(it, it.names()[0]) != 'send' and 'it is closed') or stand_in.is_running(life) and 'it runs on' or (
            REMARK not in it.text(it.names()[0]) and 'the log does not say it')


def hang(_program):
    """Messages wait, and nothing is delivered: it says so once, in the log too, and says when they are delivered again."""
    with Place() as it:
        started = it.start(BEGIN + 'await go\necho\n' + LEAVE, '--rate', '20', given=IMPATIENT)
        if not started.says(HANGS) or not it.goes('mcast 1', count=30):
            return 'it did not come so far: %r' % started.said
        before = started.said['stderr'].count(HANGS.encode())
        it.go()
        if before != 1 or not started.says('messages are delivered again'):
            return 'it said %d times that none come, and %r' % (before, started.said)
        came = started.end(signal.SIGTERM)
        wrong = checked(it, came, 0, HANGS, 'messages are delivered again', '; it left') or wrong_end(it, came, 'fail')
        # (on a machine that does other work there may be another one)
        return wrong or (it.text(it.names()[0]).count(REMARK) != came.errors.count(HANGS.encode()) and 'the log does not say it: %s' % came)


def hang_before(_program):
    """It joins, and no view of the group comes for long: it says so, and records when one comes."""
    with Place() as it:
        started = it.start('node %d\nawait go\n' % NODE + ALONE, given=IMPATIENT)
        told = 'no view of the group comes for 0.4 s'
        if not started.says(told + ': does the ring hang?'):
            return 'it did not say it: %r' % started.said
        it.go()
        if not it.goes('mcast 1', count=2):
            return 'it did not come so far: %r' % started.said
        wrong = checked(it, started.end(signal.SIGTERM), 0, told, 'a view of the group has come', '; it left')
        return wrong or (it.text(it.names()[0]).count(' # %s\n' % told) != 1 and 'the log does not say it')


def no_hang(_program):
    """As long as messages are delivered, nothing is said."""
    seconds = process.allowed(2.5)
    it, started = begun(ALONE, '--rate', '20', count=int(24 * seconds), given={'TOTEM_RECORD_PATIENCE': str(seconds)})
    with it:
        came = started.end(signal.SIGTERM)
        return checked(it, came, 0, '; it left') or b'ring hang' in came.errors and 'it said %s' % came


# ---- with the daemon, or a process

def go_away(first, told, entries, _program):
    """The daemon ends: so does the log; when it is there again, another life begins, with a log of its own."""
    with Place() as it:
        started = it.start(first + 'life\nanswer initialize 2 2 6 1\n' + ALONE)
        if not it.goes('initialize 6') or not stand_in.until(lambda: [call for life, _, call in it.calls() if life == 2 and 'mcast 1' in call]):
            return 'it did not come so far: %r, %r' % (it.calls(), started.said)
        came = started.end(signal.SIGTERM)
        (old, new), lives = it.names(), it.lives()
        wrong = checked(it, came, 0, told + AGAIN, WAITS, ' writes LOGS/' + new, '; it left') or wrong_end(it, came, 'fail', new)
        if wrong or len(lives) != 2:
            return wrong or 'there were the lives %r' % lives
        kinds = [line.split(' ')[0] for line in it.entries(old)]
        return (wrong_end(it, came, 'fail', old) if entries else kinds and 'the first log has %r' % kinds) or (
            ' # ended: ' not in it.text(old) and 'the log does not say why it ended: %r' % it.text(old))


WAITS = 'waits for corosync (error 2 of libcpg, library error)'
AGAIN = ': another life begins when it can'
# The script up to the end of the first life, what is said, and whether its log has entries.
GONE = {
    'the daemon ends': (BEGIN + 'echo\nawait sends 3\ngone\n', '', True),
    'the daemon ends, and a hang-up alone shows it': ('answer dispatch 1\n' + BEGIN + 'echo\nawait sends 3\ngone\n', 'corosync is gone', True),
    'the daemon ends with messages under way': (BEGIN + 'await sends 3\ngone\n', '', True),
    'the daemon ends before anybody is a member': ('node %d\nring %d 25 %d\ngone\n' % (NODE, NODE, NODE), '', False),
    'the daemon ends in the callbacks of a change': (TWO.replace('await go', 'await sends 2') + 'view left 2:200 3 members self\ngone\n', '', True),
    'dispatching fails': ('answer dispatch 1 1 1 2\n' + ALONE, 'cpg_dispatch: error 2 of libcpg (library error)', True),
    'sending fails': ('answer mcast 1 1 9\n' + ALONE, 'cpg_mcast_joined: error 9 of libcpg (bad handle)', True),
    'joining fails': ('node %d\nanswer join 2\n' % NODE, 'cpg_join: error 2 of libcpg (library error)', False),
    'a descriptor fails': ('node %d\nanswer fd 9\n' % NODE, 'cpg_fd_get: error 9 of libcpg (bad handle)', False),
}


def go_away_for_good(number, _program):
    """Ended while it waits for a daemon that has gone: what it has is recorded."""
    with Place() as it:
        started = it.start(BEGIN + 'echo\nawait sends 2\ngone\nlife\nanswer initialize 2\n')
        if not it.goes('initialize 2'):
            return 'it did not come so far: %r' % started.said
        came = started.end(number)
        return checked(it, came, 0, AGAIN, WAITS) or wrong_end(it, came, 'fail')


def go_away_for_long(_program):
    """A daemon that was there once is waited for longer than one that is not there at first."""
    with Place() as it:
        started = it.start(BEGIN + 'gone\nlife\nanswer initialize %s 1\n' % ' '.join(['2'] * 14) + ALONE, given=IMPATIENT)
        if not stand_in.until(lambda: [call for life, _, call in it.calls() if life == 2 and 'mcast 1' in call]):
            return 'it did not come so far: %r, %r' % (it.calls(), started.said)
        return checked(it, started.end(signal.SIGTERM), 0, AGAIN, WAITS, '; it left') or wrong_end(it, started.end(), 'fail')


def go_away_quiet(script, numbers, _program):
    """The daemon ends when all have ended: nothing is added, and no other life begins."""
    it, started = begun(script + 'await go\ngone\n')
    with it:
        started.signal(*numbers)
        if not stand_in.until(lambda: last_words(it, it.names()[0]) == 'quiet'):
            return 'it did not end: %r' % it.text(it.names()[0])
        it.go()
        came = started.end()
        return checked(it, came, 0, '; all have ended') or wrong_end(it, came, 'quiet') or (len(it.lives()) != 1 and 'there were %r' % it.lives())


def lose_life(_program):
    """The recording process is killed: another one begins, and closes the log."""
    it, started = begun(ALONE + 'life\n' + ALONE)
    with it:
        os.kill(it.lives()[0], signal.SIGKILL)
        if not stand_in.until(lambda: [call for life, _, call in it.calls() if life == 2 and 'mcast 1' in call]):
            return 'it did not come so far: %r, %r' % (it.calls(), started.said)
        old = it.names()[0]
        came = started.end(signal.SIGTERM)
        wrong = checked(it, came, 0, 'the recording process was killed' + AGAIN, old + ' is closed with `fail`', '; it left')
        return wrong or (last_words(it, old) != 'fail' and 'it is not closed') or wrong_end(it, came, 'fail')


def lose_starter(_program):
    """The process that starts lives is killed: its life ends with it, and leaves whole lines."""
    it, started = begun(ALONE, '--rate', '200', count=20)
    with it:
        life, = it.lives()
        came = started.end(signal.SIGKILL)
        if not stand_in.until(lambda: not stand_in.is_running(life), 5):
            return 'its life runs on'
        return checked(it, came, -signal.SIGKILL) or last_words(it, it.names()[0]) not in ('send', 'dlv') and 'it is closed'


# Scripts of the other member, what this one says, and how many regular configurations its log has.
OF_TWO = {
    'this one begins': (True, OTHER % (1, 'bye'), ['stop', 'bye'], 1),
    'the other one begins': (False, OTHER % (1, 'stop') + OTHER % (33, 'bye'), ['bye'], 1),
    'the other one has answered before it was heard': (False, OTHER % (1, 'bye'), ['bye'], 1),
    'both begin': (True, OTHER % (1, 'stop') + OTHER % (33, 'bye'), ['stop', 'bye'], 1),
    'the other one leaves': (True, 'view left 2:200 2 members self\n', ['stop', 'bye'], 2),
    'the other one is killed': (True, 'view left 2:200 5 members self\ndeliver self 2500000.5#1 - and so on\n', ['stop', 'bye'], 2),
    'the other one is killed, and nothing more comes': (True, 'view left 2:200 5 members self\n', ['stop', 'bye'], 2),
    'the ring parts': (True, 'view left 2:200 3 members self\nring 5 29 5\n', ['stop', 'bye'], 2),
}
# Scripts in which a member leaves, by what the daemon does, and whether it tells that it has left.
LEAVING = {
    'the daemon says so': (ALONE, True),
    'the daemon is busy': ('answer leave 6 6 6 1\n' + ALONE, True),
    'the daemon says nothing': (BEGIN + 'echo\n', False),
}


def _guarded(call, program):
    try:
        return call(program)
    except AssertionError as error:
        return str(error)


def _all():
    for number in (signal.SIGTERM, signal.SIGHUP):
        for what, case in LEAVING.items():
            yield 'signal %d: %s' % (number, what), partial(leave, case[0], (number,), case[1])
    yield 'SIGHUP and SIGTERM', partial(leave, ALONE, (signal.SIGHUP, signal.SIGTERM), True)
    yield 'SIGTERM for all processes', leave_all_at_once
    for way in ('signal', 'terminal', '--for'):
        yield 'all end, by ' + way, partial(end_all, way)
    for what, case in OF_TWO.items():
        yield 'all end: ' + what, partial(end_of_two, *case)
    yield 'two interrupts', interrupt_twice
    yield 'two interrupts of a call that does not return', partial(end_blocked, (signal.SIGINT,) * 4)
    yield 'SIGTERM in a call that does not return', partial(end_blocked, (signal.SIGTERM,))
    yield 'nothing is delivered', hang
    yield 'no view comes', hang_before
    yield 'messages are delivered', no_hang
    for what, case in GONE.items():
        yield what, partial(go_away, *case)
    for number in (signal.SIGTERM, signal.SIGINT):
        yield 'the daemon ends for good, and the signal %d' % number, partial(go_away_for_good, number)
    yield 'the daemon ends for long', go_away_for_long
    yield 'the daemon ends when all have ended', partial(go_away_quiet, BEGIN + 'echo\n', (signal.SIGINT,))
    yield 'the daemon ends when all have ended, as another one wished', partial(
        go_away_quiet, TWO.replace('await go', 'await sends 2') + OTHER % (1, 'stop') + OTHER % (33, 'bye'), ())
    yield 'the recording process is killed', lose_life
    yield 'the recorder is killed', lose_starter


def cases():
    """The ends of recordings."""
    for what, call in _all():
        yield what, partial(_guarded, call)
