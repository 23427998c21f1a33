"""The statuses of `./totem` and `tools/prove`: none of their own failures ends like a verdict, whatever is wrong around them."""
import os
import signal
import subprocess
import time
from functools import partial

from harness import process
from harness.small_repository import differs, end, left_by, scene

AUDITED = 'totem_auditor audit\nthe input\n'


def full():
    """A device that takes nothing."""
    return open('/dev/full', 'wb')  # pylint: disable=consider-using-with


def try_full(_program):
    """The output of the unproved program can't be written."""
    with scene() as it, full() as file:
        came = it.run_tool('totem', 'try', 'audit', streams=(subprocess.PIPE, file, subprocess.PIPE))
        return differs(came, 4, '', 'totem: NOT PROVED', 'totem: write failed')


def try_closed(number, status, output, _program):
    """A standard stream is closed."""
    with scene() as it:
        came = it.run_tool('totem', 'try', 'audit', closed=[number])
        return differs(came, status, output) or (left_by(it) and 'it left %r' % left_by(it))


def try_errors_full(_program):
    """Standard error takes nothing: the answer is the same."""
    with scene() as it, full() as file:
        return differs(it.run_tool('totem', 'try', 'audit', streams=(subprocess.PIPE, subprocess.PIPE, file)), 1, 'verdict no\n')


def try_folder(name, _program):
    """There is no room for temporary files."""
    with scene() as it:
        return differs(it.run('try', 'audit', TMPDIR=os.path.join(it.top, name)), 70, '', 'totem: no temporary folder can be made in ')


def build_closed(number, output, _program):
    """A standard stream is closed during a proof: its messages go nowhere else, and the program has its streams as they were."""
    with scene() as it:
        return differs(it.run_tool('totem', 'audit', closed=[number]), 9, output)


def build_errors_full(words, status, output, _program):
    """Standard error takes nothing: the proof goes on."""
    with scene() as it, full() as file:
        return differs(it.run_tool(*words, streams=(subprocess.PIPE, subprocess.PIPE, file)), status, output)


def refuse_errors(words, closed, _program):
    """The same if there is no program: the status is 70."""
    with scene() as it, full() as file:
        it.say(refused='low\n')
        streams = (subprocess.PIPE, subprocess.PIPE, subprocess.PIPE if closed else file)
        return differs(it.run_tool(*words, streams=streams, closed=[2] if closed else []), 70, '')


def keep_closed(number, _program):
    """A stream of the program is closed if that of the call is: nothing else has its number."""
    with scene() as it:
        it.say(built='#!/bin/sh\n[ -e /dev/fd/%d ] || exit 5\n' % number)
        return differs(it.run_tool('totem', 'audit', closed=[number]), 5, '')


def status_of_prove(status, _program):
    """A failure of tools/prove itself never has the status of a verdict."""
    with scene() as it:
        it.write('tools/prove', '#!/bin/sh\nexit %d\n' % status)
        return differs(it.run('audit'), 70, '', 'totem: tools/prove ended with status %d' % status)


def broken_tool(_program):
    """Python fails before anything begins."""
    with scene() as it:
        it.write('tools/proving/making.py', 'this is no Python\n')
        return differs(it.run('audit'), 70, '', 'totem: tools/prove ended with status 1')


def pretend(_program):
    """tools/prove says that it is done, and there is no program."""
    with scene() as it:
        it.write('tools/prove', '#!/bin/sh\nexit 0\n')
        return differs(it.run('audit'), 70, '', 'totem: a source changed while totem_auditor was proved')


def few_crates(silent, told, _program):
    """`rt ci` ends well and says nothing of some crates: there is no program."""
    with scene() as it:
        it.say(silent=silent)
        wrong = differs(it.run('run'), 70, '', told)
        return wrong or (os.path.exists(it.program) and 'there is a program')


def few_crates_kept(_program):
    """What a run ahead said of a crate doesn't count for the run of the whole."""
    with scene() as it:
        it.write('crates/high/src/lib.rt', 'fn f() {}\nfn g() {}\n')
        it.say(**{'silent-of-whole': 'high\n'})
        wrong = differs(it.run('run', TOTEM_AHEAD_MB='1'), 70, '', 'rt ci named only 2 of 3 crates as proved (not high)')
        return wrong or (os.path.exists(it.program) and 'there is a program')


def wrong_kit(_program):
    """tools/prove by itself takes no kit of another logic either."""
    with scene() as it:
        it.say(version='rattle-kit-9 logic 0123456789abcdef\n')
        return differs(it.run_tool('tools/prove', 'totem'), 70, '', 'this needs a Rattle kit of the logic')


def fill_log(it):
    """A full disk where the prover's output is written."""
    os.mkdir(os.path.join(it.top, 'crates/totem_auditor/out'))
    os.symlink('/dev/full', os.path.join(it.top, 'crates/totem_auditor/out/build.log'))


def put_file(it):
    """A file where the folder of what is built should be."""
    it.write('crates/totem_auditor/out', 'a file\n')


# What can be wrong in the repository, and what is said.
WRONG = {
    'a file for a folder': (put_file, 'crates/totem_auditor/out'),
    'a full disk': (fill_log, 'totem: proving failed, and '),
    'crates.txt in no encoding': (lambda it: write_bytes(it, 'crates.txt', b'# \xff\nlow:\ntotem_auditor: low\ntotem: low\n'), 'crates.txt'),
    'crates in no order': (lambda it: it.write('crates.txt', 'totem_auditor: low\nlow:\ntotem: low\n'), 'totem_auditor is listed before low'),
    'a crate listed twice': (lambda it: it.write('crates.txt', 'low:\nlow:\ntotem_auditor: low\ntotem: low\n'), 'low is listed twice'),
    'a name of a crate that leads elsewhere': (lambda it: it.write('crates.txt', '../low:\ntotem_auditor: ../low\ntotem:\n'), 'crates.txt'),
    'a fifo': (lambda it: os.mkfifo(os.path.join(it.top, 'crates/low/src/more.rt')), 'crates/low/src/more.rt'),
    'no room': (lambda it: it.environment.update(TMPDIR=os.path.join(it.top, 'none')), 'none'),
}


def write_bytes(it, name, content):
    """Writes a file of the repository."""
    with open(os.path.join(it.top, name), 'wb') as file:
        file.write(content)


def stop(how, told, _program):
    """A refusal of one line, with nothing built."""
    with scene() as it:
        how(it)
        came = it.run('audit')
        return differs(came, 70, '', told) or (b'Traceback' in came.errors and 'a failure: %s' % came)


def interrupt_twice(_program):
    """A second interrupt, while the first one clears up, leaves nothing either."""
    with scene() as it:
        it.say(slow='high\n', seconds='60', stubborn='')
        started = it.start('run')
        it.is_slow_at()
        os.killpg(started.pid, signal.SIGINT)
        time.sleep(0.5)
        os.killpg(started.pid, signal.SIGINT)
        wrong = differs(end(started), 130, '', 'totem: interrupted: 1 of 3')
        return wrong or (left_by(it) and 'it left %r' % left_by(it))


def try_dash(_program):
    """A folder for temporary files with a hard name, relative to the one where the call is made."""
    with scene() as it:
        for name in ('-a', 'a b', 'a\nb', 'a\\b'):
            os.mkdir(os.path.join(it.top, name))
            came = it.run('try', 'audit', TMPDIR=name)
            wrong = differs(came, 1, 'verdict no\n', 'NOT PROVED') or os.listdir(os.path.join(it.top, name))
            if wrong:
                return '%r: %s' % (name, wrong)
    return None


def build_dash(_program):
    """The same for a proof."""
    with scene() as it:
        for number, name in enumerate(('-a', 'a b', 'a\nb', 'a\\b')):
            os.mkdir(os.path.join(it.top, name))
            it.write('crates/low/src/lib.rt', 'fn f%d() {}\n' % number)
            wrong = differs(it.run('audit', TMPDIR=name), 9, AUDITED, '2 of 2') or os.listdir(os.path.join(it.top, name))
            if wrong:
                return '%r: %s' % (name, wrong)
    return None


def prove_words(_program):
    """`prove` takes no words: none is left out in silence."""
    with scene() as it:
        return differs(it.run('prove', 'totem_auditor'), 64, '', 'usage: ./totem prove') or (it.told('calls') and 'it began')


def called_by_link(_program):
    """A link to the script, and a folder that is a link, lead to the repository."""
    with scene() as it:
        os.symlink(os.path.join(it.top, 'totem'), os.path.join(it.stand_in, '-totem'))
        os.symlink(it.top, os.path.join(it.stand_in, 'folder'))
        for name in ('-totem', 'folder/totem'):
            started = subprocess.Popen(['bash', '-c', 'PATH="$PWD:$PATH"; exec -- "$0" audit', name], cwd=it.stand_in, env=it.environment,
                                       stdin=subprocess.PIPE, stdout=subprocess.PIPE, stderr=subprocess.PIPE, start_new_session=True)
            wrong = differs(end(started), 9, AUDITED)
            if wrong:
                return '%s: %s' % (name, wrong)
    return None


def ignore_hangup(_program):
    """Under `nohup` a closed terminal ends nothing."""
    with scene() as it:
        it.say(slow='low\n', seconds='1')
        started = it.start_tool('totem', 'audit', ignored=[signal.SIGHUP])
        it.is_slow_at()
        os.killpg(started.pid, signal.SIGHUP)
        return differs(end(started), 9, AUDITED, '2 of 2')


def hang_up(_program):
    """A closed terminal ends a proof as an interrupt does, and `rt` with it."""
    with scene() as it:
        it.say(slow='low\n', seconds='60')
        started = it.start('audit')
        slow = it.is_slow_at()
        os.killpg(started.pid, signal.SIGHUP)
        end(started)
        until = time.monotonic() + process.allowed(10)
        while (os.path.exists('/proc/%d' % slow) or left_by(it)) and time.monotonic() < until:
            time.sleep(0.05)
        return (os.path.exists('/proc/%d' % slow) or left_by(it)) and 'rt runs on, or it left %r' % left_by(it)


def surround(change, _program):
    """The environment lacks something that a call hardly needs."""
    with scene() as it:
        for name, value in change.items():
            it.environment.pop(name, None)
            if value is not None:
                it.environment[name] = value
        return differs(it.run('audit'), 9, AUDITED, '2 of 2') or differs(it.run('audit'), 9, AUDITED)


def statuses():
    """Failures around the launcher."""
    yield 'try, output full', try_full
    yield 'try, input closed', partial(try_closed, 0, 70, '')
    yield 'try, output closed', partial(try_closed, 1, 4, '')
    yield 'try, errors closed', partial(try_closed, 2, 1, 'verdict no\n')
    yield 'try, errors full', try_errors_full
    for name in ('none', 'crates.txt'):
        yield 'try, with TMPDIR ' + name, partial(try_folder, name)
    yield 'a build, input closed', partial(build_closed, 0, 'totem_auditor audit\n')
    yield 'a build, output closed', partial(build_closed, 1, '')
    yield 'a build, errors closed', partial(build_closed, 2, AUDITED)
    for number in range(3):
        yield 'stream %d stays closed' % number, partial(keep_closed, number)
    for words, status, output in ((['totem', 'audit'], 9, AUDITED), (['tools/prove', 'totem'], 0, '')):
        yield 'errors full: ' + words[0], partial(build_errors_full, words, status, output)
        yield 'errors full, and a refusal: ' + words[0], partial(refuse_errors, words, False)
        yield 'errors closed, and a refusal: ' + words[0], partial(refuse_errors, words, True)
    for status in (1, 2, 3, 64, 127):
        yield 'tools/prove ends with %d' % status, partial(status_of_prove, status)
    yield 'tools/prove is broken', broken_tool
    yield 'tools/prove makes nothing', pretend
    yield 'no crate is named', partial(few_crates, 'low\nhigh\ntotem\n', 'rt ci named only 0 of 3 crates as proved (not low, high, totem)')
    yield 'a crate is not named', partial(few_crates, 'high\n', 'rt ci named only 2 of 3 crates as proved (not high)')
    yield 'a crate is named by the run ahead', few_crates_kept
    yield 'tools/prove with another kit', wrong_kit
    for what, (how, told) in WRONG.items():
        yield what, partial(stop, how, told)
    yield 'try, folders with hard names', try_dash
    yield 'a build, folders with hard names', build_dash
    yield 'the words of prove', prove_words
    yield 'called by a link', called_by_link
    yield 'two interrupts', interrupt_twice
    yield 'a closed terminal', hang_up
    yield 'a closed terminal, ignored', ignore_hangup
    for change in ({'HOME': None}, {'LANG': 'C', 'LC_ALL': 'C'}, {'LC_ALL': 'xx_YY.none'}, {'TMPDIR': None}, {'CDPATH': '/usr'},
                   {'BASH_ENV': '/no/such'}, {'POSIXLY_CORRECT': '1'}, {'PYTHONIOENCODING': 'ascii'}):
        yield 'the environment %r' % change, partial(surround, change)
