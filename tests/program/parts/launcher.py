"""The launcher `./totem` over a small repository, with a stand-in for `rt`: the first look, the proved build, and what stops them."""
import os
import signal
import subprocess
from functools import partial

from harness import process
from harness.small_repository import LOGIC, differs, end, scene

# Arguments that the auditor alone answers, and those that need the whole program.
FOR_AUDITOR = (['audit', '--workers', '2'], ['check'], ['explain', '--svg'], ['help', 'run'], ['--version'], ['sim', '--help'], ['no-verb'])
FOR_WHOLE = (['sim'], ['run', '--nodes', '3'], ['explain', '--script'])
AUDITED, MADE = 'totem_auditor audit\nthe input\n', 'totem run\nthe input\n'
WHOLE = 'totem audit\nthe input\n'


# ---- the first look

def look_first(_program):
    """Output and status are the program's, and NOT PROVED is before and after its errors."""
    with scene() as it:
        came = it.run('try', 'audit')
        wrong = differs(came, 1, 'verdict no\n', 'totem: NOT PROVED', 'a line of the program\n', 'totem: NOT PROVED')
        if wrong or b'run=' in came.errors or b'checked:' in came.errors or came.errors.count(b'\n') != 3:
            return wrong or 'the errors have more: %s' % came
        if it.told('calls') != ['version', 'try -- audit'] or it.told('given') != ['the input']:
            return 'rt was called so: %r' % it.told('calls')
    return None


def look_at_refusal(said, _program):
    """If `rt` has no answer of the program, there is none."""
    with scene() as it:
        it.say(tried=said)
        return differs(it.run('try', 'audit'), 70, '', 'totem: NOT PROVED', 'totem: no answer from the unproved program')


def look_at_proved(_program):
    """If there is a proved program that answers these arguments, `try` runs it, and nothing else."""
    with scene() as it:
        it.run('audit')
        calls = it.told('calls')
        came = it.run('try', 'audit')
        wrong = differs(came, 9, AUDITED) or (came.errors or it.told('calls') != calls) and 'more was done: %s' % came
        if wrong or differs(it.run('try', 'run'), 1, 'verdict no\n', 'totem: NOT PROVED', 'totem: NOT PROVED'):
            return wrong or 'the auditor makes no run'
        it.run('prove')
        return differs(it.run('try', 'audit'), 9, WHOLE) or differs(it.run('try', 'run'), 9, MADE)


# ---- the proved build

def build_first(_program):
    """The first line names the first look; each crate has a line; the program gets arguments and streams."""
    with scene() as it:
        wrong = differs(it.run('run'), 9, MADE, '3 crates', './totem try', '1 of 3 proved: low', '2 of 3 proved: high', '3 of 3 proved: totem')
        calls = it.told('calls')
        again = it.run('audit')
        if wrong or differs(again, 9, WHOLE) or again.errors or it.told('calls') != calls or os.listdir(it.environment['TMPDIR']):
            return wrong or 'a second call did more: %s' % again
    return None


def build_auditor(words, is_enough, _program):
    """The auditor is proved if it answers these arguments, otherwise the whole program."""
    with scene() as it:
        name = 'totem_auditor' if is_enough else 'totem'
        return differs(it.run(*words), 9, '%s\nthe input\n' % ' '.join([name, *words]), '%d crates' % (2 if is_enough else 3), 'proved: ' + name)


def build_after_change(_program):
    """A newer source causes a new proof of everything; a newer source of a crate that the program does not use doesn't."""
    with scene() as it:
        it.run('audit')
        it.write('crates/high/src/lib.rt', 'fn g() {}\n')
        if it.told('calls').count('ci') != 1 or differs(it.run('audit'), 9, AUDITED) or it.told('calls').count('ci') != 1:
            return 'a crate that the program does not use was proved'
        it.write('crates/low/src/lib.rt', 'fn g() {}\n')
        return differs(it.run('audit'), 9, AUDITED, '2 of 2') or (it.told('calls').count('ci') != 2 and 'nothing was proved again')


def build_anew(_program):
    """TOTEM_ANEW=1 takes nothing from earlier runs."""
    with scene() as it:
        it.say(kept='low\n')
        wrong = differs(it.run('prove', TOTEM_ANEW='1'), 0, '', '1 of 3 proved: low')
        return wrong or (it.told('calls') != ['version', 'ci --anew', 'version'] and 'rt was called so: %r' % it.told('calls'))


def build_anew_without_words(_program):
    """A kit whose `rt ci` takes no words gets none."""
    with scene() as it:
        it.say(wordless='')
        wrong = differs(it.run('prove', TOTEM_ANEW='1'), 0, '', '3 of 3 proved')
        return wrong or (it.told('calls') != ['version', 'ci', 'version'] and 'rt was called so: %r' % it.told('calls'))


def build_refused(_program):
    """A crate that is not proved ends it at once, with the last lines, and no program answers, old or new."""
    with scene() as it:
        it.run('prove')
        it.write('crates/high/src/lib.rt', 'fn g() {}\n')
        it.say(kept='', refused='high\n')
        wrong = differs(it.run('run'), 70, '', '1 of 3 proved: low', 'what is wrong with high', 'totem: high was not proved')
        it.say(refused='')
        return wrong or differs(it.run('run'), 9, MADE, 'low, earlier', '3 of 3')


def build_none(_program):
    """If everything passes and there is no program, that is reported."""
    with scene() as it:
        os.remove(os.path.join(it.stand_in, 'built'))
        return differs(it.run('audit'), 70, '', 'totem: rt ci passed, but built no program')


def build_interrupted(_program):
    """An interrupt ends `rt` too, leaves no program, and the next call continues from what is kept."""
    with scene() as it:
        it.say(slow='high\n', seconds='60')
        started = it.start('run')
        slow = it.is_slow_at()
        os.killpg(started.pid, signal.SIGINT)
        wrong = differs(end(started), 130, '', 'totem: interrupted: 1 of 3')
        if wrong or os.path.exists(it.program) or os.path.exists('/proc/%d' % slow) or os.listdir(it.environment['TMPDIR']):
            return wrong or 'something was left'
        it.say(slow='')
        return differs(it.run('run'), 9, MADE, '1 of 3 proved: low, earlier', '3 of 3')


def build_ended(number, _program):
    """A signal to the script alone ends the proof too, before the script ends, and nothing is left."""
    with scene() as it:
        it.say(slow='high\n', seconds='60')
        started = it.start('run')
        slow = it.is_slow_at()
        os.kill(started.pid, number)
        wrong = differs(end(started), 130, '', 'totem: interrupted: 1 of 3')
        if wrong or os.path.exists(it.program) or os.path.exists('/proc/%d' % slow) or os.listdir(it.environment['TMPDIR']):
            return wrong or 'something was left'
    return None


def ask_for_help(words, then, _program):
    """The script says what it takes, and then the program what it does, if it is asked too."""
    with scene() as it:
        if then:
            it.run('audit')
        calls = it.told('calls')
        came = it.run(*words)
        lines = came.output.decode().split('\n', 3)
        starts = [line.partition('  ')[0] for line in lines[:3]]
        if starts != ['./totem ARGUMENTS', './totem try ARGUMENTS', './totem prove'] or came.errors or it.told('calls') != calls:
            return 'came: %s' % came
        wanted = (9, 'totem_auditor %s\nthe input\n' % ' '.join(words)) if then else (0, '')
        return (came.status, lines[3]) != wanted and 'came: %s' % came


def ask_for_help_in_vain(_program):
    """Help that can't be written has the status 4."""
    with scene() as it, open('/dev/full', 'wb') as full:
        started = it.start_tool('totem', 'prove', '--help', streams=(subprocess.PIPE, full, subprocess.PIPE))
        came = end(started)
        return (came.status, came.errors) != (4, b'totem: write failed\n') and 'came: %s' % came


def wait_at_terminal(words, told, _program):
    """On a terminal a line says what the program waits for, if it waits for anything."""
    with scene() as it:
        it.run('prove')
        ours, terminal = os.openpty()
        try:
            started = it.start_tool('totem', *words, streams=(terminal, subprocess.PIPE, terminal))
            os.write(ours, b'\x04')
            output, _ = started.communicate(timeout=process.allowed(10))
            errors = os.read(ours, 4096) if told else b''
        finally:
            os.close(terminal)
            os.close(ours)
    wanted = b'totem: reading %s from the terminal, up to Ctrl-D: ./totem %s < FILE reads a file' % (told.encode(), words[0].encode())
    is_right = started.returncode == 9 and output.startswith(b'totem ') and (not told or wanted in errors)
    return None if is_right else 'came: status %s, %r, %r' % (started.returncode, output, errors)


def build_twice_at_once(_program):
    """The second call says that it waits, proves nothing, and answers by the program of the first."""
    with scene() as it:
        it.say(slow='high\n', seconds='2')
        first = it.start('run')
        it.is_slow_at()
        second = it.start('run')
        wrong = differs(end(first), 9, MADE, '3 of 3')
        came = end(second)
        wrong = wrong or differs(came, 9, MADE, 'totem: another call is proving here; waiting')
        return wrong or (it.told('calls').count('ci') != 1 and 'both proved')


def build_ahead(kept, _program):
    """A second run goes ahead on the most expensive crate: the crates that it proved are reported once, and if nothing is shared it is
    ended."""
    with scene() as it:
        it.write('crates/high/src/lib.rt', 'fn f() {}\nfn g() {}\n')
        it.say(**kept)
        came = it.run('run', TOTEM_AHEAD_MB='1')
        wrong = differs(came, 9, MADE, '1 of 3 proved: low', '2 of 3 proved: high', '3 of 3 proved: totem')
        if wrong or came.errors.count(b'proved: ') != 3 or it.told('calls').count('ci') != 2:
            return wrong or 'came: %s, and rt was called so: %r' % (came, it.told('calls'))
        return b'earlier' in came.errors and 'nothing is from earlier: %s' % came


def build_changed_meanwhile(_program):
    """A source that changes during the proof is newer than the program."""
    with scene() as it:
        it.say(slow='totem\n', seconds='1')
        first = it.start('prove')
        it.is_slow_at()
        it.write('crates/low/src/lib.rt', 'fn g() {}\n')
        end(first)
        it.say(slow='')
        return differs(it.run('run'), 9, MADE, '3 of 3 proved')


# ---- what stops both

def stop_without_rt(words, _program):
    """Without `rt` nothing begins."""
    with scene() as it:
        paths = it.environment['PATH'].split(':')[1:]
        return differs(it.run(*words, PATH=':'.join(paths)), 70, '', 'totem: the command rt of the Rattle kit is not in the PATH')


def stop_at_kit(words, version, _program):
    """A kit of another logic is refused, and the message names both logics."""
    with scene() as it:
        it.say(version=version)
        came = it.run(*words)
        return differs(came, 70, '', LOGIC, version.strip() or 'nothing') or (it.told('calls') != ['version'] and 'rt did more')


def stop_for_lack(words, name, what, _program):
    """Too little memory or disk is reported, with how much there is and how much is needed."""
    with scene() as it:
        came = it.run(*words, **{name: '999999999'})
        return differs(came, 70, '', 'totem: too little ' + what, 'MB are free', '999999999') or (it.told('calls') != ['version'] and 'it was begun')


def stop_at_word(words, name, _program):
    """A requirement that is not a number is refused."""
    with scene() as it:
        return differs(it.run(*words, **{name: 'many'}), 70, '', name + '=many is not a number')


def launcher():
    """The launcher's messages, refusals and builds."""
    yield 'the first look', look_first
    for what, said in (('a crate that is refused', 'error: no\n'), ('past a limit', 'checked: no-answer: more\nrun=no-answer proved=no\n'),
                       ('a fault', 'run=fault proved=no\n'), ('nothing said', '')):
        yield 'the first look, ' + what, partial(look_at_refusal, said)
    yield 'the first look, where the proved program is there', look_at_proved
    yield 'the first build', build_first
    for words in FOR_AUDITOR:
        yield 'the auditor first: ' + ' '.join(words), partial(build_auditor, words, True)
    for words in FOR_WHOLE:
        yield 'the whole program: ' + ' '.join(words), partial(build_auditor, words, False)
    yield 'a build after a change', build_after_change
    yield 'a build that takes nothing', build_anew
    yield 'a build that takes nothing, by a kit that takes no words', build_anew_without_words
    yield 'a crate that is not proved', build_refused
    yield 'no program', build_none
    yield 'an interrupt', build_interrupted
    for number in (signal.SIGTERM, signal.SIGINT, signal.SIGHUP):
        yield 'signal %d to the script' % number, partial(build_ended, number)
    for words in (['prove', '--help'], ['prove', '-h'], ['help', 'prove'], ['help', 'try'], ['help'], ['--help'], ['-h']):
        yield 'help: ' + ' '.join(words), partial(ask_for_help, words, len(words) == 1)
    yield 'help that can\'t be written', ask_for_help_in_vain
    for words, told in ((['audit'], 'a run'), (['explain', '--svg'], 'a run'), (['explain', '--script'], 'a script'), (['sim'], 'a script'),
                        (['check'], 'a run and its certificate'), (['audit', '--help'], ''), (['run'], '')):
        yield 'at a terminal: ' + ' '.join(words), partial(wait_at_terminal, words, told)
    yield 'two calls at once', build_twice_at_once
    yield 'a run ahead', partial(build_ahead, {})
    yield 'a run ahead, and nothing is shared', partial(build_ahead, {'alone': '', 'slow': 'totem\n', 'seconds': '1'})
    yield 'a change meanwhile', build_changed_meanwhile
    for words in (['audit'], ['try', 'audit'], ['prove']):
        yield 'no rt, ' + ' '.join(words), partial(stop_without_rt, words)
        yield 'another logic, ' + ' '.join(words), partial(stop_at_kit, words, 'rattle-kit-9 logic 0123456789abcdef\n')
    yield 'a kit that says nothing', partial(stop_at_kit, ['audit'], '')
    for words in (['audit'], ['try', 'audit']):
        yield 'too little memory, ' + ' '.join(words), partial(stop_for_lack, words, 'TOTEM_MEMORY_MB', 'memory')
        yield 'a requirement that is not a number, ' + ' '.join(words), partial(stop_at_word, words, 'TOTEM_MEMORY_MB')
    yield 'too little disk', partial(stop_for_lack, ['audit'], 'TOTEM_DISK_MB', 'disk')
    yield 'a disk requirement that is not a number', partial(stop_at_word, ['audit'], 'TOTEM_DISK_MB')
