"""Which program `./totem` runs: the one that was proved from the sources as they are, and no other, whatever the times of files say."""
import os
import shutil
import signal
import time
from functools import partial

from harness import process
from harness.small_repository import PROGRAM, differs, end, left_by, scene

AUDITED, MADE = 'totem_auditor audit\nthe input\n', 'totem run\nthe input\n'
# Folders in which the repository may lie.
FOLDERS = ('a b', 'a\\b', 'a\nb', 'a\n', '-a', "a'b\"c", 'ä', 'a=b', '*')


def is_proved_again(it, *words, output=AUDITED):
    """What is wrong if these arguments don't make a new proof first."""
    before = it.told('calls').count('ci')
    wrong = differs(it.run(*words), 9, output, ' proved')
    return wrong or (it.told('calls').count('ci') != before + 1 and 'nothing was proved again')


def is_taken(it, *words, output=AUDITED):
    """What is wrong if these arguments are not answered at once."""
    before = it.told('calls')
    came = it.run(*words)
    return differs(came, 9, output) or ((came.errors or it.told('calls') != before) and 'more was done: %s' % came)


def with_old_time(path):
    """Gives a file the time of 1970."""
    os.utime(path, (0, 0))


def write_old(it):
    """A source from an archive, with a time before the program's."""
    it.write('crates/low/src/lib.rt', 'fn g() {}\n')
    with_old_time(os.path.join(it.top, 'crates/low/src/lib.rt'))


def rename(it):
    """A source that is renamed keeps its time."""
    os.rename(os.path.join(it.top, 'crates/low/src/lib.rt'), os.path.join(it.top, 'crates/low/src/lob.rt'))


def put_inside(it):
    """Only the folder `out` of the crate itself is none of its sources."""
    it.write('crates/low/src/out/more.rt', 'fn g() {}\n')
    with_old_time(os.path.join(it.top, 'crates/low/src/out/more.rt'))


def other_line(it):
    """The line of a crate in crates.txt names a library more."""
    path = os.path.join(it.top, 'crates.txt')
    with open(path, encoding='ascii') as file:
        text = file.read().replace('low: itoa', 'low: itoa bytes')
    it.write('crates.txt', text)
    with_old_time(path)


def other_handles(it):
    """Other handles are allowed."""
    it.write('HANDLES', 'Handles allowed: none.\n')
    with_old_time(os.path.join(it.top, 'HANDLES'))


def other_program(it):
    """Something else takes the program's place."""
    place = os.path.join(it.top, 'crates/totem_auditor/out/totem_auditor')
    with open(place, 'w', encoding='ascii') as file:
        file.write('#!/bin/sh\necho verdict yes\nexit 0\n')


def no_record(it):
    """As `rt ci` builds it in place: without a PROVED.txt."""
    os.remove(os.path.join(it.top, 'crates/totem_auditor/out/PROVED.txt'))


CHANGES = {
    'a source with an old time': write_old,
    'a source that is gone': lambda it: os.remove(os.path.join(it.top, 'crates/low/src/lib.rt')),
    'a source with another name': rename,
    'a source in a folder named out': put_inside,
    'another line in crates.txt': other_line,
    'other handles': other_handles,
    'another program': other_program,
    'a program without PROVED.txt': no_record,
}
# What belongs to no source.
REST = {
    'a newer time': lambda it: os.utime(os.path.join(it.top, 'crates/low/src/lib.rt'), (2e9, 2e9)),
    'a line of another crate': lambda it: it.write('crates.txt', '# First.\nlow: itoa\ntotem_auditor: low\nhigh: low\ntotem: low high\nnew: low\n'),
    'files in out and must-fail': lambda it: (it.write('crates/low/out/x.rt', 'x'), it.write('crates/low/must-fail/x.edit', 'x')),
}


def change(how, _program):
    """After this change the program is proved again."""
    with scene() as it:
        it.run('audit')
        how(it)
        return is_proved_again(it, 'audit') or is_taken(it, 'audit')


def change_nothing(how, _program):
    """After this change the program answers at once."""
    with scene() as it:
        it.run('audit')
        how(it)
        return is_taken(it, 'audit')


def lie_in(name, _program):
    """Wherever the repository lies, a change is seen, and the program of no other folder is run."""
    with scene(name) as it:
        return is_proved_again(it, 'audit') or is_taken(it, 'audit') or write_old(it) or is_proved_again(it, 'audit')


def remove_a_crate(it):
    """The folder of a crate."""
    shutil.rmtree(os.path.join(it.top, 'crates/low'))


def put_a_link(it):
    """A link among the sources: it may lead anywhere."""
    os.symlink('/dev/null', os.path.join(it.top, 'crates/low/src/more.rt'))


def end_lines_twice(it):
    """Line ends of another system: read by one tool and not by the other, crates would be left out."""
    path = os.path.join(it.top, 'crates.txt')
    with open(path, encoding='ascii') as file:
        text = file.read()
    with open(path, 'w', encoding='ascii', newline='') as file:
        file.write(text.replace('\n', '\r\n'))


def break_command(name, it):
    """A command prints all that it would, and fails."""
    it.replace(name, '#!/bin/sh\n%s "$@"\nexit 1\n' % shutil.which(name, path='/usr/bin:/bin'))


# What stops each answer, and what is said about it.
TROUBLES = {
    'no crates.txt': (lambda it: os.remove(os.path.join(it.top, 'crates.txt')), 'crates.txt'),
    'no folder of a crate': (remove_a_crate, 'crates/low'),
    'no HANDLES': (lambda it: os.remove(os.path.join(it.top, 'HANDLES')), 'HANDLES'),
    'a link': (put_a_link, 'crates/low/src/more.rt is neither a file nor a folder'),
    'other line ends': (end_lines_twice, 'crates.txt'),
    'no logic': (lambda it: os.remove(os.path.join(it.top, 'tools/proving/LOGIC')), 'LOGIC'),
    'no tools/sources': (lambda it: os.remove(os.path.join(it.top, 'tools/sources')), 'tools/sources'),
    'a crate that is not listed': (lambda it: it.write('crates.txt', 'low: itoa\n'), 'crates.txt names no crate totem'),
    **{name + ' that fails': (partial(break_command, name), 'sources') for name in ('find', 'sort', 'sha256sum', 'awk')},
}


def stop(how, told, words, _program):
    """No answer and no verdict, with the program there."""
    with scene() as it:
        it.run('prove')
        how(it)
        return differs(it.run(*words), 70, '', told)


def stop_unbuilt(how, told, _program):
    """The same where nothing is built."""
    with scene() as it:
        how(it)
        return differs(it.run('audit'), 70, '', told)


def change_during_proof(_program):
    """A source that changes during the proof: what is proved is the copy, and the program does not count as that of the sources."""
    with scene() as it:
        it.say(slow='low\n', seconds='1')
        started = it.start('audit')
        it.is_slow_at()
        it.write('crates/low/src/lib.rt', 'fn g() {}\n')
        wrong = differs(end(started), 70, '', 'a source changed while totem_auditor was proved')
        it.say(slow='')
        return wrong or is_proved_again(it, 'audit')


def change_within_copy(_program):
    """A source that changes while the others are copied ends the call, before it proves a mixture."""
    with scene() as it:
        # (the change comes when they are summed up)
        it.replace('sha256sum', '#!/bin/sh\n/usr/bin/sha256sum "$@" || exit\necho "fn g() {}" >"%s/crates/low/src/lib.rt"\n' % it.top)
        wrong = differs(it.run('audit'), 70, '', 'totem: a source changed while the sources were copied')
        return wrong or (it.told('calls') != ['version'] and 'rt was called so: %r' % it.told('calls'))


def change_and_back(_program):
    """A source that changes during the proof, and is then as it was: the program is that of the sources."""
    with scene() as it:
        it.say(slow='low\n', seconds='1')
        started = it.start('audit')
        it.is_slow_at()
        it.write('crates/low/src/lib.rt', 'fn g() {}\n')
        it.write('crates/low/src/lib.rt', 'fn f() {}\n')
        return differs(end(started), 9, AUDITED, '2 of 2') or is_taken(it, 'audit')


def kill_anywhere(_program):
    """A proof that is killed between its last steps leaves the old program or none, never a new one that counts for other sources."""
    with scene() as it:
        it.run('audit')
        old = os.path.join(it.top, 'crates/totem_auditor/out/PROVED.txt')
        # (`PROVED.txt` can't be replaced by a file: as if the proof was killed after it moved the program)
        it.write('crates/low/src/lib.rt', 'fn g() {}\n')
        it.say(built=PROGRAM + '# other\n')
        os.rename(old, old + '.kept')
        os.mkdir(old)
        wrong = differs(it.run('audit'), 70, '', 'PROVED.txt')
        os.rmdir(old)
        os.rename(old + '.kept', old)
        it.write('crates/low/src/lib.rt', 'fn f() {}\n')
        return wrong or is_proved_again(it, 'audit')


def kill_proof(_program):
    """A killed proof takes `rt` with it; the next one removes what it left, and goes on."""
    with scene() as it:
        it.say(slow='low\n', seconds='60')
        started = it.start('audit')
        slow = it.is_slow_at()
        with open('/proc/%d/stat' % slow, encoding='ascii') as file:
            prover = int(file.read().rpartition(')')[2].split()[1])
        os.kill(prover, signal.SIGKILL)
        came = end(started)
        until = time.monotonic() + process.allowed(10)
        while os.path.exists('/proc/%d' % slow) and time.monotonic() < until:
            time.sleep(0.05)
        if os.path.exists('/proc/%d' % slow) or came.status != 70 or len(left_by(it)) != 1:
            return 'rt runs on, or it came: %s, or it left %r' % (came, left_by(it))
        it.say(slow='')
        return differs(it.run('audit'), 9, AUDITED, 'removing the copies that a killed proof left', '2 of 2') or (
            left_by(it) and 'it left %r' % left_by(it))


def note(name, words, _program):
    """A tool that runs the program by itself says so if that is not the one that was proved from the sources."""
    with scene() as it:
        it.say(built='#!/bin/sh\nexit 2\n')
        it.run('prove')
        told = b'note: %s was not proved from the sources as they are' % os.fsencode(it.program)
        before = it.run_tool(name, *words)
        write_old(it)
        after = it.run_tool(name, *words)
        return (told in before.errors or not after.errors.startswith(told)) and 'before: %s\n  after: %s' % (before, after)


def change_kit(_program):
    """Another kit that comes during the proof."""
    with scene() as it:
        with open(os.path.join(it.stand_in, 'version'), encoding='ascii') as file:
            version = file.read()
        it.say(slow='low\n', seconds='1')
        started = it.start('audit')
        it.is_slow_at()
        it.say(version=version.replace('-0', '-1'))
        return differs(end(started), 70, '', 'another kit came') or (
            os.path.exists(os.path.join(it.top, 'crates/totem_auditor/out/totem_auditor')) and 'there is a program')


def replace_listing_meanwhile(_program):
    """Git puts a new file in the place of crates.txt: two calls still don't prove at once."""
    with scene() as it:
        it.say(slow='high\n', seconds='2')
        first = it.start('run')
        it.is_slow_at()
        path = os.path.join(it.top, 'crates.txt')
        shutil.copy(path, path + '.new')
        os.replace(path + '.new', path)
        second = it.start('run')
        wrong = differs(end(first), 9, MADE, '3 of 3')
        return wrong or differs(end(second), 9, MADE, 'totem: another call is proving here; waiting')


def freshness():
    """Which program is run."""
    for what, how in CHANGES.items():
        yield what, partial(change, how)
    for what, how in REST.items():
        yield what, partial(change_nothing, how)
    for name in FOLDERS:
        yield 'in the folder %r' % name, partial(lie_in, name)
    for what, (how, told) in TROUBLES.items():
        for words in (['audit'], ['prove'], ['try', 'audit']):
            yield '%s, %s' % (what, ' '.join(words)), partial(stop, how, told, words)
        yield what + ', and nothing built', partial(stop_unbuilt, how, told)
    yield 'a change while the sources are copied', change_within_copy
    yield 'a change during the proof', change_during_proof
    yield 'a change during the proof that is taken back', change_and_back
    yield 'an end between the last steps', kill_anywhere
    yield 'a proof that is killed', kill_proof
    for name, words in (('tools/shrink', []), ('tools/hunt', ['--seeds', '0', '0', '--jobs', '1'])):
        yield 'a note by ' + name, partial(note, name, words)
    yield 'another kit during the proof', change_kit
    yield 'another crates.txt during the proof', replace_listing_meanwhile
