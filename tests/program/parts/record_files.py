"""The files of `tools/record`: folders that can't be used, disks that are full, and the logs of earlier lives, which are only ever appended to."""
import os
import re
import resource
import signal
from functools import partial

from harness import stand_in
from harness.stand_in import ALONE, NODE, Place
from parts.joined import join
from parts.record_checks import boot, checked, differs, judged, text_of


def refuse_folder(path, told, _program):
    """The folder can't be made, or no file in it: LOGS in the path is a file."""
    with Place() as it:
        with open(it.path, 'wb'):
            pass
        came = it.start(ALONE, '--logs', path.replace('LOGS', it.path)).end()
        return differs(it, came, 1, told) or (os.stat(it.path).st_size and 'it wrote into the file')


def make_folder(_program):
    """Folders that are not there are made."""
    with Place() as it:
        it.path = os.path.join(it.path, 'a', 'b')
        started = it.start(ALONE)
        if not it.goes('mcast 1'):
            return 'it did not come so far: %r' % started.said
        return checked(it, started.end(signal.SIGTERM), 0, '; it left') or (len(it.names()) != 1 and 'it made %r' % it.names())


def fill_disk(size, told, _program):
    """No more than so many bytes of a file can be written: the recorder ends, and what it wrote can be joined."""
    with Place() as it:
        def before():
            resource.setrlimit(resource.RLIMIT_FSIZE, (size, size))
        came = it.start(ALONE, before=before).end()
        wrong = differs(it, came, 1, told)
        if wrong or not size:
            return wrong or (text_of(it) and 'it wrote %r' % text_of(it))
        joined = join([], it.path)
        return joined.status and 'joined: %s' % joined or len(text_of(it)) != size and 'it wrote %d bytes' % len(text_of(it))


def find_log(_program):
    """There is a log of this life already: it stays as it is, and another life begins."""
    with Place() as it:
        os.makedirs(it.path)
        started = it.start('node %d\noccupy LOGS\nlife\n%s' % (NODE, ALONE))
        if not it.goes('mcast 1', count=2):
            return 'it did not come so far: %r' % started.said
        old, new = it.names()
        came = started.end(signal.SIGTERM)
        wrong = differs(it, came, 0, old + ' is there already: ', new, '; it left')
        return wrong or it.wrong_log(new) or (it.text(old) != '# of another process\n' and 'it wrote into the other log: %r' % it.text(old))


FIRST = '# totem-log 1 sends=taken ends=early transitional=late by=record/1 node=5 pid=100 group=old sync=%s boot=%s\n'
BODY = '%s conf r2500001.5 5:101\n%s send r2500001.5 a 2500001.5#1\n'
THEN_TIME = '2026-11-29T07:45:27.251234Z'
LATER = '2999-01-01T00:00:00.000000Z'
OLD = BODY % (THEN_TIME, THEN_TIME)
CLOSED = '101.log is closed with `fail`: that life was killed'
TORN = '5.101.log ends in the middle of a line, and stays as it is: join the logs with --torn 5:101'
OPEN = '5.101.log stays open, since its end may be lost: the machine has started again; join the logs with --torn 5:101'
# The log of an earlier life, what is added to it, and what is said. BOOT is this start of the machine.
EARLIER = {
    'killed': (FIRST % ('yes', 'BOOT') + OLD, 'TIME fail r2500001.5\n', CLOSED),
    'killed, without sync': (FIRST % ('no', 'BOOT') + OLD, 'TIME fail r2500001.5\n', CLOSED),
    'killed before the machine started again': (FIRST % ('yes', 'another') + OLD, 'TIME fail r2500001.5\n', CLOSED),
    'killed before the machine started again, without sync': (FIRST % ('no', 'another') + OLD, '', OPEN),
    'killed after a remark': (
        FIRST % ('yes', 'BOOT') + OLD + THEN_TIME + ' # nothing is delivered for 30 s though messages wait\n', 'TIME fail r2500001.5\n', CLOSED),
    'killed in its second configuration': (
        FIRST % ('yes', 'BOOT') + OLD + '{0} conf t2900000.5/5 5:101\n{0} conf r2900000.5 5:101\n'.format(THEN_TIME),
        'TIME fail r2900000.5\n', CLOSED),
    'killed between two changes': (
        FIRST % ('yes', 'BOOT') + OLD + THEN_TIME + ' conf t2900000.5/5 5:101\n', 'TIME fail t2900000.5/5\n', CLOSED),
    'killed, by a clock that was ahead': (FIRST % ('yes', 'BOOT') + BODY % (LATER, LATER), LATER + ' fail r2500001.5\n', CLOSED),
    'killed before its first configuration': (FIRST % ('yes', 'BOOT') + THEN_TIME + ' # ring 5.25 members 5\n', '', ''),
    'torn': (FIRST % ('yes', 'BOOT') + OLD + '2026-11-29T07:45:28.251', '', TORN),
    'torn before the machine started again': (FIRST % ('no', 'another') + OLD + '2026-11-29T07:45:28.251', '', TORN),
    'torn, in its first line': ('# totem-log 1 sends', '', ''),
    'empty': ('', '', ''),
    'failed': (FIRST % ('yes', 'BOOT') + OLD + THEN_TIME + ' fail r2500001.5\n', '', ''),
    'quiet': (FIRST % ('yes', 'BOOT') + OLD + THEN_TIME + ' quiet\n', '', ''),
    'of something else': ('conf r2500001.5 5:101\n', '', ''),
    'of another recorder': ('# totem-log 1 sends=delivered by=other/1\n' + OLD, '', ''),
}


def find_earlier(before, added, told, _program):
    """The log of an earlier life of this node: what is added to it. Those of other nodes and other files stay as they are."""
    with Place() as it:
        text = before.replace('BOOT', boot())
        others = {'15.101.log': text, '55.101.log': text, '5.101.log.1': text, '5.log': text, 'notes.txt': text}
        for name, content in {'5.101.log': text, **others}.items():
            it.write(name, content)
        started = it.start(ALONE)
        if not it.goes('mcast 1'):
            return 'it did not come so far: %r' % started.said
        came = started.end(signal.SIGTERM)
        wrong = differs(it, came, 0, *[told] if told else [], ' writes LOGS/', '; it left')
        after, form = it.text('5.101.log'), re.escape(added).replace('TIME', stand_in.TIME)
        if not after.startswith(text) or not re.fullmatch(form, after[len(text):]):
            return 'the log was %r, and is %r' % (text, after)
        if not told and before.startswith(FIRST[:20]) and before.endswith('\n') and b'5.101' in came.errors:
            return 'it said %s' % came
        return wrong or next(('%s is %r' % (name, it.text(name)) for name in others if it.text(name) != text), None)


def kill_and_close(program):
    """A recorder is killed, with all of it: the next one closes its log, and both are joined and judged."""
    with Place() as it:
        killed = it.start(ALONE)
        if not it.goes('mcast 1', count=2):
            return 'it did not come so far: %r' % killed.said
        killed.end(signal.SIGKILL)
        life, = it.lives()
        if not stand_in.until(lambda: not stand_in.is_running(life)):
            return 'the recording process runs on'
        old = it.text(it.name(life))
        started = it.start(ALONE)
        if not it.goes('mcast 1', which=2):
            return 'it did not come so far: %r' % started.said
        came = started.end(signal.SIGINT)
        wrong = checked(it, came, 0, it.name(life) + ' is closed with `fail`: that life was killed', '; all have ended') or judged(it, program)
        new = it.text(it.name(life))
        form = '%s fail %s\n' % (stand_in.TIME, re.escape(it.entries(it.name(life))[0].split(' ')[1]))
        is_right = new.startswith(old) and re.fullmatch(form, new[len(old):])
        return wrong or (None if is_right else 'the log was %r, and is %r' % (old, new))


def record_beside(_program):
    """A recorder of another group writes into the same folder: neither touches the log of the other one."""
    with Place() as it:
        one = it.start(ALONE)
        if not it.goes('mcast 1'):
            return 'it did not come so far: %r' % one.said
        other = it.start(ALONE, '--group', it.group + '-other')
        if not it.goes('mcast 1', which=2, count=2) or not it.goes('mcast 1', count=4):
            return 'it did not come so far: %r' % other.said
        wrong = checked(it, other.end(signal.SIGTERM), 0, ' writes LOGS/', 'members 5:', '; it left')
        return wrong or checked(it, one.end(signal.SIGTERM), 0, '; it left') or (len(it.names()) != 2 and 'there are %r' % it.names())


def record_twice(_program):
    """A second recorder of the same group and node is refused, and the first one goes on."""
    with Place() as it:
        one = it.start(ALONE)
        if not it.goes('mcast 1'):
            return 'it did not come so far: %r' % one.said
        came = it.start(ALONE).end()
        wrong = differs(it, came, 1, 'another recorder of the group GROUP runs on this node, %d' % NODE)
        wrong = wrong or not it.goes('mcast 1', count=3) and 'the first one does not go on'
        return wrong or checked(it, one.end(signal.SIGTERM), 0, '; it left') or (len(it.names()) != 1 and 'there are %r' % it.names())


def cases():
    """Folders, files, and earlier logs."""
    for path, told in (('LOGS', 'LOGS: File exists'), ('LOGS/in', 'LOGS/in: Not a directory'),
                       ('/proc/none/in', '/proc/none: No such file or directory'),
                       ('/proc/self', '.log: No such file or directory; nothing more is recorded')):
        yield 'logs in ' + path, partial(refuse_folder, path, told)
    yield 'folders that are not there', make_folder
    for size, told in ((0, '.log: File too large; nothing more is recorded'),
                       (600, '.log: only a part of a line could be written: no space is left; nothing more is recorded')):
        yield 'a full disk after %d bytes' % size, partial(fill_disk, size, told)
    yield 'a log that is there', find_log
    for what, case in EARLIER.items():
        yield 'an earlier log: ' + what, partial(find_earlier, *case)
    yield 'an earlier recorder that was killed', kill_and_close
    yield 'two recorders of two groups', record_beside
    yield 'two recorders of one node', record_twice
