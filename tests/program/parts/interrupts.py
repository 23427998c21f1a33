"""`tools/hunt` and `tools/shrink` with programs that hang or fail, interrupted and killed: nothing runs on, and nothing that was found is
lost. Also `tools/logs`, interrupted, and help that can't be written."""
import os
import resource
import signal
import subprocess
import sys
import tempfile
import time
from functools import partial

from harness import process
from parts.shrunk import THREE, TOOLS, YES, call
from parts.texts import EXAMPLES

sys.path.insert(0, TOOLS)
# pylint: disable=wrong-import-position
from hunting.prey import Found

# A program that notes its number in the file `running` beside it, and hangs.
HANGS = '#!/bin/sh\necho $$ >>"${0%/*}/running"\nexec sleep 60\n'
# A program that says of the first two runs that they break 3, and then does something else.
TWICE = '''#!/bin/sh
echo $1 >>"${0%%/*}/calls"
cat >/dev/null
[ $1 != explain ] && [ "$(wc -l <"${0%%/*}/calls")" -le 2 ] || { %s; }
printf 'verdict no\\nfault 3 3@6 3@5\\nend\\n'
exit 1
'''
# What is left of THREE with the places of this fault alone: of the log of process 3 the changes that they name, the change to the
# configuration from which these lead, and of the members those that have a log.
SMALL = b'totem-run 1\nlog 3\nconf r4.3 3\nconf t8.3/3 3\nconf r8.3 3\nopen\nend\n'
# Scripts by their lengths. All are said to break 4, but for those with the word `other`.
SHORT, MIDDLE, LONG = (b'totem-script 1\n' + b'run 1\n' * count + b'end\n' for count in (1, 2, 3))
OTHER, NONE = b'totem-script 1\nother\nend\n', b''
FOUR = ('4',)


def write_program(folder, text):
    """A program in a folder."""
    path = os.path.join(folder, 'program')
    with open(path, 'w', encoding='ascii') as it:
        it.write(text)
    os.chmod(path, 0o755)
    return path


def numbers_in(folder):
    """The numbers of the programs that were started."""
    try:
        with open(os.path.join(folder, 'running'), encoding='ascii') as it:
            return [int(line) for line in it.read().split('\n')[:-1]]
    except FileNotFoundError:
        return []


def is_running(number):
    """Whether a process runs."""
    try:
        with open('/proc/%d/stat' % number, encoding='ascii') as it:
            return it.read().rpartition(')')[2].split()[0] != 'Z'
    except OSError:
        return False


def children_of(number):
    """The processes that a process started."""
    found = []
    for name in filter(str.isdigit, os.listdir('/proc')):
        try:
            with open('/proc/%s/stat' % name, encoding='ascii', errors='replace') as it:
                if int(it.read().rpartition(')')[2].split()[1]) == number:
                    found.append(int(name))
        except OSError:
            pass
    return found


def until(condition, seconds=20):
    """Waits for a condition. Returns whether it came."""
    end = time.monotonic() + process.allowed(seconds)
    while not condition():
        if time.monotonic() > end:
            return False
        time.sleep(0.05)
    return True


def start(tool, *words, ignored=(), given=None):
    """Starts a tool in a group of its own."""
    def before():
        for number in (signal.SIGINT, signal.SIGHUP, signal.SIGTERM):
            signal.signal(number, signal.SIG_IGN if number in ignored else signal.SIG_DFL)
    started = subprocess.Popen([os.path.join(TOOLS, tool), *words], stdin=subprocess.PIPE, stdout=subprocess.PIPE, stderr=subprocess.PIPE,
                               env=process.ENVIRONMENT, start_new_session=True, preexec_fn=before)
    if given is not None:
        started.stdin.write(given)
        started.stdin.close()
        started.stdin = None
    return started


def end(started):
    """What a tool answers in the end."""
    try:
        output, errors = started.communicate(timeout=process.allowed(process.SECONDS))
    except subprocess.TimeoutExpired:
        os.killpg(started.pid, signal.SIGKILL)
        return process.Answer('hangs', *started.communicate())
    return process.Answer(started.returncode, output, errors)


# ---- hunts

def end_hunt(numbers, status, _program):
    """A hunt that is ended or killed: its processes end too, and the programs that they run; it says no more than that."""
    with tempfile.TemporaryDirectory() as folder:
        started = start('hunt', '--seeds', '0', '99999', '--jobs', '2', '--keep', os.path.join(folder, 'found'),
                        '--program', write_program(folder, HANGS))
        if not until(lambda: len(numbers_in(folder)) == 2):
            started.kill()
            return 'no program was started: %s' % end(started)
        workers = children_of(started.pid)
        for number in numbers:
            started.send_signal(number)
        came = end(started)
        wrong = not until(lambda: not any(map(is_running, workers + numbers_in(folder))), 5) and 'something runs on'
        for left in filter(is_running, workers + numbers_in(folder)):
            os.kill(left, signal.SIGKILL)
        seen = b'0 runs: 0 packets came, 0 rings were installed; 0 yes, 0 no\n' if status == 0 else b''
        wanted = process.Answer(status, seen, b'hunt: interrupted\n' if status == 0 else b'')
        return wrong or len(workers) != 2 or came != wanted and 'came: %s' % came


def lose_worker(_program):
    """If one of its processes is killed, the hunt ends and says so: its seeds were not all played."""
    with tempfile.TemporaryDirectory() as folder:
        started = start('hunt', '--seeds', '0', '99999', '--jobs', '2', '--program', write_program(folder, HANGS))
        until(lambda: len(numbers_in(folder)) == 2)
        os.kill(children_of(started.pid)[0], signal.SIGKILL)
        came = end(started)
        for number in filter(is_running, numbers_in(folder)):
            os.kill(number, signal.SIGKILL)
        is_right = came.status == 1 and came.errors == b'hunt: a process of the hunt ended with the code -9: its seeds were not all played\n'
        return None if is_right else 'came: %s' % came


def keep_hunting(_program):
    """Under `nohup` a closed terminal ends nothing."""
    with tempfile.TemporaryDirectory() as folder:
        started = start('hunt', '--seeds', '0', '9', '--jobs', '1', '--program', write_program(folder, HANGS), ignored=[signal.SIGHUP])
        was_started = until(lambda: len(numbers_in(folder)) == 1)
        started.send_signal(signal.SIGHUP)
        time.sleep(0.5)
        is_there = started.poll() is None
        started.send_signal(signal.SIGINT)
        came = end(started)
        return None if was_started and is_there and came.errors == b'hunt: interrupted\n' else 'came: %s' % came


def hunt_wrongly(text, told, _program):
    """A program that does something else than judging is named."""
    with tempfile.TemporaryDirectory() as folder:
        came = call('hunt', ['--seeds', '0', '3', '--jobs', '1', '--program', write_program(folder, text)])
        is_right = came.status == 1 and told in came.errors and b'Traceback' not in came.errors
        return None if is_right else 'came: %s' % came


def hunt_long(program):
    """Seeds whose scripts are too long for the program are counted."""
    text = ('import sys; sys.path.insert(0, %r); from playing import script; script.MOST_BYTES = 0; from hunting.words import main; '
            'sys.exit(main(["--seeds", "0", "2", "--jobs", "1", "--program", %r]))' % (TOOLS, program))
    came = subprocess.run([sys.executable, '-B', '-c', text], capture_output=True, env=process.ENVIRONMENT, check=False)
    wanted = (b'0 runs: 0 packets came, 0 rings were installed; 0 yes, 0 no\n'
              b'3 seeds were not played: their scripts have more than 0 bytes\n')
    return None if (came.returncode, came.stdout, came.stderr) == (0, wanted, b'') else 'came: %r' % came


def hunt_nowhere(_program):
    """A folder that can't be made is refused before the hunt."""
    with tempfile.TemporaryDirectory() as folder:
        place = write_program(folder, HANGS)
        came = call('hunt', ['--seeds', '0', '9', '--keep', os.path.join(place, 'found'), '--program', place])
        is_right = (came.status, came.output, numbers_in(folder)) == (1, b'', []) and b"found can't be written: " in came.errors
        return None if is_right else 'came: %s' % came


def hunt_full(_program):
    """A folder in which no file can be written is refused before the hunt, and nothing is left there."""
    with tempfile.TemporaryDirectory() as folder:
        place = write_program(folder, HANGS)
        words = [os.path.join(TOOLS, 'hunt'), '--seeds', '0', '9', '--keep', os.path.join(folder, 'found'), '--program', place]
        came = subprocess.run(['sh', '-c', 'ulimit -f 0; exec "$@"', 'sh', *words], capture_output=True, env=process.ENVIRONMENT, check=False)
        is_right = (came.returncode, came.stdout) == (1, b'') and came.stderr.endswith(b': File too large\n') and b"found can't be" in came.stderr
        return None if is_right and os.listdir(folder) == ['program'] else 'came: %r' % came


def write_full(words, _program):
    """An output that takes nothing has the status 4."""
    with open('/dev/full', 'wb') as full, tempfile.TemporaryDirectory() as folder:
        came = call('hunt', [*words, '--program', write_program(folder, '#!/bin/sh\nexit 2\n')], output=full)
        return None if came.status == 4 and came.errors.endswith(b'hunt: write failed\n') else 'came: %s' % came


# ---- what is kept

def found_in(folder):
    """What a hunt finds, with a judge of its own."""
    return Found(folder, lambda text: FOUR if text.endswith(b'\nend\n') and b'other' not in text else None)


def keep(before, scripts, after, told, _program):
    """Where there are these files before, and a hunt finds these scripts, there are those files after it, and this is told."""
    with tempfile.TemporaryDirectory() as room:
        folder = os.path.join(room, 'found')
        if before:
            os.mkdir(folder)
        for name, text in before.items():
            with open(os.path.join(folder, name), 'wb') as it:
                it.write(text)
        found = found_in(folder)
        for seed, text in scripts:
            found.add_no(seed, FOUR, text)
        came = {}
        for name in os.listdir(folder):
            with open(os.path.join(folder, name), 'rb') as it:
                came[name] = it.read()
        wanted = {**after, 'noes': b''.join(b'seed %d: 4\n' % seed for seed, _ in scripts)}
        lines = [line.replace(folder + '/', '') for line in list(found.lines())[1:]]
        return None if (came, lines) == (wanted, told) else 'came: %r, told %r' % (came, lines)


NAME = '4.script'
KEPT = {
    'nothing there': ({}, [(7, MIDDLE)], {NAME: MIDDLE},
                      ['4: 1 runs, the first by seed 7; the shortest script has 4 lines (seed 7), in 4.script']),
    'a shorter one there': ({NAME: SHORT}, [(7, MIDDLE)], {NAME: SHORT},
                            ['4: 1 runs, the first by seed 7; the shortest script has 3 lines (it was there before), in 4.script']),
    'a longer one there': ({NAME: LONG}, [(7, MIDDLE)], {NAME: MIDDLE},
                           ['4: 1 runs, the first by seed 7; the shortest script has 4 lines (seed 7), in 4.script']),
    'ever shorter': ({NAME: MIDDLE}, [(7, LONG), (8, MIDDLE), (9, SHORT), (5, SHORT), (3, MIDDLE)], {NAME: SHORT},
                     ['4: 5 runs, the first by seed 3; the shortest script has 3 lines (seed 5), in 4.script']),
    'something else there': ({NAME: OTHER}, [(7, MIDDLE)], {NAME: MIDDLE, NAME + '.1': OTHER},
                             ['4: 1 runs, the first by seed 7; the shortest script has 4 lines (seed 7), in 4.script',
                              '4.script was no script for this, and is now 4.script.1']),
    'a half one there, and an older one': ({NAME: NONE, NAME + '.1': OTHER}, [(7, MIDDLE)],
                                           {NAME: MIDDLE, NAME + '.1': OTHER, NAME + '.2': NONE},
                                           ['4: 1 runs, the first by seed 7; the shortest script has 4 lines (seed 7), in 4.script',
                                            '4.script was no script for this, and is now 4.script.2']),
}


def keep_of_two(_program):
    """Two hunts at once in one folder: the shortest script of both stays, whoever wrote it last."""
    with tempfile.TemporaryDirectory() as folder:
        one, other = found_in(folder), found_in(folder)
        one.add_no(1, FOUR, LONG)
        other.add_no(2, FOUR, SHORT)
        one.add_no(3, FOUR, MIDDLE)
        with open(os.path.join(folder, NAME), 'rb') as it:
            came = it.read()
        return None if came == SHORT and ' 3 lines (it was there before)' in list(one.lines())[1] else 'came: %r' % came


def keep_on_full_disk(_program):
    """If a script can't be written, the seed is told all the same."""
    with tempfile.TemporaryDirectory() as folder:
        os.symlink('/dev/full', os.path.join(folder, 'noes'))
        found = found_in(folder)
        try:
            found.add_no(7, FOUR, SHORT)
            return 'it was written'
        except OSError:
            told = list(found.lines())[1:]
        return None if told == ['4: 1 runs, the first by seed 7; its script could not be written'] else 'told: %r' % told


def keep_half(_program):
    """A hunt that is killed while it writes leaves the script that was there."""
    with tempfile.TemporaryDirectory() as folder:
        found_in(folder).add_no(7, FOUR, LONG)
        os.mkdir(os.path.join(folder, NAME + '.new'))
        try:
            found_in(folder).add_no(8, FOUR, SHORT)
            return 'it was written'
        except OSError:
            with open(os.path.join(folder, NAME), 'rb') as it:
                came = it.read()
        return None if came == LONG else 'came: %r' % came


def keep_other(_program):
    """A script with which the program disagrees replaces no other one."""
    with tempfile.TemporaryDirectory() as folder:
        for text in (SHORT, SHORT, LONG):
            found_in(folder).add_other(5, text)
        came = []
        for name in sorted(os.listdir(folder)):
            with open(os.path.join(folder, name), 'rb') as it:
                came.append((name, it.read()))
        return None if came == [('other-5.script', LONG), ('other-5.script.1', SHORT)] else 'came: %r' % came


# ---- shrinking

def interrupt_shrink(numbers, jobs, _program):
    """The smallest run that was found is written at once, whatever comes after the first signal, and though the program hangs."""
    with tempfile.TemporaryDirectory() as folder:
        path = write_program(folder, TWICE % 'echo $$ >>"${0%/*}/running"; exec sleep 60')
        started = start('shrink', '--jobs', str(jobs), '--program', path, given=THREE)
        if not until(lambda: len(numbers_in(folder)) >= jobs):
            started.kill()
            return 'it did not come so far: %s' % end(started)
        begun = time.monotonic()
        for number in numbers:
            started.send_signal(number)
            time.sleep(0.3)
        output = started.stdout.read(len(SMALL))
        seconds = time.monotonic() - begun
        started.send_signal(signal.SIGKILL)
        came = end(started)
        runs = [it for it in numbers_in(folder)[:jobs] if is_running(it)]
        for number in filter(is_running, numbers_in(folder)):
            os.kill(number, signal.SIGKILL)
        is_right = output == SMALL and came.errors.startswith(b'shrink: interrupted\n') and seconds < process.allowed(10) and not runs
        return None if is_right else 'came: %r, %s, after %.1f s, and %r run on' % (output, came, seconds, runs)


def fail_to_shrink(what, told, _program):
    """If the program fails, the smallest run that was found until then is written, and the status is 1."""
    with tempfile.TemporaryDirectory() as folder:
        came = call('shrink', ['--jobs', '1', '--program', write_program(folder, TWICE % what)], THREE)
        is_right = (came.status, came.output) == (1, SMALL) and told in came.errors and came.errors.endswith(
            b'; so this is only the smallest that was found until then\n')
        return None if is_right else 'came: %s' % came


def interrupt_reading(_program):
    """An interrupt before the run is there is one line, and nothing is written."""
    with tempfile.TemporaryDirectory() as folder:
        started = start('shrink', '--program', write_program(folder, HANGS))
        time.sleep(process.allowed(1))
        started.send_signal(signal.SIGINT)
        came = end(started)
        is_right = (came.status, came.output, came.errors) == (1, b'', b'shrink: interrupted before anything was tried\n')
        return None if is_right else 'came: %s' % came


def shrink_in_little_memory(_program):
    """An answer takes the memory of its bytes."""
    size = 700 << 20
    with tempfile.TemporaryDirectory() as folder:
        path = write_program(folder, '#!/bin/sh\nprintf "verdict yes\\nend\\n"\n')
        came = subprocess.run([os.path.join(TOOLS, 'shrink'), '--program', path, '--jobs', '1'], input=YES, capture_output=True,
                              env=process.ENVIRONMENT, check=False, preexec_fn=lambda: resource.setrlimit(resource.RLIMIT_AS, (size, size)))
        is_right = came.returncode == 1 and came.stderr.startswith(b'shrink: the verdict on this run is yes')
        return None if is_right else 'came: %r' % came


def shrink_wrongly(text, told, _program):
    """A program that gives no verdict is named, and its answer is not taken for one."""
    with tempfile.TemporaryDirectory() as folder:
        came = call('shrink', ['--jobs', '1', '--program', write_program(folder, text)], THREE)
        is_right = (came.status, came.output, came.errors.count(b'\n')) == (1, b'', 1) and told in came.errors
        return None if is_right else 'came: %s' % came


def shrink_closed(number, status, output, _program):
    """A closed stream: a closed output is one that failed, and messages go nowhere else."""
    with tempfile.TemporaryDirectory() as folder:
        path = write_program(folder, TWICE % 'printf "verdict yes\\nend\\n"; exit 0')
        came = subprocess.run([os.path.join(TOOLS, 'shrink'), '--jobs', '1', '--program', path], input=THREE, capture_output=True,
                              env=process.ENVIRONMENT, check=False, preexec_fn=lambda: os.close(number))
        return None if (came.returncode, came.stdout) == (status, output) else 'came: %r' % came


# ---- all tools

def help_nowhere(tool, words, path, _program):
    """Help that can't be written is one line, and the status 4."""
    file = os.open(path, os.O_WRONLY) if path else None
    came, _ = process.run([os.path.join(TOOLS, tool), *words, '--help'], others={1: file}, environment=os.environ)
    if file is not None:
        os.close(file)
    wanted = process.Answer(4, b'', b'%s: write failed\n' % tool.encode())
    return None if came == wanted else 'came: %s' % came


def to_nobody(tool, words, given, program):
    """The reader of the output has gone, as `head` does: the status is 4, and of that nothing is said."""
    reader, writer = os.pipe()
    os.close(reader)
    came = call(tool, [word.replace('PROGRAM', program) for word in words], given, output=writer)
    os.close(writer)
    return None if came.status == 4 and b'write failed' not in came.errors and b'Broken' not in came.errors else 'came: %d, %r' % (came.status, came.errors)


def interrupt_logs(words, name, numbers, _program):
    """An interrupt while a file is read (here one that nobody writes) is one line and a status, and nothing is written."""
    with tempfile.TemporaryDirectory() as folder:
        os.mkfifo(os.path.join(folder, name))
        started = start('logs', *(word.replace('FOLDER', folder) for word in words))
        time.sleep(process.allowed(1))
        for number in numbers:
            started.send_signal(number)
        came = end(started)
    return None if came == process.Answer(130, b'', b'logs: interrupted\n') else 'came: %s' % came


def interrupt_blocked_logs(_program):
    """An interrupt ends it though nobody reads the run that it writes."""
    with tempfile.TemporaryDirectory() as folder:
        with open(os.path.join(folder, '1.log'), 'w', encoding='ascii') as it:
            it.write('conf r4.1 1\n' + 'dlv r4.1 4.1#1\n' * 100000)
        started = start('logs', 'join', folder)
        time.sleep(process.allowed(2))
        started.send_signal(signal.SIGINT)
        has_ended = until(lambda: started.poll() is not None)
        came = end(started)
    return None if has_ended and (came.status, came.errors) == (130, b'logs: interrupted\n') else 'came: %s' % came


def of_all_tools():
    """Help that can't be written, and `tools/logs` interrupted."""
    for tool, *words in (['logs'], ['logs', 'join'], ['logs', 'where'], ['shrink'], ['hunt']):
        what = ' '.join([tool, *words])
        yield 'help of %s on a full device' % what, partial(help_nowhere, tool, words, '/dev/full')
        yield 'help of %s with a closed output' % what, partial(help_nowhere, tool, words, None)
        yield 'help of %s that nobody reads' % what, partial(to_nobody, tool, [*words, '--help'], b'')
    for what, (tool, *words), given in (
            ('a run', ['logs', 'join', os.path.join(EXAMPLES, 'own-logs')], b''),
            ('names in an explanation', ['logs', 'name', '/dev/null'], b'process 1\n'),
            ('a small run', ['shrink', '--program', 'PROGRAM'], THREE),
            ('a script that is shown', ['play', os.path.join(EXAMPLES, 'broken', '4.script')], b''),
            ('a script that is made', ['hunt', '--show', '3'], b'')):
        yield '%s that nobody reads' % what, partial(to_nobody, tool, words, given)
    for numbers in ((signal.SIGINT,), (signal.SIGINT, signal.SIGTERM, signal.SIGINT)):
        for words, name in ((['join', '--lives', '--clock', 'FOLDER/times', os.path.join(EXAMPLES, 'logs', 'lives')], 'times'),
                            (['where', 'FOLDER/map', '1@1'], 'map')):
            what = 'logs %s interrupted while it reads, with the signals %s' % (' '.join(words), ' '.join(str(int(number)) for number in numbers))
            yield what, partial(interrupt_logs, words, name, numbers)
    yield 'logs interrupted while nobody reads', interrupt_blocked_logs


def interrupts():
    """Hunts and shrinking that are ended, and programs that fail."""
    for numbers, status in (((signal.SIGKILL,), -signal.SIGKILL), ((signal.SIGHUP,) * 2, 0), ((signal.SIGTERM,) * 2, 0), ((signal.SIGINT,) * 2, 0),
                            ((signal.SIGINT, signal.SIGTERM), 0), ((signal.SIGHUP, signal.SIGINT, signal.SIGTERM, signal.SIGINT), 0)):
        yield 'a hunt and the signals %s' % ' '.join(str(int(number)) for number in numbers), partial(end_hunt, numbers, status)
    yield 'a hunt and a closed terminal, ignored', keep_hunting
    yield 'a hunt that loses a process', lose_worker
    for what, text, told in (('no verdict', '#!/bin/sh\ncat >/dev/null; exit 9\n', b' sim` ended with status 9'),
                             ('no program', '\1\2\n', b'Exec format error')):
        yield 'a hunt, ' + what, partial(hunt_wrongly, text, told)
    yield 'a hunt, long scripts', hunt_long
    yield 'a hunt that can keep nothing', hunt_nowhere
    yield 'a hunt on a full disk', hunt_full
    for words in (['--show', '3'], ['--seeds', '0', '0', '--keep', '/dev/shm']):
        yield 'a full device: hunt ' + ' '.join(words), partial(write_full, words)
    for what, case in KEPT.items():
        yield 'kept: ' + what, partial(keep, *case)
    yield 'kept: two hunts at once', keep_of_two
    yield 'kept: on a full disk', keep_on_full_disk
    yield 'kept: half written', keep_half
    yield 'kept: scripts with another run', keep_other
    for numbers in ((signal.SIGINT,), (signal.SIGINT,) * 3, (signal.SIGHUP, signal.SIGTERM), (signal.SIGTERM,) * 2):
        for jobs in (1, 2):
            what = 'shrink with %d jobs and the signals %s' % (jobs, ' '.join(str(int(number)) for number in numbers))
            yield what, partial(interrupt_shrink, numbers, jobs)
    yield 'shrink, out of memory', partial(fail_to_shrink, 'exit 3', b' audit` ended with status 3')
    yield 'shrink, killed program', partial(fail_to_shrink, 'kill -9 $$', b' audit` ended with status 137')
    yield 'shrink, interrupted while it reads', interrupt_reading
    yield 'shrink in little memory', shrink_in_little_memory
    for what, text, told in (('a yes with status 1', '#!/bin/sh\necho "verdict yes"; echo end; exit 1\n', b'has no such verdict'),
                             ('nothing', '#!/bin/sh\nexit 0\n', b'has no such verdict'),
                             ('half a verdict', '#!/bin/sh\necho "verdict no"; exit 1\n', b'has no such verdict'),
                             ('no program', '\1\2\n', b'Exec format error')):
        yield 'shrink, ' + what, partial(shrink_wrongly, text, told)
    yield 'shrink, output closed', partial(shrink_closed, 1, 4, b'')
    yield 'shrink, errors closed', partial(shrink_closed, 2, 0, SMALL)
    yield from of_all_tools()
