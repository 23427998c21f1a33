"""The prover: what runs, what it prints, and what it proved."""
import os
import queue
import re
import signal
import subprocess
import threading
import time

from proving.copies import copy_crates, crates_of
from proving.kit import words_for_anew
from proving.progress import seconds_of
from proving.room import free_memory, wanted_mb
from proving.telling import Unmade

# Free memory, in MB, that a second run requires.
AHEAD_MB = 10000
# What `rt ci` prints about a crate.
VERDICT = re.compile(r'rt: (\w+) (proved$|is kept(?=: )|NOT PROVED)')


def _guard_of(process):
    """Starts a process that ends a run with all that it started when this one ends, however that ends: it waits for the end of a pipe."""
    return subprocess.Popen(['sh', '-c', 'read -r it; kill -s KILL -- "-$0"', str(process.pid)], stdin=subprocess.PIPE,
                            stdout=subprocess.DEVNULL, stderr=subprocess.DEVNULL, start_new_session=True)


class Provers:
    """The runs of `rt ci`: that of the whole copy, which decides, and perhaps one that goes ahead."""

    def __init__(self):
        self.said, self.running, self.guards = queue.Queue(), [], {}

    def start(self, folder, *words):
        """Starts a run in a folder. Its output comes as pairs of the run and a line; None is its end."""
        process = subprocess.Popen(words, cwd=folder, stdin=subprocess.DEVNULL, stdout=subprocess.PIPE, stderr=subprocess.STDOUT,
                                   text=True, encoding='utf-8', errors='replace', start_new_session=True)
        self.running.append(process)
        self.guards[process] = _guard_of(process)

        def read():
            for line in process.stdout:
                self.said.put((process, line))
            self.said.put((process, None))

        threading.Thread(target=read, daemon=True).start()
        return process

    def end(self, process):
        """Ends a run if it has not ended, with all that it started, and waits for it."""
        if process.returncode is not None:
            return
        for number in (signal.SIGTERM, signal.SIGKILL):
            until = time.monotonic() + 5
            if not has_ended(process):
                os.killpg(process.pid, number)
            while not has_ended(process) and time.monotonic() < until:
                time.sleep(0.02)
        if has_ended(process) != os.CLD_EXITED:
            # (if it was killed, what it started may still run; its number is its group's, as nobody has waited for it yet)
            os.killpg(process.pid, signal.SIGKILL)
        self.guards[process].kill()
        self.guards[process].communicate()
        process.wait()

    def end_all(self):
        """Ends all that runs."""
        for process in self.running:
            self.end(process)


def has_ended(process):
    """How a process ended, or None if it runs. It stays there to be waited for."""
    found = os.waitid(os.P_PID, process.pid, os.WEXITED | os.WNOHANG | os.WNOWAIT)
    return found.si_code if found else None


class Log:
    """The file with the output of the runs: all lines of a crate are together."""

    def __init__(self, file):
        self.file, self.gathered = file, {}

    def write(self, process, line):
        """Writes a line, or gathers it until its crate is done."""
        if line.startswith('== '):
            self.gathered[process] = []
        lines = self.gathered.get(process)
        if lines is None:
            self.file.write(line)
        else:
            lines.append(line)
            if VERDICT.match(line):
                self.file.writelines(self.gathered.pop(process))
        self.file.flush()


class Told:
    """What a run said of each crate that it proved, or that an earlier one did."""

    def __init__(self):
        self.logic, self.lines = None, {}

    def take(self, line):
        """Takes a line of its output."""
        found = VERDICT.match(line)
        if line.startswith('== '):
            self.logic = None
        elif line.startswith('logic='):
            self.logic = line.strip()
        elif found and found[2] == 'NOT PROVED':
            self.lines.pop(found[1], None)
        elif found:
            self.lines[found[1]] = self.logic or 'proved' if found[2] == 'proved' else line.partition(': ')[2].partition(': ')[2].strip()


def first_of(crates, top):
    """The most expensive crate of the longest chain, except the program itself, with all crates that it uses, lowest first."""
    longest = {}
    for it in crates:
        longest[it.name] = max((longest[below] for below in it.below), key=seconds_of, default=[]) + [it]
    dearest = max(longest[crates[-1].name][:-1], key=lambda it: it.size, default=crates[-1])
    return crates_of(dearest.name, top)


def start_ahead(provers, crates, whole, room):
    """Starts a run of its own for the crates that the others wait for longest, if there are processors and memory for it. `rt` gives a
    crate more processors if nothing else waits for them, and each run takes what the other one proved. Returns the run, or None."""
    first, memory = first_of(crates, whole), free_memory()
    if len(os.sched_getaffinity(0)) < 2 or len(first) < 2 or memory is None or memory < wanted_mb('TOTEM_AHEAD_MB', AHEAD_MB):
        return None
    folder = os.path.join(room, 'ahead')
    copy_crates(first[-1].name, folder, whole)
    ahead = provers.start(folder, 'rt', 'ci')
    begun = os.path.join(folder, 'crates', first[0].name, 'out')
    until = time.monotonic() + 30
    while not os.path.isdir(begun) and not has_ended(ahead) and time.monotonic() < until:
        time.sleep(0.1)
    return ahead


def follow(provers, whole, ahead, progress, log):
    """Follows the output of the runs until the run of the whole copy ends. Returns what it said of the crates, and the crate that it did
    not prove, if there is one."""
    told = Told()
    while True:
        process, line = provers.said.get()
        if line is None and process is whole:
            return told, None
        if line is None:
            continue
        log.write(process, line)
        found = VERDICT.match(line)
        name, verdict = found.groups() if found else (None, None)
        if process is whole:
            told.take(line)
            if verdict == 'NOT PROVED':
                return told, name
        if name not in progress.crates or verdict == 'NOT PROVED':
            continue
        if name in progress.proved:
            if verdict == 'proved' and ahead:
                # (this kit keeps nothing, so each run would prove everything)
                provers.end(ahead)
            continue
        progress.proved.append(name)
        if provers.said.empty():
            # (by then the crates that waited for this one have begun)
            time.sleep(1)
        progress.tell_proved(name, verdict != 'proved')


def prove(crates, room, progress, log, anew):
    """Proves a copy of the crates in a folder of `room`; raises if that fails. Returns what the prover said last of each crate."""
    provers = Provers()
    try:
        ahead = None if anew else start_ahead(provers, crates, progress.folder, room)
        whole = provers.start(progress.folder, *['nice', '-n', '3'] * bool(ahead), 'rt', 'ci', *(words_for_anew() if anew else ()))
        told, refused = follow(provers, whole, ahead, progress, log)
        if not refused:
            os.waitid(os.P_PID, whole.pid, os.WEXITED | os.WNOWAIT)
    finally:
        provers.end_all()
    if refused:
        raise Unmade('%s was not proved, so the program is not built: see %s' % (refused, log.file.name))
    if whole.returncode:
        raise Unmade('rt ci ended with status %d, so the program is not built: see %s' % (whole.returncode, log.file.name))
    missing = [it.name for it in crates if it.name not in told.lines]
    if missing:
        raise Unmade('rt ci named only %d of %d crates as proved (not %s), so the program is not built: see %s' % (
            len(crates) - len(missing), len(crates), ', '.join(missing), log.file.name))
    return [(it.name, told.lines[it.name]) for it in crates]
