#!/usr/bin/env python3
"""Measures where the gate's processor time goes: runs `rt ci` and sums up the time of its checks, by crate and by kind of check.

    bench/gate.py                     # runs `rt ci` here, and prints the table when it has ended
    bench/gate.py --anew              # the same from nothing, even if the kit has kept what an earlier run on this machine proved
    bench/gate.py --each              # the table, and after it a line for each edit
    bench/gate.py rt ci totem_ids     # the same for another command
    bench/gate.py --watch             # only watches a run that somebody else began; ends with Ctrl-C

It looks at /proc every second, so it needs Linux, and it misses a check that begins and ends between two looks. It counts the checks that
its command runs; --watch counts all on the machine. The columns are
processor minutes: of a crate's own proof, which builds it too; of the proof of its tests; of the checks with which its must-fail edits
begin and end; and of the edits themselves. On a loaded machine the same work takes up to twice the time, so let nothing else run."""

import argparse
import collections
import glob
import os
import signal
import subprocess
import sys
import time

sys.path.insert(0, os.path.join(os.path.dirname(os.path.dirname(os.path.abspath(__file__))), "tools"))

from proving.kit import words_for_anew  # noqa: E402  pylint: disable=wrong-import-position

TICKS = os.sysconf("SC_CLK_TCK")
PROVER = "rattle"
GATE = ["rt", "ci"]
COLUMNS = ("proof", "tests", "begin", "edits")

Process = collections.namedtuple("Process", "name parent started seconds")


def processes():
    """All processes, by their numbers: the time of each includes that of the children that it waited for."""
    found = {}
    for folder in glob.glob("/proc/[0-9]*"):
        try:
            with open(folder + "/stat", encoding="utf-8", errors="replace") as it:
                front, _, back = it.read().rpartition(")")
        except OSError:
            continue
        words = back.split()
        seconds = sum(map(int, words[11:15])) / TICKS
        found[int(folder[6:])] = Process(front.partition("(")[2], int(words[1]), words[19], seconds)
    return found


def prover_above(found, number):
    """The outermost process of the prover that this one belongs to."""
    while found[number].parent in found and found[found[number].parent].name == PROVER:
        number = found[number].parent
    return number


def is_below(found, number, root):
    """Whether a process is a descendant of another one."""
    while number in found and number != root:
        number = found[number].parent
    return number == root


def edit_in(crate, folder):
    """The must-fail edit that was made in a copy of a crate, or None if the copy is unchanged."""
    for path in sorted(glob.glob("crates/%s/must-fail/*.edit" % crate)):
        with open(path, encoding="utf-8") as it:
            lines = it.read().splitlines()
        file = next((line[5:].strip() for line in lines if line.startswith("file:")), None)
        if not file:
            continue
        new = [line[4:].removeprefix(" ") for line in lines if line.startswith("new:")]
        old = [line[4:].removeprefix(" ") for line in lines if line.startswith("old:")]
        with open(os.path.join(folder, file), encoding="utf-8") as it:
            text = it.read()
        if all(line in text for line in new) and not any(line in text for line in old if not any(line in it for it in new)):
            return os.path.basename(path)[:-5]
    return None


def work_of(number):
    """The crate that a process of the prover checks, the kind of check, and the name of the edit if it checks one."""
    with open("/proc/%d/cmdline" % number, "rb") as it:
        words = it.read().decode(errors="replace").split("\0")
    folder = os.readlink("/proc/%d/cwd" % number)
    crate = words[words.index("--crate-name") + 1] if "--crate-name" in words else "?"
    if not os.path.basename(folder).startswith("rt-edit"):
        return crate, "tests" if "--test" in words else "proof", None
    edit = edit_in(crate, folder)
    return crate, "edits" if edit else "begin", edit


class Watch:
    """The time that each check has taken so far: of the checks below one process, or of all on this machine."""

    def __init__(self, root=None):
        self.root = root
        self.works = {}
        self.seconds = collections.Counter()

    def look(self):
        """Adds the time that the checks have taken since the last look."""
        found = processes()
        now = collections.Counter()
        for number, process in found.items():
            if process.name == PROVER and (self.root is None or is_below(found, number, self.root)):
                above = prover_above(found, number)
                now[above, found[above].started] += process.seconds
        for key, seconds in now.items():
            try:
                if key not in self.works:
                    self.works[key] = work_of(key[0])
            except (OSError, ValueError):  # (it has ended, or its files are being written)
                continue
            self.seconds[key] = max(self.seconds[key], seconds)

    def sums(self):
        """Minutes by crate and column, and by crate and edit."""
        crates, edits = collections.defaultdict(collections.Counter), collections.Counter()
        for key, (crate, what, edit) in self.works.items():
            crates[crate][what] += self.seconds[key] / 60
            if edit:
                edits[crate, edit] += self.seconds[key] / 60
        return crates, edits


def tell(crates, edits, each):
    """Prints the table, the most expensive crate first."""
    print("%-24s" % "processor minutes" + "".join("%8s" % it for it in COLUMNS) + "%8s" % "all")
    whole = collections.Counter()
    for crate, row in sorted(crates.items(), key=lambda it: -sum(it[1].values())):
        print("%-24s" % crate + "".join("%8.1f" % row[it] for it in COLUMNS) + "%8.1f" % sum(row.values()))
        whole.update(row)
    print("%-24s" % "all" + "".join("%8.1f" % whole[it] for it in COLUMNS) + "%8.1f" % sum(whole.values()))
    if each:
        for (crate, edit), minutes in edits.most_common():
            print("%8.2f  %s %s" % (minutes, crate, edit))


def main():
    """Watches until the command has ended, and prints the table."""
    parser = argparse.ArgumentParser(description=__doc__, formatter_class=argparse.RawDescriptionHelpFormatter)
    parser.add_argument("--anew", action="store_true", help="take nothing that an earlier run has kept")
    parser.add_argument("--each", action="store_true", help="also print a line for each edit")
    parser.add_argument("--watch", action="store_true", help="start nothing, only watch")
    parser.add_argument("command", nargs="*")
    asked = parser.parse_args()
    signal.signal(signal.SIGTERM, signal.default_int_handler)
    running = None if asked.watch else subprocess.Popen(asked.command or GATE + (words_for_anew() if asked.anew else []))
    watch, begun = Watch(running.pid if running else None), time.monotonic()
    try:
        while not running or running.poll() is None:
            watch.look()
            time.sleep(1)
    except KeyboardInterrupt:
        pass
    tell(*watch.sums(), asked.each)
    print("%.0f minutes passed" % ((time.monotonic() - begun) / 60))
    return running.wait() if running else 0


if __name__ == "__main__":
    sys.exit(main())
