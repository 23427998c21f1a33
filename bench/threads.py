#!/usr/bin/env python3
"""Measures `totem run`: how many messages the nodes send, how many of them every node delivers, and how much time and memory that takes.

It prints a line for each of the lists of arguments below: the least, the median and the greatest share over several seeds, and the most
time and memory.

    ./totem prove                                     # proves and builds the program, once
    bench/threads.py                                  # the table
    bench/threads.py --seeds 1                        # one run for each line
    taskset -c 0,1 bench/threads.py                   # on two cores
    bench/threads.py --words '--nodes 3 --lose 10'    # one line, with your own arguments

The program judges each run, too. If --keep names a folder, each run with the verdict no is written to it.
"""

import argparse
import collections
import os
import statistics
import subprocess
import sys
import tempfile
from pathlib import Path

PROGRAM = Path(__file__).resolve().parent.parent / "crates/totem/out/totem"

WORDS = [
    "--nodes 3",
    "--nodes 8",
    "--nodes 16",
    "--nodes 32",
    "--nodes 3 --lose 1 --repeat 1",
    "--nodes 8 --lose 1 --repeat 1",
    "--nodes 16 --lose 1 --repeat 1",
    "--nodes 3 --lose 1 --repeat 5 --hold 1",
    "--nodes 8 --lose 1 --repeat 5 --hold 1",
    "--nodes 16 --lose 1 --repeat 5 --hold 1",
    "--nodes 3 --lose 10",
    "--nodes 32 --lose 1",
    "--nodes 32 --lose 1 --ticks 20000",
    "--nodes 3 --ticks 100000",
    "--nodes 32 --lose 10 --repeat 20 --hold 3",
]


# Starts the program from a small process of its own, because the memory of the process that starts a child counts for the child. Prints
# the status, the seconds and the peak in KiB.
STARTER = """
import os, sys, time
start = time.perf_counter()
child = os.fork()
if child == 0:
    os.dup2(os.open(os.devnull, os.O_WRONLY), 2)
    os.execvp("timeout", ["timeout", *sys.argv[1:]])
_, status, used = os.wait4(child, 0)
print(os.waitstatus_to_exitcode(status), time.perf_counter() - start, used.ru_maxrss, file=sys.stderr)
"""

Run = collections.namedtuple("Run", "sent everywhere rings verdict seconds memory")


def counted(run, nodes):
    """How many messages of a run were sent, how many were delivered by every node, and how many rings there were."""
    sent, rings, deliverers, proc = 0, set(), collections.defaultdict(set), None
    for line in run:
        words = line.split()
        if words[0] == "log":
            proc = words[1]
        elif words[0] == "send":
            sent += 1
        elif words[0] == "dlv":
            deliverers[words[2]].add(proc)
        elif words[0] == "conf" and words[1].startswith("r"):
            rings.add(words[1])
    return sent, sum(len(procs) == nodes for procs in deliverers.values()), len(rings)


def made(arguments, words, seed):
    """Makes one run with these arguments and this seed, and returns what it shows."""
    nodes = int(words[words.index("--nodes") + 1]) if "--nodes" in words else 3
    with tempfile.TemporaryFile("w+") as run:
        asked = [str(arguments.limit), str(arguments.program), "run", *words, "--seed", str(seed)]
        told = subprocess.run([sys.executable, "-S", "-c", STARTER, *asked], stdout=run, stderr=subprocess.PIPE, text=True, check=True)
        status, seconds, memory = told.stderr.split()
        if status != "0":
            sys.exit(f"threads.py: run {' '.join(words)} --seed {seed} ended with status {status}")
        run.seek(0)
        sent, everywhere, rings = counted(run, nodes)
        run.seek(0)
        judged = subprocess.run([arguments.program, "audit"], stdin=run, stdout=subprocess.PIPE, text=True)
        verdict = judged.stdout.partition("\n")[0].removeprefix("verdict ")
        if verdict != "yes" and arguments.keep:
            run.seek(0)
            (arguments.keep / f"{'-'.join(words)}-{seed}.run".lstrip("-")).write_text(run.read())
    return Run(sent, everywhere, rings, verdict, float(seconds), int(memory) / 1024)


def line_of(arguments, words):
    """The line of the table for runs with these arguments and several seeds."""
    runs = [made(arguments, words.split(), seed) for seed in range(1, arguments.seeds + 1)]
    shares = [100 * run.everywhere / max(run.sent, 1) for run in runs]
    verdicts = collections.Counter(run.verdict for run in runs)
    rings = sorted(run.rings for run in runs)
    sent = statistics.median_low(run.sent for run in runs)
    share = f"{min(shares):.0f}, {statistics.median(shares):.0f}, {max(shares):.0f} %"
    told = ", ".join(f"{count} {verdict}" for verdict, count in verdicts.items())
    most = max(run.seconds for run in runs), max(run.memory for run in runs)
    return f"| `{words}` | {sent:,} | {share} | {rings[0]} to {rings[-1]} | {told} | {most[0]:.1f} s | {most[1]:.0f} MiB |"


def main():
    parser = argparse.ArgumentParser(description=__doc__, formatter_class=argparse.RawDescriptionHelpFormatter)
    parser.add_argument("--program", type=Path, default=PROGRAM, help="the built program")
    parser.add_argument("--words", action="append", help="a line for these arguments, instead of the table; may be repeated")
    parser.add_argument("--seeds", type=int, default=5, help="how many runs for each line")
    parser.add_argument("--limit", type=int, default=120, help="seconds after which a run is given up")
    parser.add_argument("--keep", type=Path, help="a folder for the runs whose verdict is no")
    arguments = parser.parse_args()
    if not os.access(arguments.program, os.X_OK):
        parser.error(f"{arguments.program} is not built: ./totem prove builds it")
    print("| `totem run` | Sent (median) | Delivered by all (least, median, most) | Rings | Verdicts | Time | Peak memory |")
    print("|---|---|---|---|---|---|---|")
    for words in arguments.words or WORDS:
        print(line_of(arguments, words), flush=True)


if __name__ == "__main__":
    main()
