#!/usr/bin/env python3
"""Measures the time of `totem audit` and `totem explain` on families of runs, and of `totem check` on the certificates that they give.

For each family and each size it makes a run, lets the program judge it, and prints a line: the number of entries, the verdict, the
shortest wall time of a few tries, the peak memory, the peak memory per entry, and by which factors the time and the entries grew since the
size before; then the time of the explanation, and how many times that of the audit it is. If the verdict is yes, the line also has the time
and the memory of the check of its certificate, and of the check of the same certificate with its last number changed. If the time of a
family grows much faster than its entries, that is a defect.

    ./totem prove                                  # proves and builds the program, once
    bench/audit.py                                 # the table
    bench/audit.py --families well8,fails --sizes 10000,40000,160000
    bench/audit.py --workers 4                     # with four threads for the last pass
    bench/audit.py --write fails --sizes 1000      # the run itself, for other programs

The runs are a function of the seed. A peak below 10 MiB is that of the process that starts the program. On a machine that
does other work the times vary by half, so compare only lines of the same table.
"""

import argparse
import os
import random
import subprocess
import sys
import tempfile
from pathlib import Path

PROGRAM = Path(__file__).resolve().parent.parent / "crates/totem/out/totem"


class Ring:
    """The messages of one ring: its number, its members, and who sends what with which service, in a batch for each visit of the token."""

    def __init__(self, rng, number, members, messages):
        self.number, self.members = number, members
        self.name = f"{number}.{members[0]}"
        self.batches, at = [], 1
        while at <= messages:
            size = min(rng.randint(1, 8), messages + 1 - at)
            services = ["s" if rng.random() < 0.2 else "a" for _ in range(size)]
            self.batches.append((members[len(self.batches) % len(members)], at, services))
            at += size

    def change(self):
        return f"conf r{self.name} {' '.join(map(str, self.members))}"

    def between(self, following):
        """The change to the transitional configuration in which all members go on to the next ring."""
        return f"conf t{following.name}/{self.members[0]} {' '.join(map(str, self.members))}"

    def send(self, number, service):
        return f"send r{self.name} {service} {self.name}#{number}"

    def delivery(self, number):
        return f"dlv r{self.name} {self.name}#{number}"

    def life(self, member, delivers=lambda number, sender: True, sends=True):
        """The lines of one member: its own batches, each in its turn, and what it delivers of all batches."""
        lines = [self.change()]
        for sender, first, services in self.batches:
            numbers = range(first, first + len(services))
            if sender == member and sends:
                lines += [self.send(number, service) for number, service in zip(numbers, services)]
            lines += [self.delivery(number) for number in numbers if delivers(number, sender)]
        return lines


def with_first_lives(line):
    """The line as it is in a text that has lives."""
    words = line.split(" ")
    return " ".join([*words[:2], *(word + ":1" for word in words[2:])]) if words[0] == "conf" else line


def text_of(logs):
    """The run's text: each log is a process, its lines and the word that closes it. If a log is quiet, the text is of version 3."""
    quiet = any(ending == "quiet" for _, _, ending in logs)
    lines = ["totem-run 3" if quiet else "totem-run 1"]
    for process, body, ending in logs:
        body = map(with_first_lives, body) if quiet else body
        lines += [f"log {process}:1" if quiet else f"log {process}", *body, ending]
    return "\n".join([*lines, "end", ""])


def all_well(count, ending="open"):
    def family(rng, entries):
        ring = Ring(rng, 4, list(range(1, count + 1)), entries // (count + 1))
        return [(member, ring.life(member), ending) for member in ring.members]

    return family


def many_rings(messages):
    """Eight members that go from ring to ring, with this many messages on each."""

    def family(rng, entries):
        members = list(range(1, 9))
        count = max(1, entries // (16 + 9 * messages))
        rings = [Ring(rng, 4 * (place + 1), members, messages) for place in range(count)]
        logs = []
        for member in members:
            lines = []
            for place, ring in enumerate(rings):
                lines += ring.life(member)
                if place + 1 < count:
                    lines.append(ring.between(rings[place + 1]))
            logs.append((member, lines, "open"))
        return logs

    return family


def parts_and_joins(count):
    """Members that split into two halves and join again, twice. The last hundred messages before each split are not delivered before it:
    each half then delivers those that it sent."""

    def family(rng, entries):
        members = list(range(1, count + 1))
        halves = [members[: count // 2], members[count // 2 :]]
        messages = entries // (4 * (count + 1))
        reach = max(1, messages - 100)
        wholes = [Ring(rng, number, members, messages) for number in (4, 12)]
        parts = [[Ring(rng, number, half, messages) for half in halves] for number in (8, 16)]
        logs = []
        for member in members:
            side = member > count // 2
            half, lines = halves[side], []
            for place, whole in enumerate(wholes):
                part = parts[place][side]
                if place:
                    lines.append(parts[place - 1][side].between(whole))
                lines += whole.life(member, lambda number, _: number <= reach)
                lines.append(part.between(part))
                later = whole.life(member, lambda number, sender, half=half: number > reach and sender in half, sends=False)[1:]
                lines += [line.replace(f"dlv r{whole.name} ", f"dlv t{part.name}/{half[0]} ") for line in later]
                lines += part.life(member)
            logs.append((member, lines, "open"))
        return logs

    return family


def one_stays_behind(count, share, ending):
    """The last of this many members sends nothing, and delivers this share of the messages, but at least two."""

    def family(rng, entries):
        messages = entries // count
        ring = Ring(rng, 4, list(range(1, count + 1)), messages)
        ring.batches = [(1 + place % (count - 1), first, ["a"] * len(services)) for place, (_, first, services) in enumerate(ring.batches)]
        reach = max(2, int(share * messages))
        logs = [(member, ring.life(member), "open") for member in ring.members[:-1]]
        last = ring.life(count, lambda number, _: number <= reach)
        return [*logs, (count, [*last, f"fail r{ring.name}"] if ending == "failed" else last, ending)]

    return family


def each_for_itself(rng, entries):
    """Two failed logs, each of which delivers what it sent itself and nothing else."""
    ring = Ring(rng, 4, [1, 2], entries // 2)
    ring.batches = [(sender, first, ["a"] * len(services)) for sender, first, services in ring.batches]
    return [
        (member, [*ring.life(member, lambda _, sender, me=member: sender == me), f"fail r{ring.name}"], "failed")
        for member in ring.members
    ]


def broken_at_the_end(kind):
    """Three members, the last of which misses a message at the end, so that a specification is broken."""

    def family(rng, entries):
        messages = max(4, entries // 4)
        ring = Ring(rng, 4, [1, 2, 3], messages)
        services = "s" if kind == "7.1" else "a"
        ring.batches = [(1 + place % 2, first, ["a"] * len(given)) for place, (_, first, given) in enumerate(ring.batches)]
        sender, first, given = ring.batches[-1]
        ring.batches[-1] = (sender, first, [*given[:-1], services])
        missed = messages - 1 if kind == "6.3" else messages
        logs = [[ring.life(member), "open"] for member in (1, 2)]
        logs.append([ring.life(3, lambda number, _: number != missed), "open"])
        following = Ring(rng, 8, [1, 2, 3], 0)
        if kind == "4":
            for lines, _ in logs:
                lines += [ring.between(following), following.change()]
        if kind == "7.1":
            alone = Ring(rng, 8, [3], 0)
            logs[2][0] += [f"conf t{alone.name}/3 3", alone.change()]
        return [(member, lines, ending) for member, (lines, ending) in zip(ring.members, logs)]

    return family


def skips(rng, entries):
    """Three members that part before they deliver anything. 1 and 3 deliver all messages; 2 delivers what it sent itself, except the last
    message but one. So 3, 5 and 6.3 are broken, at the end of one long transitional configuration."""
    messages = max(4, entries * 2 // 7)
    ring = Ring(rng, 4, [1, 2, 3], messages)
    ring.batches = [(3 if number % 2 and number + 1 < messages else 2, number, ["a"]) for number in range(1, messages + 1)]
    logs = []
    for member, part in ((1, Ring(rng, 8, [1, 3], 0)), (2, Ring(rng, 12, [2], 0)), (3, Ring(rng, 8, [1, 3], 0))):
        name = f"t{part.name}/{part.members[0]}"
        came = ring.life(member, lambda number, sender: member != 2 or sender == 2 and number != messages - 1, sends=False)[1:]
        came = [line.replace(f"dlv r{ring.name} ", f"dlv {name} ") for line in came]
        logs.append((member, [*ring.life(member, lambda *_: False), part.between(part), *came, part.change()], "open"))
    return logs


FAMILIES = {
    "well3": ("3 logs, all well", all_well(3)),
    "well8": ("8 logs, all well", all_well(8)),
    "well32": ("32 logs, all well", all_well(32)),
    "quiet8": ("8 logs, all well and quiet", all_well(8, "quiet")),
    "rings100": ("8 logs, 100 messages on each ring", many_rings(100)),
    "rings1": ("8 logs, one message on each ring", many_rings(1)),
    "parts8": ("8 logs that part and join again", parts_and_joins(8)),
    "parts32": ("32 logs that part and join again", parts_and_joins(32)),
    "fails": ("3 logs, one failed early", one_stays_behind(3, 0, "failed")),
    "lags": ("8 logs, one lags from the start", one_stays_behind(8, 0, "open")),
    "half": ("3 logs, one lags from the middle", one_stays_behind(3, 0.5, "open")),
    "alone": ("2 logs that fail, each delivers its own", each_for_itself),
    "gap": ("6.3 broken at the end", broken_at_the_end("6.3")),
    "skips": ("3, 5 and 6.3 broken at the end of a long transitional configuration", skips),
    "atomicity": ("4 broken at the end", broken_at_the_end("4")),
    "safety": ("7.1 broken at the end", broken_at_the_end("7.1")),
}


# Starts the program from a small process of its own, because the memory of the process that starts a child counts for the child. Prints
# the status, the seconds and the peak in KiB.
STARTER = """
import os, sys, time
start = time.perf_counter()
child = os.fork()
if child == 0:
    os.dup2(os.open(os.devnull, os.O_WRONLY), 2)
    os.execvp("timeout", ["timeout", *sys.argv[1:]])
_, status, used = os.wait4(child, 0)
print(os.waitstatus_to_exitcode(status), time.perf_counter() - start, used.ru_maxrss, file=sys.stderr)
"""


def judged(words, run, limit):
    """The verdict, the wall time and the peak memory in MiB of one audit or check. There is no verdict if it takes longer than the limit,
    or if a certificate is refused."""
    with tempfile.TemporaryFile() as out:
        run.seek(0)
        started = [sys.executable, "-S", "-c", STARTER, str(limit), *words]
        told = subprocess.run(started, stdin=run, stdout=out, stderr=subprocess.PIPE, text=True, check=True).stderr.split()
        status, took, memory = int(told[0]), float(told[1]), int(told[2])
        if status in (2, 124):
            return None, took, memory / 1024
        if status not in (0, 1):
            sys.exit(f"audit.py: {' '.join(words)} ended with status {status}")
        out.seek(0)
        verdict, first = out.readline().decode().strip(), out.readline().decode().strip()
        fault = f" ({' '.join(first.split()[1:2])})" if verdict == "verdict no" else ""
        return verdict.removeprefix("verdict ") + fault, took, memory / 1024


def moved(certificate):
    """The certificate with the last number of its last log increased by one."""
    body, last, end = certificate.rpartition(b" ")
    number, _, rest = end.partition(b"\n")
    return body + last + str(int(number) + 1).encode() + b"\n" + rest


def checks_of(run, arguments):
    """Time and peak memory of the check of the run, with the certificate that its audit gives, and with that certificate changed."""
    run.seek(0)
    told = subprocess.run([str(arguments.program), "audit"], stdin=run, capture_output=True, check=True).stdout
    certificate = told[told.index(b"totem-cert") :]
    columns = []
    for text in (certificate, moved(certificate)):
        with tempfile.TemporaryFile() as both:
            run.seek(0)
            both.write(run.read() + text)
            tries = [judged([str(arguments.program), "check"], both, arguments.limit) for _ in range(arguments.tries)]
        took, memory = min(it[1] for it in tries), max(it[2] for it in tries)
        columns.append(f"{took:.3f} s, {memory:.0f} MiB")
    return columns


def lines_of(name, arguments):
    what, family = FAMILIES[name]
    before = None
    for size in arguments.sizes:
        with tempfile.TemporaryFile() as run:
            logs = family(random.Random(arguments.seed), size)
            entries = sum(len(body) for _, body, _ in logs)
            run.write(text_of(logs).encode())
            words = [str(arguments.program), "audit", "--workers", str(arguments.workers)]
            tries, explained = [], []
            for _ in range(arguments.tries):
                tries.append(judged(words, run, arguments.limit))
                explained.append(judged([words[0], "explain", *words[2:]], run, arguments.limit)[1])
                if tries[-1][0] is None or tries[-1][1] > 5:
                    break
            checks = checks_of(run, arguments) if tries[-1][0] == "yes" else ["", ""]
        verdict, took, _ = min(tries, key=lambda it: it[1])
        if verdict is None:
            yield f"| {what} | {entries:,} | - | above {arguments.limit} s | | | | | | |"
            return
        memory = max(it[2] for it in tries)
        growth = f"{took / before[1]:.1f} for {entries / before[0]:.1f}" if before else ""
        told = f"{took:.3f} s | {memory:.0f} MiB | {memory * 2**20 / entries:.0f} | {growth} | {min(explained):.3f} s, {min(explained) / took:.2f}"
        yield f"| {what} | {entries:,} | {verdict} | {told} | {' | '.join(checks)} |"
        before = entries, took


def numbers(text):
    return [int(it) for it in text.split(",")]


def main():
    parser = argparse.ArgumentParser(description=__doc__, formatter_class=argparse.RawDescriptionHelpFormatter)
    parser.add_argument("--program", type=Path, default=PROGRAM, help="the built program")
    parser.add_argument("--families", default=",".join(FAMILIES), help="which families, separated by commas: " + ", ".join(FAMILIES))
    parser.add_argument("--sizes", type=numbers, default=[20_000, 80_000, 320_000], help="about how many entries, separated by commas")
    parser.add_argument("--workers", type=int, default=1)
    parser.add_argument("--tries", type=int, default=3, help="the shortest time of this many tries counts")
    parser.add_argument("--limit", type=int, default=60, help="seconds after which an audit is given up")
    parser.add_argument("--seed", type=int, default=1)
    parser.add_argument("--write", metavar="FAMILY", help="write the run of the first size, and judge nothing")
    arguments = parser.parse_args()
    names = [arguments.write] if arguments.write else arguments.families.split(",")
    for name in names:
        if name not in FAMILIES:
            parser.error(f"there is no family {name}: {', '.join(FAMILIES)}")
    if arguments.write:
        sys.stdout.write(text_of(FAMILIES[arguments.write][1](random.Random(arguments.seed), arguments.sizes[0])))
        return
    if not os.access(arguments.program, os.X_OK):
        parser.error(f"{arguments.program} is not built: ./totem prove builds it")
    print("| Run | Entries | Verdict | Time | Peak memory | Bytes per entry | Growth of time, for that of entries | Explanation, times the audit | Check | Refusal |")
    print("|---|---|---|---|---|---|---|---|---|---|")
    for name in names:
        for line in lines_of(name, arguments):
            print(line, flush=True)


if __name__ == "__main__":
    main()
