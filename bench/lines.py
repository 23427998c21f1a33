#!/usr/bin/env python3
"""Counts the lines of code of crates: those of src/ that are neither blank nor comments, attributes or contracts.

    bench/lines.py                      # of the two checkers, crate by crate: the lines on which the yes of each rests
    bench/lines.py totem_names ..       # of these crates"""

import glob
import os
import re
import sys

REPOSITORY = os.path.dirname(os.path.dirname(os.path.abspath(__file__)))
TEXTS = ("totem_names", "totem_evs", "totem_certificate", "totem_outcome")
CHECKERS = (
    ("check", (*TEXTS, "totem_judge_run", "totem_judge_traffic", "totem_judge_certificate", "totem_judge", "totem_check")),
    ("check_plainly", (*TEXTS, "totem_search", "totem_plain")),
)
# What begins a contract or a ghost item. It ends where its braces do, or with its line if it has none.
CONTRACT = re.compile(r"(requires|ensures|returns|(pub )?ghost)\b")
NO_CODE = re.compile(r"$|//|#!?\[")


def lines_of(path):
    """The number of lines of code in a file."""
    count, depth = 0, 0
    with open(path, encoding="utf-8") as it:
        for line in it:
            text = line.strip()
            if depth or CONTRACT.match(text):
                depth += text.count("{") - text.count("}")
            elif not NO_CODE.match(text):
                count += 1
    return count


def count(crate):
    """The number of lines of code in a crate."""
    return sum(lines_of(it) for it in glob.glob("%s/crates/%s/src/**/*.rt" % (REPOSITORY, crate), recursive=True))


def main():
    """Prints a line for each crate, and the sums."""
    for name, crates in [("", sys.argv[1:])] if sys.argv[1:] else CHECKERS:
        print(name or "lines of code")
        for crate in crates:
            print("%8d  %s" % (count(crate), crate))
        print("%8d  all" % sum(map(count, crates)))


if __name__ == "__main__":
    main()
