#!/usr/bin/env python3
"""Lists the sums and products of `usize` in the engine, function by function, and holds them against the table of sums.md.

    sums.py [--into FOLDER] [--list]

On a target of 32 bits these are what no proof bounds: in Rattle a `usize` has 64 bits. They are read from what rustc makes of the
plain edition, with overflow checks. Ends with 1 where a function has more of them than the table tells, or the table tells of a
function that isn't there; `--list` prints the functions instead. Python 3.9, standard library alone.
"""

import argparse
import pathlib
import re
import subprocess
import sys
from collections import Counter

FUNCTION = re.compile(r"^(?:const )?fn (.+?)\(_?\d?.*\{$")
LOCAL = re.compile(r"^ +let (?:mut )?(_\d+): \(usize, bool\);")
SUM = re.compile(r"^ +(_\d+) = (?:Add|Mul)WithOverflow\(")
ROW = re.compile(r"^\| `([\w:]+)` \| (\d+) \|")


def name_of(path):
    """The function's own name: rustc leaves out of a path what isn't needed to tell one function from another."""
    return re.sub(r"::\{closure#\d+\}", "", path).rpartition("::")[2]


def made(folder):
    """What rustc makes of the engine."""
    words = ["cargo", "rustc", "--quiet", "-p", "liverymenhir", "--lib", "--target-dir", "target/sums", "--", "--emit=mir"]
    subprocess.run(words, cwd=folder, check=True)
    files = sorted(folder.glob("target/sums/debug/deps/liverymenhir-*.mir"), key=lambda path: path.stat().st_mtime)
    return files[-1].read_text(encoding="utf-8")


def sums_in(text):
    """How many sums and products each function has."""
    counts, name, pairs = Counter(), None, set()
    for line in text.splitlines():
        if match := FUNCTION.match(line):
            name, pairs = name_of(match[1]), set()
            counts[name] += 0
        elif match := LOCAL.match(line):
            pairs.add(match[1])
        elif (match := SUM.match(line)) and match[1] in pairs:
            counts[name] += 1
    return counts


def told_in(text):
    """How many the table tells of, by the rows' functions."""
    told = Counter()
    for row in filter(None, map(ROW.match, text.splitlines())):
        told[name_of(row[1])] += int(row[2])
    return told


def main():
    here = pathlib.Path(__file__).resolve().parent
    words = argparse.ArgumentParser(description="Sums and products of usize in the engine.")
    words.add_argument("--into", type=pathlib.Path, default=here / "out")
    words.add_argument("--list", action="store_true")
    asked = words.parse_args()
    found = sums_in(made(asked.into))
    some = [name for name in sorted(found) if found[name] > 0]
    if asked.list:
        for name in some:
            print(f"{name} {found[name]}")
        return 0
    told = told_in((here / "sums.md").read_text(encoding="utf-8"))
    odd = [f"{name} has {found[name]} sums and products of usize, and sums.md tells of {told[name]}" for name in some if found[name] > told[name]]
    odd += [f"{name} isn't there, and sums.md tells of it" for name in sorted(told) if name not in found]
    for line in odd:
        print(line, file=sys.stderr)
    print(f"{sum(found.values())} sums and products of usize in {len(some)} functions")
    return 1 if odd else 0


if __name__ == "__main__":
    sys.exit(main())
