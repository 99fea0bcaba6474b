#!/usr/bin/env python3
"""Looks whether `compile --block N` packs: of all examples no two arrays are left that could be joined, and the array bits are those of the plan.

usage: tests/packed.py PROGRAM

Each example is tried as it is and cut at 1, at ages 0 and 1, without and with `en`, with N of 2 and 32, at its size and at 640 by 480. Two arrays could be
joined if both have at least N words, the same number of them, the same index of their one read and of their one put, and widths that sum to 64 at most.
Prints each text that is not as it should be, and ends with status 1 if there is one, or if no text has an array of more than one image's bits.
"""
import glob
import os
import re
import subprocess
import sys
import tempfile

TOP = os.path.dirname(os.path.dirname(os.path.abspath(__file__)))
ARRAY = re.compile(r"^  reg \[(\d+):0\] (m\d+) \[0:(\d+)\];$|^  reg (m\d+) \[0:(\d+)\];$", re.M)
READ = re.compile(r"^  assign \w+ = (m\d+)\[(.*)\];$", re.M)
PUT = re.compile(r"^    (m\d+)\[(.*)\] <= ", re.M)


def arrays_of(text):
    """Of each array its width, its number of words, and the indices of its reads and puts."""
    found = {}
    for high, wide, last, bit, end in ARRAY.findall(text):
        found[wide or bit] = (int(high) + 1 if wide else 1, int(last or end) + 1, [], [])
    for name, index in READ.findall(text):
        found[name][2].append(index)
    for name, index in PUT.findall(text):
        found[name][3].append(index)
    return found


def loose(text, least):
    """The first two arrays that could be joined."""
    groups = {}
    for name, (width, words, reads, puts) in arrays_of(text).items():
        if words >= least and len(reads) == 1 and len(puts) == 1:
            groups.setdefault((words, reads[0], puts[0]), []).append((width, name))
    for group in groups.values():
        group.sort()
        if len(group) > 1 and group[0][0] + group[1][0] <= 64:
            return group[0][1], group[1][1]
    return None


def run(program, *words, work):
    done = subprocess.run([program, *words], cwd=work, capture_output=True, text=True, check=False)
    if done.returncode:
        raise SystemExit(f"packed: {' '.join(words)}: status {done.returncode}, {done.stderr.strip()}")
    return done.stdout


def main(program):
    wrong = texts = joined = 0
    with tempfile.TemporaryDirectory() as work:
        for path in sorted(glob.glob(os.path.join(TOP, "examples", "programs", "*.dk"))):
            with open(path, encoding="utf-8") as file:
                source = file.read()
            for size in (None, "size 640 480"):
                with open(f"{work}/whole.dk", "w", encoding="utf-8") as file:
                    file.write(re.sub(r"(?m)^size \d+ \d+", size, source) if size else source)
                run(program, "cut", "1", "whole.dk", "cut.dk", work=work)
                for name in ("whole.dk", "cut.dk"):
                    for age in "01":
                        plan = run(program, "plan", "--age", age, name, work=work)
                        bits = int(re.search(r"(?m)^bits (\d+)$", plan).group(1))
                        for options in (["--block", "2"], ["--block", "32"], ["--enable", "--block", "32"]):
                            run(program, "compile", "--age", age, *options, name, "text.v", work=work)
                            with open(f"{work}/text.v", encoding="ascii") as file:
                                text = file.read()
                            said = f"{os.path.basename(path)} {size or ''} {name} --age {age} {' '.join(options)}"
                            pair = loose(text, int(options[-1]))
                            if pair:
                                print(f"packed: {said}: {pair[0]} and {pair[1]} could be joined")
                                wrong += 1
                            if sum(width * words for width, words, _, _ in arrays_of(text).values()) != bits:
                                print(f"packed: {said}: the array bits are not those of the plan")
                                wrong += 1
                            joined += re.search(r"(?m)^  assign n\d+ = \{n\d+, n\d+\};$", text) is not None
                            texts += 1
    if not joined:
        print("packed: no text has a joined word")
        wrong += 1
    return 1 if wrong or not texts else 0


if __name__ == "__main__":
    if len(sys.argv) != 2:
        sys.exit(__doc__)
    sys.exit(main(os.path.abspath(sys.argv[1])))
