#!/usr/bin/env python3
"""Narrows random programs, those of cuts.py, and compares the pictures before and after by `eval` and `run`, and the bits with those of `plan`.

It counts the programs whose text changed, and those of them that have fewer bits. Ends with status 1 if a picture or a narrowed text changed, a call
failed, the printed bits are not those of the plans, or a text has more bits than its source.

usage: tests/narrow.py PROGRAM [COUNT [SEED]]
"""

import random
import sys
import tempfile

from cuts import Calls, program


class Narrower(Calls):
    """Calls of the program in a folder of its own, with the texts that `narrow` writes."""

    def bits(self, name):
        """The bits that `plan` prints, or None if it fails."""
        lines = self.call("plan", name).stdout.split("\n")
        found = [int(line.split()[1]) for line in lines if line.startswith("bits ")]
        return found[0] if found else None

    def narrowed(self, name, out):
        """The bits that `narrow` prints, after it and before it, or None if it fails."""
        said = self.call("narrow", name, out)
        words = said.stdout.split()
        if said.returncode or len(words) != 5 or [words[0], words[1], words[3]] != ["narrow:", "bits", "from"]:
            return None
        return int(words[2]), int(words[4])

    def shown(self, name):
        """The bytes that `run` writes, or None if it does not take the program."""
        if self.call("run", name, "in.pgm", "run.pgm").returncode:
            return None
        with open(f"{self.folder}/run.pgm", "rb") as file:
            return file.read()


def fault(calls, before, source):
    """What is wrong with the narrowed text of p.dk, which has these pictures and these bits; None if nothing is."""
    said = calls.narrowed("p.dk", "narrow.dk")
    if said is None:
        return "it is not narrowed"
    after = calls.bits("narrow.dk")
    if said != (after, source) or source < after:
        return f"its bits are {source} and then {after}, and the line has {said}"
    if calls.pictures("narrow.dk") != before or calls.shown("narrow.dk") != before:
        return "its pictures changed"
    if calls.narrowed("narrow.dk", "again.dk") != (after, after) or calls.text("again.dk") != calls.text("narrow.dk"):
        return "its narrowed text is narrowed further"
    return None


def main():
    count = int(sys.argv[2]) if len(sys.argv) > 2 else 1000
    seed = int(sys.argv[3]) if len(sys.argv) > 3 else 1
    tried = changed = fewer = wrong = 0
    with tempfile.TemporaryDirectory() as folder:
        calls = Narrower(sys.argv[1], folder)
        for number in range(seed, seed + count):
            draw = random.Random(number)
            width, height, text = program(draw)
            with open(f"{folder}/p.dk", "w") as file:
                file.write(text)
            with open(f"{folder}/in.pgm", "wb") as file:
                for _ in range(3):
                    file.write(b"P5\n%d %d\n255\n" % (width, height) + draw.randbytes(width * height))
            before, source = calls.pictures("p.dk"), calls.bits("p.dk")
            if before is None or source is None:
                continue
            tried += 1
            said = fault(calls, before, source)
            if said:
                print(f"wrong: program {number}: {said}")
                wrong += 1
                continue
            changed += calls.text("narrow.dk") != text
            fewer += calls.bits("narrow.dk") < source
    print(f"{tried} programs: {changed} have another text, {fewer} of them fewer bits, {wrong} are wrong")
    return 1 if wrong else 0


if __name__ == "__main__":
    sys.exit(main())
