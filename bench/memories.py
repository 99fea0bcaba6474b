#!/usr/bin/env python3
"""`sim` of a text of `compile --block` beside the text without it, with one picture and in one run of this script.

usage: python3 bench/memories.py DK

It takes gaussian3 and harris of the examples at 320 by 240 and at 640 by 480 pixels, without and with `--enable`, and prints the least
processor time of seven runs of each text, in turn. It stops where two pictures differ.
"""
import os
import re
import sys
import tempfile

sys.dont_write_bytecode = True
import machine  # noqa: E402

HERE = os.path.dirname(os.path.abspath(__file__))
RUNS = 7


def measured(dk, example, width, height, options):
    """The least times of the text without `--block` and of that with it."""
    text = open(f"{HERE}/../examples/programs/{example}.dk", encoding="utf-8").read()
    open("p.dk", "w", encoding="utf-8").write(re.sub(r"^size .*", f"size {width} {height}", text, flags=re.M))
    open("p.pgm", "wb").write(b"P5\n%d %d\n255\n" % (width, height) + os.urandom(width * height))
    clocks = re.search(r"^clocks (\d+)$", machine.quiet(dk, "plan", "p.dk"), re.M)[1]
    texts = [[], ["--block", "32"]]
    for k, block in enumerate(texts):
        machine.quiet(dk, "compile", *options, *block, "p.dk", f"{k}.v")
    times = [[], []]
    for _ in range(RUNS):
        for k in range(2):
            times[k].append(sum(machine.timed(dk, "sim", f"{k}.v", clocks, "p.pgm", f"{k}.pgm")[:2]))
        if open("0.pgm", "rb").read() != open("1.pgm", "rb").read():
            machine.stop("the pictures differ")
    return min(times[0]), min(times[1])


def main():
    if len(sys.argv) != 2:
        sys.exit(__doc__)
    dk = os.path.abspath(sys.argv[1])
    with tempfile.TemporaryDirectory() as room:
        os.chdir(room)
        for example in ("gaussian3", "harris"):
            for width, height in ((320, 240), (640, 480)):
                for options in ([], ["--enable"]):
                    plain, block = measured(dk, example, width, height, options)
                    print(f"{example} {width} by {height} {' '.join(options)}: {plain:.3f} s, with --block 32 {block:.3f} s, {block / plain:.2f} times", flush=True)


main()
