#!/usr/bin/env python3
"""Unpacks texts of `compile --block 32` by tools/dev/unpack.py, and compares the arrays with those of the text without packing.

usage: tests/unpack.py PROGRAM

The texts are those of isp, harris and corners, narrowed and cut at 1, at age 1. They have words of one image of which nets take bits, and such a word
stays whole. At 1920 by 1080 the long arrays have the widths of those of `compile` without `--block`, and all arrays the bits of `plan`.
At the size of the example the text without packing shows the picture of the example under `sim`.
Prints each text that is not as it should be, and then ends with status 1.
"""
import os
import re
import subprocess
import sys
import tempfile

TOP = os.path.dirname(os.path.dirname(os.path.realpath(__file__)))
sys.dont_write_bytecode = True
sys.path.insert(0, f"{TOP}/tools/dev")
import unpack  # noqa: E402

EXAMPLES = [("pipelines", "isp"), ("programs", "harris"), ("pipelines", "corners")]
ARRAY = re.compile(r"(?m)^  reg (?:\[(\d+):0\] )?m\w+ \[0:(\d+)\];$")
LONG = 31


def need(*words, work):
    """What a command writes, which must succeed."""
    done = subprocess.run(words, cwd=work, capture_output=True, text=True, check=False)
    if done.returncode:
        raise SystemExit(f"unpack: {' '.join(words)}: status {done.returncode}, {done.stderr.strip()}")
    return done.stdout


def read(path):
    with open(path, "rb") as file:
        return file.read()


def arrays_of(text):
    """The width and the number of words of each array."""
    return [(int(high or 0) + 1, int(last) + 1) for high, last in ARRAY.findall(text)]


def long_widths(text):
    return sorted(width for width, words in arrays_of(text) if words >= LONG)


def unpacked(program, work):
    """The text of p.dk without its packing, which is written to u.v."""
    need(program, "compile", "--age", "1", "--block", "32", "p.dk", "b.v", work=work)
    text = unpack.unpacked(read(f"{work}/b.v").decode())
    with open(f"{work}/u.v", "w", encoding="ascii") as file:
        file.write(text)
    return text


def wrong_arrays(program, work):
    """What is wrong with the arrays of p.dk, in words."""
    text = unpacked(program, work)
    need(program, "compile", "--age", "1", "p.dk", "a.v", work=work)
    if long_widths(text) != long_widths(read(f"{work}/a.v").decode()):
        yield "the long arrays are not those without packing"
    if len(long_widths(text)) <= len(long_widths(read(f"{work}/b.v").decode())):
        yield "no array was unpacked"
    bits = int(re.search(r"(?m)^bits (\d+)$", need(program, "plan", "--age", "1", "p.dk", work=work))[1])
    if sum(width * words for width, words in arrays_of(text)) != bits:
        yield "the array bits are not those of plan"


def wrong_picture(program, work, folder, name):
    """What is wrong with the picture of p.dk, in words."""
    with open(f"{TOP}/examples/{folder}/pictures.txt", encoding="ascii") as file:
        source = dict(line.split() for line in file)[name]
    unpacked(program, work)
    clocks = re.search(r"(?m)^clocks (\d+)$", need(program, "plan", "--age", "1", "p.dk", work=work))[1]
    need(program, "sim", "u.v", clocks, f"{TOP}/examples/{folder}/{source}.pgm", "out.pgm", work=work)
    if read(f"{work}/out.pgm") != read(f"{TOP}/examples/{folder}/{name}.pgm"):
        yield "the text without packing shows another picture"


def main(program):
    status = 0
    with tempfile.TemporaryDirectory() as work:
        for folder, name in EXAMPLES:
            source = read(f"{TOP}/examples/{folder}/{name}.dk").decode()
            for is_large in False, True:
                with open(f"{work}/s.dk", "w", encoding="utf-8") as file:
                    file.write(re.sub(r"(?m)^size \d+ \d+", "size 1920 1080", source) if is_large else source)
                need(program, "narrow", "s.dk", "n.dk", work=work)
                need(program, "cut", "1", "n.dk", "p.dk", work=work)
                for fault in wrong_arrays(program, work) if is_large else wrong_picture(program, work, folder, name):
                    print(f"unpack: {name}{' at 1920 by 1080' if is_large else ''}: {fault}")
                    status = 1
    return status


if __name__ == "__main__":
    if len(sys.argv) != 2:
        sys.exit(__doc__)
    sys.exit(main(os.path.abspath(sys.argv[1])))
