#!/usr/bin/env python3
"""`eval` beside a fused loop in C of the same program, with one picture and in one run of this script; it prints a table.

usage: python3 bench/fused.py DK [--size WIDTH HEIGHT] [--runs N]

The loops are in bench/fused. They are compiled by gcc and by clang, each with -O3 -march=native, and `eval` is compared with the faster one.
The script reads back from the programs which flags they got, and stops where they are not -O3. The frames have 4,096 by 4,096 pixels, and
all samples but the masks of isp are random. Times are user and system time with reading and writing the files, of the run of the least sum
among some runs in turn. A ratio is the median of those of the runs in turn. Memory is the greatest resident one. It stops where two
pictures differ.
"""
import argparse
import filecmp
import os
import re
import shutil
import sys
import tempfile

sys.dont_write_bytecode = True
import machine  # noqa: E402

HERE = os.path.dirname(os.path.abspath(__file__))
PROGRAMS = ["programs/gaussian3", "programs/harris", "pipelines/canny", "pipelines/isp"]


def write_image(file, width, height, most, line):
    """An image whose line y has these bytes."""
    file.write(b"P5\n%d %d\n%d\n" % (width, height, most))
    for y in range(height):
        file.write(line(y))


def samples_of_ten_bits(width):
    """A random line, the high byte of each sample first."""
    found = bytearray(os.urandom(2 * width))
    found[0::2] = bytes(byte & 3 for byte in found[0::2])
    return bytes(found)


def make_input(name, width, height):
    """A random picture; for isp raw samples, and the masks of the odd columns and of the odd lines."""
    with open("in.pgm", "wb") as file:
        if name != "isp":
            write_image(file, width, height, 255, lambda y: os.urandom(width))
            return
        write_image(file, width, height, 1023, lambda y: samples_of_ten_bits(width))
        write_image(file, width, height, 1, lambda y: bytes(x & 1 for x in range(width)))
        write_image(file, width, height, 1, lambda y: bytes([y & 1]) * width)


def build(name, width, height):
    """Compiles the loop by each compiler. Returns the programs, and the flags that the compilers have recorded."""
    programs, flags = [], set()
    for compiler in machine.compilers():
        programs.append(f"./{name}_{compiler}")
        machine.quiet(machine.COMPILERS[compiler][0], *machine.FLAGS, f"-DW={width}", f"-DH={height}", f"{HERE}/fused/{name}.c", "-o", programs[-1])
        flags.add(f"{compiler} {machine.check_flags(programs[-1])}")
    return programs, flags


def total(used):
    return used.user + used.system


def measured(dk, path, programs, given):
    """What `eval` and each program used, run by run."""
    name = os.path.basename(path)
    with open(f"{HERE}/../examples/{path}.dk", encoding="utf-8") as file:
        text = re.sub(r"^size .*", f"size {given.size[0]} {given.size[1]}", file.read(), flags=re.M)
    with open(f"{name}.dk", "w", encoding="utf-8") as file:
        file.write(text)
    make_input(name, *given.size)
    commands = [(dk, "eval", f"{name}.dk", "in.pgm", "0.pgm")] + [(program, "in.pgm", f"{k}.pgm") for k, program in enumerate(programs, 1)]
    rounds = []
    for _ in range(given.runs):
        rounds.append([machine.timed(*words) for words in commands])
        for k, program in enumerate(programs, 1):
            if not filecmp.cmp("0.pgm", f"{k}.pgm", shallow=False):
                machine.stop(f"{name}: the picture of {program} is another one")
    return list(zip(*rounds))


def row(name, own, loops):
    """A row of the table: the loop of the least time counts."""
    program, loop = min(loops.items(), key=lambda it: min(map(total, it[1])))
    cells = [f"{best.user:.3f} + {best.system:.3f} s | {max(it.memory for it in runs) / 1e6:.0f} MB" for runs in (own, loop) for best in [min(runs, key=total)]]
    return f"| {name} | {' | '.join(cells)} | {program.split('_')[-1]} | {machine.ratio(map(total, own), map(total, loop)):.1f} times |"


def main():
    words = argparse.ArgumentParser(description=__doc__, formatter_class=argparse.RawDescriptionHelpFormatter)
    words.add_argument("dk")
    words.add_argument("--size", nargs=2, type=int, default=(4096, 4096))
    words.add_argument("--runs", type=int, default=5)
    given = words.parse_args()
    for tool in (given.dk, "readelf"):
        shutil.which(tool) or machine.stop(f"{tool} is not a program that is installed")
    dk = os.path.abspath(given.dk)
    with tempfile.TemporaryDirectory() as room:
        os.chdir(room)
        built = {path: build(os.path.basename(path), *given.size) for path in PROGRAMS}
        print(machine.described())
        print(f"loops by {', '.join(sorted(set().union(*(flags for _, flags in built.values()))))}\n")
        print("| Program | `eval`, user + system | memory | loop, user + system | memory | by | `eval` beside it |")
        print("|---|---|---|---|---|---|---|")
        for path, (programs, _) in built.items():
            own, *loops = measured(dk, path, programs, given)
            print(row(os.path.basename(path), own, dict(zip(programs, loops))), flush=True)


main()
