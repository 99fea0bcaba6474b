#!/usr/bin/env python3
"""Cuts random programs, and compares the pictures before and after by `eval`.

Of the programs that have a body above N levels it counts those that come back as they were, and those whose text has more than the greater of N and 2
levels, the two of one operator. Ends with status 1 if a picture changed, a call failed, or more than 5 of 1,000 came back as they were.

usage: tests/cuts.py PROGRAM [COUNT [SEED]]
"""

import os
import random
import subprocess
import sys
import tempfile

FORMS = ("{} + {}", "{} + {}", "{} + {}", "{} - {}", "({} as u8) * ({} as u4)", "min({} as s9, {} as s9)", "select({} < {}, {}, {})")
SINGLE = ("abs({} as s12)", "{} / 3", "({} as u9)")


def read(draw, images):
    """A read of one of the images, at the point itself or moved, and clamped or not."""
    moves = [draw.choice((0, 0, -1, 1, 2, -2, 3)) for _ in "xy"] if draw.random() < 0.6 else (0, 0)
    at = ",".join(letter if move == 0 else f"{letter}{move:+d}" for letter, move in zip("xy", moves))
    return f"{draw.choice(images)}({at})" + (" edge clamp" if draw.random() < 0.4 else "")


def expression(draw, images, depth):
    if depth == 0 or draw.random() < 0.15:
        return str(draw.choice((0, 1, 2, 3, 5, 8))) if draw.random() < 0.1 else read(draw, images)
    form = draw.choice(FORMS) if draw.random() < 0.8 else draw.choice(SINGLE)
    operands = [f"({expression(draw, images, depth - 1)})" for _ in range(form.count("{}"))]
    return form.format(*operands)


def program(draw):
    """A program of one output, and its frame's sides."""
    width, height = draw.randint(1, 6), draw.randint(1, 4)
    images, lines = ["a"], [f"size {width} {height}", "input a : u8"]
    for number in range(draw.randint(1, 6)):
        if draw.random() < 0.15:
            lines.append(f"inline let k{number} = im(x,y) {draw.choice((0, 1, 2, 3, 4, 7))} end")
            images.append(f"k{number}")
            continue
        inline = "inline " if draw.random() < 0.6 else ""
        declared = f" : s{draw.randint(20, 40)}" if draw.random() < 0.5 else ""
        lines.append(f"{inline}let f{number}{declared} = im(x,y) {expression(draw, images, draw.randint(1, 4))} end")
        images.append(f"f{number}")
    lines.append(f"let o = im(x,y) (({read(draw, images)} as s40) + ({read(draw, images)} as s40) + 1) as u8 end")
    return width, height, "\n".join([*lines, "output o", ""])


class Calls:
    """Calls of the program in a folder of its own."""

    def __init__(self, path, folder):
        self.path, self.folder = os.path.abspath(path), folder

    def call(self, *words):
        return subprocess.run([self.path, *words], cwd=self.folder, capture_output=True, text=True)

    def pictures(self, name):
        """The bytes that `eval` writes, or None if it does not take the program."""
        if self.call("eval", name, "in.pgm", "out.pgm").returncode:
            return None
        with open(f"{self.folder}/out.pgm", "rb") as file:
            return file.read()

    def levels(self, levels, name, out):
        """The levels that `cut` prints, or None if it fails."""
        said = self.call("cut", str(levels), name, out)
        return None if said.returncode else int(said.stdout.split()[4])

    def text(self, name):
        with open(f"{self.folder}/{name}") as file:
            return file.read()


def main():
    count = int(sys.argv[2]) if len(sys.argv) > 2 else 1000
    seed = int(sys.argv[3]) if len(sys.argv) > 3 else 1
    above = same = over = wrong = 0
    with tempfile.TemporaryDirectory() as folder:
        calls = Calls(sys.argv[1], folder)
        for number in range(seed, seed + count):
            draw = random.Random(number)
            width, height, text = program(draw)
            with open(f"{folder}/p.dk", "w") as file:
                file.write(text)
            with open(f"{folder}/in.pgm", "wb") as file:
                for _ in range(3):
                    file.write(b"P5\n%d %d\n255\n" % (width, height) + draw.randbytes(width * height))
            limit, before = draw.choice((1, 1, 2, 3)), calls.pictures("p.dk")
            source = calls.levels(64, "p.dk", "whole.dk")
            if before is None or source is None or source <= limit:
                continue
            above += 1
            reached = calls.levels(limit, "p.dk", "cut.dk")
            if reached is None or calls.pictures("cut.dk") != before:
                print(f"wrong: program {number}, cut at {limit}")
                wrong += 1
                continue
            same += calls.text("cut.dk") == text
            over += max(limit, 2) < reached
    print(f"{above} programs have a body above N: {same} came back as they were, {over} have more levels than N and 2, {wrong} are wrong")
    return 1 if wrong or 1000 * same > 5 * above else 0


if __name__ == "__main__":
    sys.exit(main())
