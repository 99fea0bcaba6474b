#!/usr/bin/env python3
"""Whether a recipe of docs/CHANGING.md lists all that is to be changed: applies tests/recipes/NAME.edits to a copy of the checkout, builds the program
there without proofs (tools/dev/unproved.py), and compares what it writes with values worked out by hand. The operator is tried in each command that reads
a program.

usage: tests/recipes.py [NAME..]      NAME is operator, command, option or fault; each takes about four minutes, and needs the kit
"""
import os
import re
import shutil
import subprocess
import sys
import tempfile

TOP = os.path.dirname(os.path.dirname(os.path.abspath(__file__)))

# The distance of two inputs, then of neighbours, and of signed numbers.
DISTANCES = """size 4 2
input a : u8
input b : u8
let near = im(x,y) abs_diff(a(x,y), b(x,y)) end
let f = im(x,y) (abs_diff(near(x-1,y) edge clamp, near(x,y)) + abs_diff(a(x,y) - b(x,y), 0) as u9) as u8 end
output near
output f
"""
A, B = [10, 0, 255, 7, 100, 200, 3, 3], [20, 5, 0, 7, 90, 0, 250, 4]
# |a - b| of each pixel, and the distance of that to its left neighbour's (the first of a line is its own neighbour) plus itself, modulo 256
NEAR = [10, 5, 255, 0, 10, 200, 247, 1]
F = [10, 10, 249, 255, 10, 134, 38, 247]
ONE_OPERAND = DISTANCES.replace("abs_diff(a(x,y), b(x,y))", "abs_diff(a(x,y))")

# Three definitions, one of them inline.
THREE = """size 4 2
input a : u8
inline let h = im(x,y) a(x,y) end
let g = im(x,y) h(x-1,y) end
let f = im(x,y) g(x,y-1) end
output f
"""


def as_text(text):
    """A text with its ends of lines: `\\n` is one, and `\\\\n` a backslash and an `n`."""
    return re.sub(r"(\\?)\\n", lambda found: "\\n" if found[1] else "\n", text)


def edits(name):
    """The changes of a recipe: a file, an old text and a new one."""
    with open(f"{TOP}/tests/recipes/{name}.edits", encoding="utf-8") as file:
        words = [line.rstrip("\n").split(": ", 1) for line in file if not line.startswith("#")]
    for (first, path), (second, old), (third, new) in zip(words[::3], words[1::3], words[2::3]):
        if (first, second, third) != ("file", "old", "new"):
            sys.exit(f"recipes: {name}.edits: {path} is not followed by old and new")
        yield path, as_text(old), as_text(new)


def apply(name, copy):
    """Makes the changes. An empty old text makes a new file."""
    for path, old, new in edits(name):
        text = ""
        if old:
            with open(f"{copy}/{path}", encoding="utf-8") as file:
                text = file.read()
            if text.count(old) != 1:
                sys.exit(f"recipes: {path} has {text.count(old)} times: {old}")
        with open(f"{copy}/{path}", "w", encoding="utf-8") as file:
            file.write(text.replace(old, new) if old else new)


def images(*rasters):
    return b"".join(b"P5\n4 2\n255\n" + bytes(raster) for raster in rasters)


class Calls:
    """Calls of the program that was built, and what was wrong."""

    def __init__(self, program, folder):
        self.program, self.folder, self.wrong, self.said = program, folder, 0, ""

    def write(self, name, content):
        with open(f"{self.folder}/{name}", "wb") as file:
            file.write(content if isinstance(content, bytes) else content.encode())

    def call(self, *words, status=0):
        done = subprocess.run([self.program, *words], cwd=self.folder, capture_output=True, text=True, timeout=120, check=False)
        self.holds(f"{' '.join(words)}: status {done.returncode}, {done.stderr}", done.returncode == status)
        self.said = done.stderr
        return done.stdout

    def holds(self, what, good):
        if not good:
            print(f"recipes: {what}")
            self.wrong += 1

    def shows(self, *words):
        """The call of `run` or `eval` writes the expected pictures."""
        self.write("out.pgm", b"")
        self.call(*words, "in.pgm", "out.pgm")
        with open(f"{self.folder}/out.pgm", "rb") as file:
            self.holds(f"{' '.join(words)}: another picture", file.read() == images(NEAR, F))


def operator(calls):
    """Each command with a program that has the new operator."""
    for name, content in (("p.dk", DISTANCES), ("broken.dk", ONE_OPERAND), ("in.pgm", images(A, B))):
        calls.write(name, content)
    calls.shows("eval", "p.dk")
    for age in "0", "1":
        calls.shows("run", "--age", age, "p.dk")
    for words in (("cut", "1"), ("narrow",)):
        calls.call(*words, "p.dk", "other.dk")
        calls.shows("run", "other.dk")
    calls.holds("widen: no text", calls.call("widen", "2", "p.dk", "wide.dk").startswith("widen: definitions "))
    calls.holds("plan: no bits", "\nbits " in calls.call("plan", "p.dk"))
    calls.holds("nets: no image", "image near " in calls.call("nets", "p.dk"))
    calls.call("compile", "--age", "1", "--block", "2", "p.dk", "p.v")
    calls.holds("explain: a message for a program that is accepted", calls.call("explain", "p.dk") == "")
    said = calls.call("explain", "broken.dk", status=3)
    calls.holds(f"explain: no help: {said}", "`abs_diff` has two operands" in said)


def command(calls):
    """The new command, with a program, one that is refused, and wrong words."""
    calls.write("p.dk", THREE)
    calls.write("broken.dk", THREE.replace("a(x,y)", "b(x,y)"))
    line = calls.call("count", "p.dk")
    calls.holds(f"count: another line: {line}", line == "count: definitions 3\n")
    calls.call("count", "broken.dk", status=3)
    calls.call("count", status=2)
    calls.call("count", "p.dk", "p.dk", status=2)
    calls.call("explain", "p.dk")


def option(calls):
    """A report that holds with and without the new option, and one that does not."""
    calls.write("p.dk", THREE)
    report = calls.call("plan", "p.dk")
    calls.write("report", report)
    calls.write("wrong", report.replace("bits ", "bits 1"))
    calls.holds("check: no line", calls.call("check", "p.dk", "report").startswith("report holds: "))
    for words in ("--quiet", "p.dk", "report"), ("p.dk", "report", "--quiet"):
        calls.holds("check --quiet: a line", calls.call("check", *words) == "")
    calls.call("check", "--quiet", "p.dk", "wrong", status=10)
    calls.call("check", "--quiet", "--quiet", "p.dk", "report", status=2)
    calls.call("plan", "--quiet", "p.dk", status=2)


# One output of one bit, which the new fault refuses, and its span.
ONE_BIT = THREE.replace("input a : u8", "input a : u1")
SPAN = f"{ONE_BIT.rindex('f')}-{ONE_BIT.rindex('f') + 1}"


def fault(calls):
    """Programs with the new fault and without it."""
    calls.write("p.dk", THREE)
    calls.write("bit.dk", ONE_BIT)
    calls.call("compile", "p.dk", "p.v")
    calls.call("compile", "bit.dk", "bit.v", status=3)
    calls.holds(f"another line: {calls.said}", calls.said == f"program {SPAN}: OutputBit\n")
    said = calls.call("explain", "bit.dk", status=3)
    calls.holds(f"explain: no message: {said}", "bit.dk:6:8: error: OutputBit: an output has at least 2 bits" in said)
    calls.holds(f"explain: no help: {said}", "= help: write `select(p, 255, 0) as u8`" in said)


RECIPES = {"operator": operator, "command": command, "option": option, "fault": fault}


def tried(name):
    """Applies a recipe, and compares. The status."""
    with tempfile.TemporaryDirectory() as work:
        shutil.copytree(TOP, f"{work}/copy", ignore=shutil.ignore_patterns("out", ".git", "build"))
        apply(name, f"{work}/copy")
        done = subprocess.run([sys.executable, f"{work}/copy/tools/dev/unproved.py", f"{work}/dk"], capture_output=True, text=True, check=False)
        if done.returncode:
            sys.exit(f"recipes: the program of {name} is not built: {(done.stderr + done.stdout).strip()[-600:]}")
        os.mkdir(f"{work}/calls")
        calls = Calls(f"{work}/dk", f"{work}/calls")
        RECIPES[name](calls)
    return 1 if calls.wrong else 0


def main(words):
    if not set(words) <= set(RECIPES):
        sys.exit(__doc__)
    return max([tried(name) for name in words or RECIPES])


if __name__ == "__main__":
    sys.exit(main(sys.argv[1:]))
