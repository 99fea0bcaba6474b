#!/usr/bin/env python3
"""Prints what casts bring to the programs of examples/pipelines, and how much of it `narrow` finds.

usage: python3 tools/dev/narrowing.py [--write] [--jobs N] [--minutes M] [--keep FILE] PROGRAM [NAME..]
                                  NAME is a program of examples/pipelines; all by default

There are three texts of each program, at 1920 by 1080:
- with casts: the program as it is;
- without: each cast is left out, one after another, if the program is then still accepted and shows the same picture of its example input;
- narrowed: what `narrow` writes of the text without casts.

The buffer bits are those of `plan`. The cells are those of Yosys's synthesis for an ECP5 of the texts that `compile --age 1 --block 32` writes.
N syntheses run at a time; without `--jobs` two. A synthesis is ended after M minutes of processor time, without `--minutes` ten, and then has no
figures. `--write` puts the table in docs/GALLERY.md. With `--keep` results are kept in FILE, and a text that has a result there is not
synthesized again.
"""
import argparse
import concurrent.futures
import json
import os
import re
import resource
import signal
import subprocess
import sys
import tempfile

sys.dont_write_bytecode = True
import section

TOP = os.path.dirname(os.path.dirname(os.path.dirname(os.path.abspath(__file__))))
FOLDER = os.path.join(TOP, "examples", "pipelines")
SIZE = (1920, 1080)
OPTIONS = ["--age", "1", "--block", "32"]
SYNTHESIS = "synth_ecp5 -top dk"
# how many of each column a cell is: a carry cell takes the place of two look-up tables
COLUMNS = {"LUTs": {"LUT4": 1, "CCU2C": 2}, "LUT RAM": {"TRELLIS_DPR16X4": 1}, "flip-flops": {"TRELLIS_FF": 1}, "block memories": {"DP16KD": 1},
           "multipliers": {"MULT18X18D": 1}}
CAST = re.compile(r"\s+as\s+[us][0-9]+")


class Folder:
    """A folder with texts, and calls of the program in it."""

    def __init__(self, program, path):
        self.program, self.path = program, path

    def call(self, *words):
        return subprocess.run([self.program, *words], cwd=self.path, capture_output=True, text=True, check=False)

    def write(self, name, text):
        with open(f"{self.path}/{name}", "w", encoding="ascii") as file:
            file.write(text)

    def read(self, name, mode="r"):
        with open(f"{self.path}/{name}", mode) as file:
            return file.read()

    def shows(self, text, given, wanted):
        """Whether a text is accepted and shows this picture."""
        self.write("tried.dk", text)
        return self.call("eval", "tried.dk", given, "out.pgm").returncode == 0 and self.read("out.pgm", "rb") == wanted

    def without_casts(self, text, given, wanted):
        """The text without the casts that can be left out, and how many these are."""
        at = dropped = 0
        while cast := CAST.search(text, at):
            begin, end = cast.span()
            shorter = text[:begin] + text[end:]
            is_comment = "--" in text[text.rfind("\n", 0, begin) + 1:begin]
            if not is_comment and self.shows(shorter, given, wanted):
                text, at, dropped = shorter, begin, dropped + 1
            else:
                at = end
        return text, dropped

    def narrowed(self, text):
        self.write("wide.dk", text)
        said = self.call("narrow", "wide.dk", "narrow.dk")
        if said.returncode:
            sys.exit(f"narrowing: {said.stderr.strip()}")
        return self.read("narrow.dk")

    def bits(self, text):
        self.write("text.dk", text)
        return int(re.search(r"(?m)^bits (\d+)$", self.call("plan", "text.dk").stdout).group(1))

    def compiled(self, text):
        self.write("text.dk", text)
        self.call("compile", *OPTIONS, "text.dk", "dk.v")
        return self.read("dk.v")


def sized(text):
    return re.sub(r"(?m)^size .*$", f"size {SIZE[0]} {SIZE[1]}", text)


def texts_of(folder, name, picture):
    """The three texts of a program, and how many casts were left out."""
    with open(f"{FOLDER}/{name}.dk", encoding="ascii") as file:
        text = file.read()
    with open(f"{FOLDER}/{name}.pgm", "rb") as file:
        wanted = file.read()
    bare, dropped = folder.without_casts(text, f"{FOLDER}/{picture}.pgm", wanted)
    return [sized(text), sized(bare), folder.narrowed(sized(bare))], dropped


def cells(text, minutes):
    """The cells of a text of `compile` by column, or why there are none."""
    def limited():
        resource.setrlimit(resource.RLIMIT_CPU, (60 * minutes, 60 * minutes + 5))

    with tempfile.TemporaryDirectory() as work:
        with open(f"{work}/dk.v", "w", encoding="ascii") as file:
            file.write(text)
        script = f"read_verilog dk.v; {SYNTHESIS}; tee -q -o cells.json stat -json"
        said = subprocess.run(["yosys", "-q", "-p", script], preexec_fn=limited, cwd=work, stdout=subprocess.PIPE, stderr=subprocess.STDOUT, text=True, check=False)
        if said.returncode:
            print(f"narrowing: status {said.returncode}: {said.stdout[-300:]}", file=sys.stderr)
            return f"over {minutes} minutes" if said.returncode == -signal.SIGXCPU else "ended by Yosys"
        with open(f"{work}/cells.json", encoding="ascii") as file:
            found = json.load(file)["design"]["num_cells_by_type"]
    return [sum(each * found.get(kind, 0) for kind, each in kinds.items()) for kinds in COLUMNS.values()]


def rows(program, names, given):
    """The rows of the table."""
    with open(f"{FOLDER}/pictures.txt", encoding="ascii") as file:
        pictures = dict(line.split() for line in file)
    wanted = []
    with tempfile.TemporaryDirectory() as path:
        folder = Folder(program, path)
        for name in names or pictures:
            texts, dropped = texts_of(folder, name, pictures[name])
            titles = ["with casts", f"without {dropped} of them", "narrowed"]
            wanted += [(name, title, folder.bits(text), folder.compiled(text)) for title, text in zip(titles, texts)]
    kept = section.Kept(given.keep)

    def row(line):
        name, title, bits, text = line
        texts = [text, SYNTHESIS, section.version("yosys", "-V")]
        found = kept.result(texts, lambda: cells(text, given.minutes), lambda result: isinstance(result, str))
        print("narrowing:", name, title, bits, found, file=sys.stderr, flush=True)
        counts = [found] + ["–"] * (len(COLUMNS) - 1) if isinstance(found, str) else [f"{count:,}" for count in found]
        return "| " + " | ".join([name, title, f"{bits:,}", *counts]) + " |"

    with concurrent.futures.ThreadPoolExecutor(given.jobs) as pool:
        return list(pool.map(row, wanted))


def main():
    words = argparse.ArgumentParser(usage=__doc__.split("usage: ")[1].split("\n\n")[0])
    words.add_argument("--write", action="store_true")
    words.add_argument("--jobs", type=int, default=2)
    words.add_argument("--minutes", type=int, default=10)
    words.add_argument("--keep")
    words.add_argument("program")
    words.add_argument("names", nargs="*")
    given = words.parse_args()
    heads = ["Program", "Text", "buffer bits", *COLUMNS]
    lines = ["| " + " | ".join(heads) + " |", "|" + "---|" * len(heads), *rows(os.path.abspath(given.program), given.names, given)]
    if not given.write:
        print("\n".join(lines))
        return
    command = " ".join(["python3 tools/dev/narrowing.py --write", os.path.relpath(given.program, TOP), *given.names])
    section.write(section.GALLERY, "narrow", [
        f"Made on {section.today()} with Yosys {section.version('yosys', '-V')}, by", "", f"    {command}", "", *lines])


if __name__ == "__main__":
    main()
