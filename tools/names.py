#!/usr/bin/env python3
"""Prints the Verilog text of a program with comments that name the images.

usage: tools/names.py [--dk DK] [--enable] [--age K] [--block N] PROG

    python3 tools/names.py --age 1 examples/programs/gaussian3.dk >gaussian3.v

The text is the one that `compile` writes with these options, and the names are those of `nets`. After the assign of an image's net there is the image's
name, and after that of a read's net what is read, how many clocks ago it came, and by which images. A comment changes nothing: `sim` and other tools read
the text as it was. DK is the program dk, by default ./dk of this checkout, or dk of the search path.
"""
import os
import re
import shutil
import sys
import tempfile

HERE = os.path.dirname(os.path.realpath(__file__))
sys.path.insert(0, HERE)
from kept import Dk, Nets, words_of

ASSIGN = re.compile(r"  assign (\w+) = ")
COLUMN = 40


def read_words(reads):
    """What a net has of one image: how old it is, and where each reader reads it."""
    by_image = {}
    for read in reads:
        if read.age:
            by_image.setdefault(f"{read.name} {read.clocks()} ago", []).append(f"{read} by {read.reader}")
    for what, places in by_image.items():
        yield f"{what}: {', '.join(places)}"


def comments(nets):
    """For each net the words that name it."""
    words = {}
    for name, net, *_ in nets.images:
        words.setdefault(net, []).append(name)
    reads = {}
    for read, net in nets.reads:
        reads.setdefault(net, []).append(read)
    for net, several in reads.items():
        words.setdefault(net, []).extend(read_words(several))
    return {net: "; ".join(found) for net, found in words.items() if found}


def annotated(text, nets):
    """The lines of a Verilog text with these comments. A port has no assign: its comment is after the first line."""
    words = comments(nets)
    lines = text.splitlines()
    assigned = {match[1] for match in map(ASSIGN.match, lines) if match}
    yield lines[0]
    for net, found in words.items():
        if net not in assigned:
            yield f"  // {net}: {found}"
    for line in lines[1:]:
        match = ASSIGN.match(line)
        found = words.get(match[1]) if match else None
        yield f"{line:<{COLUMN}}// {found}" if found else line


def main():
    program, options, words = words_of(sys.argv[1:])
    if len(words) != 1:
        sys.exit(__doc__.split("\n\n")[1])
    with tempfile.TemporaryDirectory(prefix="names-") as folder:
        dk = Dk(program, folder)
        shutil.copy(words[0], f"{folder}/p.dk")
        nets = Nets(dk.need("nets", *options, "p.dk"))
        dk.need("compile", *options, "p.dk", "p.v")
        verilog = dk.read("p.v")
        nets.need_text(verilog)
    sys.stdout.writelines(f"{line}\n" for line in annotated(verilog.decode(), nets))


if __name__ == "__main__":
    main()
