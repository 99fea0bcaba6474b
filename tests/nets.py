#!/usr/bin/env python3
"""Compares the nets that `nets` names with the text that `compile` writes and with the pictures of `eval`.

usage: python3 tests/nets.py PROGRAM [NAME..]      NAME is an example, by default each of examples/programs

For each example and each set of options: the digest is the SHA-256 of the text, by Python's hashlib; each net is declared in the text with the width of its line; the kept images, their widths and delays and the
number of live reads are those of `plan`; the age of a read is that of the delays; and in a trace of the text the net of an image has the pixel of its
picture at the clock of its delay, and that of a read the pixel that is its age older. The pictures are those of `eval`, of programs in which the images
are outputs.
"""
import hashlib
import importlib.machinery
import importlib.util
import os
import re
import shutil
import sys
import tempfile

TOP = os.path.dirname(os.path.dirname(os.path.realpath(__file__)))
sys.path.insert(0, f"{TOP}/tools")
import plan
import waves as dumps
from kept import Dk, Nets, first_round, front_of, signs

LOADER = importlib.machinery.SourceFileLoader("look", f"{TOP}/tools/look")
look = importlib.util.module_from_spec(importlib.util.spec_from_loader("look", LOADER))
LOADER.exec_module(look)

OPTIONS = [], ["--age", "1"], ["--block", "32"], ["--enable", "--age", "1", "--block", "2"]
DECLARED = re.compile(r"(?:wire|reg|input|output)(?: \[(\d+):0\])? (\w+)(?=[;,)])")


def value_of(code, width, image):
    """The sample that tools/look shows for a value with these bits."""
    value = code - (1 << width) if image.signed and code >> (width - 1) else code
    return (value >> image.dropped) + ((1 << (image.bits - 1)) if image.signed else 0)


class Example:
    """An example, and the pictures of its kept images."""

    def __init__(self, dk, prog, images):
        self.dk = dk
        with open(prog, encoding="utf-8") as file:
            text = file.read()
        shutil.copy(prog, f"{dk.folder}/p.dk")
        self.names = plan.Program(text)
        with open(images, "rb") as file:
            dk.write("in.pgm", first_round(file.read(), len(self.names.inputs)))
        report = plan.Report(dk.need("plan", "p.dk"))
        front = front_of(text)
        self.shown = {image.name: image for image in signs(dk, front, report.images, self.names.inputs)}
        pictures = look.pictures(dk, front, list(self.shown.values()))
        self.pixels = {name: [sample for line in lines for sample in line] for name, lines in zip(self.shown, pictures)}

    def faults(self, options):
        """What is wrong with these options, in words."""
        dk = self.dk
        age = options[options.index("--age") + 1] if "--age" in options else "0"
        report = plan.Report(dk.need("plan", "--age", age, "p.dk"))
        nets = Nets(dk.need("nets", *options, "p.dk"))
        dk.need("compile", *options, "p.dk", "p.v")
        verilog = dk.read("p.v")
        if nets.digest != hashlib.sha256(verilog).hexdigest():
            yield "the digest is not that of the text"
        declared = {match[2]: int(match[1] or 0) + 1 for match in DECLARED.finditer(verilog.decode())}
        images = {name: (width, delay) for name, _, width, delay in nets.images}
        if [(name, width, delay) for name, _, width, delay in nets.images] != [image[:3] for image in report.images]:
            yield "the images are not those of plan"
        if len(nets.reads) != report.numbers["reads"][0]:
            yield "the number of reads is not that of plan"
        if [name for name, *_ in nets.outputs] != self.names.outputs:
            yield "the outputs are not those of the program"
        for name, net, width in [image[:3] for image in nets.images] + [(str(read), net, images[read.name][0]) for read, net in nets.reads]:
            if declared.get(net) != width:
                yield f"{name}: {net} has not {width} bits"
        for read, _ in nets.reads:
            if read.age != images[read.reader][1] - images[read.name][1] - (read.dy * report.width + read.dx):
                yield f"{read} by {read.reader}: its age is not {read.age}"
        yield from self.wrong_values(nets, report)

    def wrong_values(self, nets, report):
        clocks = report.width * report.height + max(delay for *_, delay in nets.images)
        self.dk.need("trace", "p.v", str(clocks), "in.pgm", "p.vcd")
        # the first row is the reset clock, and the last one only ends the trace
        rows = dumps.Dump(self.dk.read("p.vcd").decode()).rows
        images = {name: (width, delay) for name, _, width, delay in nets.images}
        shows = [(name, name, net, delay) for name, net, _, delay in nets.images]
        shows += [(f"{read} by {read.reader}", read.name, net, images[read.name][1] + read.age) for read, net in nets.reads]
        ports = [(f"{name}'s {dout}", name, dout, images[name][1]) for name, _, dout in nets.outputs]
        for what, name, net, delay in shows + ports:
            expected = self.pixels[name][:len(rows) - 2 - delay]
            seen = [row[net] for row in rows[delay + 1:delay + 1 + len(expected)]]
            shown = {code: value_of(code, images[name][0], self.shown[name]) for code in set(seen)}
            got = [shown[code] for code in seen]
            if got != expected:
                yield f"{what}: {net} does not show it"


def main():
    program, wanted = os.path.abspath(sys.argv[1]), sys.argv[2:]
    failed = 0
    with open(f"{TOP}/examples/programs/pictures.txt", encoding="utf-8") as file:
        rows = [line.split() for line in file if line.strip()]
    for name, image in [row for row in rows if not wanted or row[0] in wanted]:
        with tempfile.TemporaryDirectory(prefix="nets-") as folder:
            example = Example(Dk(program, folder), f"{TOP}/examples/programs/{name}.dk", f"{TOP}/examples/programs/{image}.pgm")
            for options in OPTIONS:
                for fault in example.faults(options):
                    print(f"nets: {name} {' '.join(options)}: {fault}", file=sys.stderr)
                    failed = 1
    sys.exit(failed)


if __name__ == "__main__":
    main()
