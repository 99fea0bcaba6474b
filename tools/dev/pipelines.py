#!/usr/bin/env python3
"""Prints what the programs of examples/pipelines cost, and what three other ways to size their buffers would cost.

usage: python3 tools/dev/pipelines.py [--write] PROGRAM [NAME..]      NAME is a program of examples/pipelines; all by default

Each program is measured as written, after `narrow`, and after `narrow` and `cut 1`. Definitions, latency and bits are those of `plan`; after `cut 1` they
are those of `plan --age 1`, as the text is compiled for speed. The other ways have the live reads and the widths of the same program:
- earliest: each stage begins as soon as all pixels of its stencil are there, and an image has one buffer for all its readers;
- earliest, each edge: the same schedule, and each reader has a buffer of its own for each image that it reads;
- least, each edge: the schedule of `plan`, and each reader has buffers of its own.
In each of them a buffer has the width of its image and the greatest age of its reads, as in docs/REPORT.md.

`--write` puts the table of each program at 1920 by 1080 in docs/PIPELINES.md, in the section `costs NAME`. Without it the tables have 640 by 480 too.
"""
import glob
import os
import re
import subprocess
import sys
import tempfile

TOP = os.path.join(os.path.dirname(os.path.abspath(__file__)), "..", "..")
sys.dont_write_bytecode = True
sys.path.append(os.path.join(TOP, "tools"))
import plan as plans  # noqa: E402
import section  # noqa: E402

FOLDER = os.path.join(TOP, "examples", "pipelines")
SMALL, LARGE = (640, 480), (1920, 1080)
WAYS = ["Definitions", "Levels", "Latency", "Least bits", "Earliest, each edge", "Earliest, shared", "Least delays, each edge"]


def run(program, *words):
    return subprocess.run([program, *words], check=True, capture_output=True, text=True).stdout


class Costs:
    """The buffers of a program at an age, by its report and its live reads."""

    def __init__(self, program, path, age):
        self.age = age
        self.report = plans.Report(run(program, "plan", "--age", str(age), path))
        with open(path, encoding="utf-8") as file:
            text = file.read()
        self.definitions = len(re.findall(r"\blet\b", re.sub(r"--[^\n]*", "", text)))
        self.reads = plans.live_reads(self.report, plans.Program(text))
        self.widths = {name: width for name, width, _, _ in self.report.images}
        self.delays = {name: delay for name, _, delay, _ in self.report.images}

    def earliest(self):
        """The least delay of each image: images are in the order of the text, and read earlier ones."""
        readers = {}
        for reader, source, dx, dy in self.reads:
            readers.setdefault(reader, []).append((source, dy * self.report.width + dx))
        delays = {}
        for name, *_ in self.report.images:
            delays[name] = max([0] + [delays[source] + offset + self.age for source, offset in readers.get(name, [])])
        return delays

    def edges(self, delays):
        """The greatest age of each reader's reads of an image."""
        depths = {}
        for reader, source, dx, dy in self.reads:
            edge = reader, source
            depths[edge] = max(depths.get(edge, 0), delays[reader] - delays[source] - (dy * self.report.width + dx))
        return depths

    def edge_bits(self, delays):
        return sum(self.widths[source] * depth for (_, source), depth in self.edges(delays).items())

    def shared_bits(self, delays):
        depths = {}
        for (_, source), depth in self.edges(delays).items():
            depths[source] = max(depths.get(source, 0), depth)
        return sum(self.widths[source] * depth for source, depth in depths.items())

    def row(self, name, levels):
        if self.shared_bits(self.delays) != self.report.bits:
            sys.exit(f"pipelines: the reads of {name} do not have the bits of the plan")
        early = self.earliest()
        counts = [self.edge_bits(early), self.shared_bits(early), self.edge_bits(self.delays)]
        shares = [f"{count:,} ({count / self.report.bits:.2f})" for count in counts]
        return [self.definitions, levels, f"{max(self.report.latencies):,}", f"{self.report.bits:,}", *shares]


def rows(program, name, size):
    """What is done with a program, and its costs."""
    with tempfile.TemporaryDirectory() as work:
        whole, narrow, cut = (os.path.join(work, text) for text in ("whole.dk", "narrow.dk", "cut.dk"))
        with open(os.path.join(FOLDER, name + ".dk"), encoding="ascii") as file:
            text = file.read()
        with open(whole, "w", encoding="ascii") as file:
            file.write(re.sub(r"(?m)^size .*$", f"size {size[0]} {size[1]}", text))
        run(program, "narrow", whole, narrow)
        for title, path in ("as written", whole), ("`narrow`", narrow):
            # the levels of a program are those that `cut 64` reports of it, unless some body has more
            levels = run(program, "cut", "64", path, cut).split()[4]
            yield [title, *Costs(program, path, 0).row(name, levels)]
        levels = run(program, "cut", "1", narrow, cut).split()[4]
        yield ["`narrow`, `cut 1`, age 1", *Costs(program, cut, 1).row(name, levels)]


def table(heads, lines):
    """The lines of a table."""
    head, *rest = ("| " + " | ".join(map(str, line)) + " |" for line in [heads, *lines])
    return [head, "|" + "---|" * len(heads), *rest]


def main(words):
    writes = "--write" in words
    program, *names = [word for word in words if word != "--write"]
    program = os.path.abspath(program)
    for name in names or sorted(os.path.basename(path)[:-3] for path in glob.glob(os.path.join(FOLDER, "*.dk"))):
        if writes:
            section.write(section.PIPELINES, f"costs {name}", table([f"{LARGE[0]} by {LARGE[1]}", *WAYS], rows(program, name, LARGE)))
        else:
            for size in SMALL, LARGE:
                print("\n".join(table([f"{name}, {size[0]} by {size[1]}", *WAYS], rows(program, name, size))) + "\n", flush=True)


if __name__ == "__main__":
    if not [word for word in sys.argv[1:] if word != "--write"]:
        sys.exit(__doc__)
    main(sys.argv[1:])
