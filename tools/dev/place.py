#!/usr/bin/env python3
"""Places and routes the Verilog of programs, by Yosys and nextpnr, and prints a table of cells and clock rates for each frame size.

usage: tools/dev/place.py [--write] [--jobs N] [--device NAME] [--size W H]... [--options "WORD.."]... [--cut N]... [--seeds N]
                      [--phases P]... [--pipelines] [--path] [--keep FILE] PROGRAM [NAME..]

A NAME is an example, or the path of a program's file. Without names all examples are placed. The line `size` is set to each SIZE; without
sizes these are 640 480 and 1920 1080. A table has a column for each list of options of `compile`; without lists these are none, `--age 1`,
`--block 32` and both. `--cut N` adds a column: the program that `PROGRAM cut N` writes, compiled with `--age 1 --block 32`.

With `--phases P` there is another table, with a line for each program and each P: the program that `PROGRAM cut 1` and then `PROGRAM widen P` write,
compiled with `--age 1 --block 32`, and how many pixels pass in a second at the least rate. A P of 1 is the program before `widen`. Its
frames are 640 480 if there is no size, and the other options of columns have no effect.

With `--pipelines` a NAME is a program of examples/pipelines, all by default, or a path, and the table has a line for each: the program that
`PROGRAM narrow` and then `PROGRAM cut 1` write, compiled with `--age 1 --block 32`, how many pixels pass in a second at the least rate, and the
buffer bits by the bits of a block memory. Its frames are 1920 1080 if there is no size, and the other options of columns have no effect.

Each port of the module but the clock passes a register, so that the clock rate is that of the module only. A rate is the least and the
greatest of N seeds, in MHz; without `--seeds` of three. A text that needs more cells than the device has is not placed. If its array bits
need more, it is not synthesized either. A synthesis is ended after ten minutes of processor time, and a seed after three on the HX8K and ten on
the ECP5-85, since the router of nextpnr 0.4 does not end on some texts. The table reports the number of seeds that have a rate if others have none.

`--write` puts the tables in docs/GALLERY.md, in the section `place` or `phases`, or in docs/PIPELINES.md, in the section `place`, with the date
and the versions. N texts are tried at a time; without `--jobs` two. The device
is HX8K without `--device`; ECP5-85 needs nextpnr-ecp5. Its look-up tables are the COMB that nextpnr reports, with those of carries and LUT RAM;
of a text that is not placed they are Yosys's LUT4. `--path` reports the slowest seed's critical path of each text on standard error.
With `--keep` results are kept in FILE, and a text that has a result there is not placed again.
"""
import argparse
import concurrent.futures
import dataclasses
import json
import os
import re
import resource
import signal
import subprocess
import sys
import tempfile
import time

sys.dont_write_bytecode = True
import section

TOP = os.path.dirname(os.path.dirname(os.path.dirname(os.path.abspath(__file__))))
EXAMPLES, PIPELINES = (os.path.join(TOP, "examples", folder) for folder in ("programs", "pipelines"))
MINUTES = 10
BOTH = ["--age", "1", "--block", "32"]

# each device: its synthesis, its placer, its cells by kind (LUTs, flip-flops, block memories, multipliers), the bits of a block memory,
# whether LUTs can be memories, the kind that nextpnr makes of all LUTs, carries and LUT RAM, and the minutes of a seed
DEVICES = {
    "HX8K": {
        "synth": "synth_ice40 -top top -json top.json",
        "place": ["nextpnr-ice40", "--hx8k", "--package", "ct256", "--pcf-allow-unconstrained"],
        "cells": {"SB_LUT4": 7680, "SB_DFF": 7680, "SB_RAM40_4K": 32, "SB_MAC16": 0},
        "bits": 4096,
        "lut_ram": False,
        "packed": None,
        "minutes": 3,
    },
    "ECP5-85": {
        "synth": "synth_ecp5 -top top -json top.json",
        "place": ["nextpnr-ecp5", "--85k", "--package", "CABGA756", "--lpf-allow-unconstrained"],
        "cells": {"LUT4": 83640, "TRELLIS_FF": 83640, "DP16KD": 208, "MULT18X18D": 156},
        "bits": 18432,
        "lut_ram": True,
        "packed": "TRELLIS_COMB",
        "minutes": 10,
    },
}
SHORT = ["LUT", "FF", "BRAM", "MUL"]


def run(*words, work, check=True, limit=None):
    said = subprocess.run(words, cwd=work, preexec_fn=limit, stdout=subprocess.PIPE, stderr=subprocess.PIPE, text=True)
    if check and said.returncode:
        raise SystemExit(f"place: {' '.join(words)}\n{said.stderr[-2000:]}")
    return said


def limited(minutes):
    """A limit of a process's processor time."""
    return lambda: resource.setrlimit(resource.RLIMIT_CPU, (60 * minutes, 60 * minutes + 5))


def wrapped(text):
    """The text with a module `top` around it, in which each port but the clock passes a register."""
    head = text.split(";", 1)[0]
    ports = re.findall(r"(input|output) (\[\d+:0\] )?(\w+)", head)
    lines = ["module top(" + ", ".join(f"{side}{' reg' if side == 'output' else ''} {wide}{name}" for side, wide, name in ports) + ");"]
    links = [".clk(clk)"]
    for side, wide, name in ports:
        if name == "clk":
            continue
        kind, goes = ("reg", f"{name}_q <= {name}") if side == "input" else ("wire", f"{name} <= {name}_q")
        lines += [f"  {kind} {wide}{name}_q;", f"  always @(posedge clk) {goes};"]
        links.append(f".{name}({name}_q)")
    return text + "\n".join([*lines, f"  dk core({', '.join(links)});", "endmodule", ""])


def cells(kinds, name):
    """How many cells there are of a kind, with its variants (SB_DFFSR is a kind of SB_DFF)."""
    return sum(count for kind, count in kinds.items() if kind.startswith(name))


def crowded(text, device, least):
    """Why the arrays alone do not fit, or nothing. Those of at least `least` words go to block memory."""
    arrays = [(int(last) + 1, int(high or 0) + 1) for high, last in re.findall(r"(?m)^  reg (?:\[(\d+):0\] )?\w+ \[0:(\d+)\];$", text)]
    long = sum(words * bits for words, bits in arrays if least and words >= least)
    short = sum(words * bits for words, bits in arrays) - long
    flops, blocks = [most for cell, most in device["cells"].items()][1:3]
    if long > blocks * device["bits"]:
        return f"{long:,} bits in BRAM"
    return f"{short:,} bits in FF" if short > flops and not device["lut_ram"] else ""


def path_of(log):
    """The critical path of nextpnr's last report: each cell with its delay, and its nets in between."""
    report = log[log.rindex("Critical path report for clock"):] if "Critical path report for clock" in log else ""
    kept = re.findall(r"Info: +(?:curr total|[\d.]+ +[\d.]+ +(?:Source|Sink|Net|Setup|Routing|Logic).*|[\d.]+ ns logic.*)", report.split("Critical path report for cross-domain")[0])
    return "\n".join(kept)


def placed(device, seeds, shows_path, what, work):
    """The least and the greatest clock rate of these seeds, in MHz, or why there is none."""
    rates, slowest = [], ""
    for seed in range(1, seeds + 1):
        said = run(*device["place"], "--json", "top.json", "--seed", str(seed), "--timing-allow-fail", "--report", "report.json", work=work, check=False, limit=limited(device["minutes"]))
        if said.returncode == -signal.SIGXCPU:
            continue
        if said.returncode:
            print(f"place: {what}: {''.join(line for line in said.stderr.splitlines(True) if line.startswith('ERROR'))}", file=sys.stderr)
            return "not placed"
        with open(f"{work}/report.json") as file:
            rate = min([clock["achieved"] for clock in json.load(file)["fmax"].values()], default=None)
        if rate is None:
            return "no path"
        if rate == min([*rates, rate]):
            slowest = said.stderr
        rates.append(rate)
    if not rates:
        return "not routed"
    if shows_path:
        print(f"{what}: {' '.join(f'{rate:.1f}' for rate in rates)} MHz\n{path_of(slowest)}", file=sys.stderr)
    least, most = f"{min(rates):.0f}", f"{max(rates):.0f}"
    return (least if least == most else f"{least} to {most}") + " MHz" + (f" of {len(rates)} seeds" if len(rates) < seeds else "")


def figures(text, device, what, given, work):
    """The cells and the clock rate of a text."""
    with open(f"{work}/top.v", "w") as file:
        file.write(wrapped(text))
    said = run("yosys", "-q", "-p", f"read_verilog top.v; {device['synth']}; tee -q -o cells.json stat -json", work=work, check=False, limit=limited(MINUTES))
    if said.returncode:
        return "not synthesized"
    with open(f"{work}/cells.json") as file:
        kinds = json.load(file)["design"]["num_cells_by_type"]
    counts = [cells(kinds, cell) for cell in device["cells"]]
    fits = all(count <= most for count, most in zip(counts, device["cells"].values()))
    rate = placed(device, given.seeds, given.path, what, work) if fits else "does not fit"
    shorts = list(SHORT)
    if device["packed"] and os.path.exists(f"{work}/report.json"):
        with open(f"{work}/report.json") as file:
            counts[0], shorts[0] = json.load(file)["utilization"][device["packed"]]["used"], "COMB"
    return ", ".join(f"{count:,} {short}" for count, short, most in zip(counts, shorts, device["cells"].values()) if most or count) + f": {rate}"


@dataclasses.dataclass
class Column:
    """What is done with a program before it is placed."""
    title: str
    options: list = dataclasses.field(default_factory=lambda: BOTH)
    is_narrowed: bool = False
    cut: int | None = None
    phases: int = 1

    def commands(self):
        """The commands that write one program from another."""
        return ["narrow"] * self.is_narrowed + ([f"cut {self.cut}"] if self.cut is not None else []) + ([f"widen {self.phases}"] if self.phases > 1 else [])


def bits_of(program, options, source, work):
    """The buffer bits of a program with these options of `compile`."""
    age = ["--age", options[options.index("--age") + 1]] if "--age" in options else []
    return int(re.search(r"(?m)^bits (\d+)$", run(program, "plan", *age, source, work=work).stdout).group(1))


def tried(program, device, name, size, column, given, kept):
    """A cell of a table, and the buffer bits."""
    with tempfile.TemporaryDirectory() as work:
        with open(name) as file:
            text = re.sub(r"(?m)^size \d+ \d+", f"size {size[0]} {size[1]}", file.read())
        with open(f"{work}/text.dk", "w") as file:
            file.write(text)
        source = "text.dk"
        for at, command in enumerate(column.commands()):
            run(program, *command.split(), source, f"text{at}.dk", work=work)
            source = f"text{at}.dk"
        bits = bits_of(program, column.options, source, work)
        run(program, "compile", *column.options, source, "dk.v", work=work)
        with open(f"{work}/dk.v") as file:
            text = file.read()
        reason = crowded(text, device, int(column.options[column.options.index("--block") + 1]) if "--block" in column.options else 0)
        what = f"{title_of(name)} {size[0]} by {size[1]}, {column.title}"
        texts = [text, given.device, str(given.seeds), section.version("yosys", "-V"), section.version(device["place"][0], "--version")]
        found = f"does not fit: {reason}" if reason else kept.result(texts, lambda: figures(text, device, what, given, work))
    print(f"place: {what}: {found}", file=sys.stderr, flush=True)
    return found, bits


def cells_of_tables(program, given, sizes, columns):
    """What was found for each program, size and number of a column, and the buffer bits."""
    wanted = [(name, size, k) for size in sizes for name in given.names for k in range(len(columns))]
    kept = section.Kept(given.keep)
    with concurrent.futures.ThreadPoolExecutor(given.jobs) as pool:
        return dict(zip(wanted, pool.map(lambda row: tried(program, DEVICES[given.device], row[0], row[1], columns[row[2]], given, kept), wanted)))


def title_of(name):
    return re.sub(r"\.dk$", "", os.path.basename(name))


def tables(program, given):
    """The lines of the tables, one table for each size."""
    columns = [Column(f"`{words}`" if words else "no options", words.split()) for words in given.options or ["", "--age 1", "--block 32", "--age 1 --block 32"]]
    columns += [Column(f"cut {cut}", cut=cut) for cut in given.cut]
    sizes = given.size or [(640, 480), (1920, 1080)]
    found = cells_of_tables(program, given, sizes, columns)
    lines = []
    for size in sizes:
        heads = [f"{size[0]} by {size[1]}", *(column.title for column in columns)]
        lines += ["", "| " + " | ".join(heads) + " |", "|" + "---|" * len(heads)]
        lines += ["| " + " | ".join([title_of(name), *(found[name, size, k][0] for k in range(len(columns)))]) + " |" for name in given.names]
    return lines[1:]


def phase_tables(program, given):
    """The lines of the tables of several pixels a clock, one table for each size."""
    sizes = given.size or [(640, 480)]
    found = cells_of_tables(program, given, sizes, [Column(f"cut 1, {phases} phases", cut=1, phases=phases) for phases in given.phases])
    lines = []
    for size in sizes:
        lines += ["", f"| {size[0]} by {size[1]} | P | Cells | Clock rate | Million pixels per second |", "|" + "---|" * 5]
        for name in given.names:
            for k, phases in enumerate(given.phases):
                counts, rate = found[name, size, k][0].rsplit(": ", 1)
                lines.append(f"| {title_of(name)} | {phases} | {counts} | {rate} | {pixels(rate, phases)} |")
    return lines[1:]


def pixels(rate, phases):
    """How many million pixels pass in a second at the least rate."""
    least = re.match(r"(\d+)(?: to \d+)? MHz", rate)
    return f"{phases * int(least.group(1)):,}" if least else "–"


def pipeline_tables(program, given):
    """The lines of the tables of pipelines, one table for each size."""
    device = DEVICES[given.device]
    sizes = given.size or [(1920, 1080)]
    found = cells_of_tables(program, given, sizes, [Column("narrow, cut 1", is_narrowed=True, cut=1)])
    kinds = ["COMB" if device["packed"] else "LUT", *SHORT[1:]]
    lines = []
    for size in sizes:
        heads = [f"{size[0]} by {size[1]}", *kinds, "Clock rate", "Million pixels per second", "Buffer bits", f"Bits / {device['bits']:,}"]
        lines += ["", "| " + " | ".join(heads) + " |", "|" + "---|" * len(heads)]
        for name in given.names:
            text, bits = found[name, size, 0]
            counts = dict(reversed(count.split()) for count in re.findall(r"[\d,]+ [A-Z]+(?=, |: )", text))
            numbers = [counts.get(kind, f"{counts['LUT']} LUT" if kind == "COMB" and "LUT" in counts else "–") for kind in kinds]
            rate = text.rsplit(": ", 1)[-1]
            lines.append("| " + " | ".join([title_of(name), *numbers, rate, pixels(rate, 1), f"{bits:,}", f"{bits / device['bits']:.1f}"]) + " |")
    return lines[1:]


def main():
    read = argparse.ArgumentParser(usage=__doc__.split("usage: ")[1].split("\n\n")[0])
    read.add_argument("program")
    read.add_argument("names", nargs="*")
    read.add_argument("--size", nargs=2, type=int, action="append")
    read.add_argument("--options", action="append")
    read.add_argument("--cut", type=int, action="append", default=[])
    read.add_argument("--phases", type=int, choices=range(1, 9), action="append", default=[])
    read.add_argument("--pipelines", action="store_true")
    read.add_argument("--seeds", type=int, default=3)
    read.add_argument("--jobs", type=int, default=2)
    read.add_argument("--device", choices=DEVICES, default="HX8K")
    read.add_argument("--path", action="store_true")
    read.add_argument("--write", action="store_true")
    read.add_argument("--keep")
    given = read.parse_intermixed_args()
    program = os.path.abspath(given.program)
    folder = PIPELINES if given.pipelines else EXAMPLES
    names = given.names or sorted(name[:-3] for name in os.listdir(folder) if name.endswith(".dk"))
    given.names = [os.path.abspath(name) if name.endswith(".dk") else os.path.join(folder, name + ".dk") for name in names]
    given.size = [tuple(size) for size in given.size or []]
    begun = time.time()
    lines = (pipeline_tables if given.pipelines else phase_tables if given.phases else tables)(program, given)
    took = "" if given.keep else f", in {round((time.time() - begun) / 60)} minutes with `--jobs {given.jobs}`"
    if not given.write:
        print("\n".join(lines))
        return
    placer = DEVICES[given.device]["place"][0]
    kept = sys.argv.index("--keep") if given.keep else len(sys.argv)
    words = ["python3", *(os.path.relpath(word, TOP) if os.path.exists(word) else word for word in sys.argv[:kept] + sys.argv[kept + 2:])]
    seeds = "one seed" if given.seeds == 1 else f"{given.seeds} seeds"
    section.write(section.PIPELINES if given.pipelines else section.GALLERY, "phases" if given.phases else "place", [
        f"The device is {given.device}. Made on {section.today()} with Yosys {section.version('yosys', '-V')} and {placer} "
        f"{section.version(placer, '--version')}, {seeds}{took}, by",
        "",
        "    " + " ".join(f'"{word}"' if " " in word else word for word in words),
        "",
        *lines,
    ])


if __name__ == "__main__":
    main()
