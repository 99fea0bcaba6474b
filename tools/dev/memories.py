#!/usr/bin/env python3
"""Synthesizes texts of `compile` with and without `--block 32` by Yosys, for five families of FPGA, and counts their cells.

usage: tools/dev/memories.py [--write] [--jobs N] [--minutes M] [--keep FILE] PROGRAM [EXAMPLE..]
                                           prints a table of the cells at 1920 by 1080, with and without `--block 32`
       tools/dev/memories.py --packing [--write] PROGRAM [EXAMPLE..]
                                           prints a table of the block memories at 1920 by 1080, with and without packing
       tools/dev/memories.py --phases [--write] PROGRAM [EXAMPLE..]
                                           prints a table of the block memories at 1920 by 1080 of one, two, four and eight pixels a clock
       tools/dev/memories.py --check PROGRAM   says which family makes no block memory of an array of 512 words and more

Without names the examples are gaussian3, sobel, median and harris. `--write` puts the table in docs/GALLERY.md, with the date and
Yosys's version; that of `--packing` in docs/HARDWARE.md, and that of `--phases` in docs/WIDEN.md. These two synthesize as far as block
memories are made. The text without packing is that of tools/dev/unpack.py. N syntheses run at a time; without `--jobs` two. A synthesis is ended after M minutes of processor time, without
`--minutes` ten, or at 6 GB, and then has no figures. A text whose arrays need more flip-flops than the greatest device of a family has is
not synthesized. With `--keep` results are kept in FILE, and a text that has a result there is not synthesized again.
"""
import argparse
import concurrent.futures
import json
import os
import re
import resource
import signal
import subprocess
import sys
import tempfile
import time

sys.dont_write_bytecode = True
import section
import unpack

EXAMPLES = os.path.join(os.path.dirname(os.path.abspath(__file__)), "..", "..", "examples", "programs")
HARDWARE = os.path.join(os.path.dirname(os.path.abspath(__file__)), "..", "..", "docs", "HARDWARE.md")
WIDEN = os.path.join(os.path.dirname(os.path.abspath(__file__)), "..", "..", "docs", "WIDEN.md")
BYTES, BLOCK = 6 << 30, 32
SIZE = "1920 1080"
SHOWN = ["gaussian3", "sobel", "median", "harris"]
PHASES = [1, 2, 4, 8]

# each family: its command, its cells by kind, and the most flip-flops of a device if it has no LUT RAM
KINDS = ["LUTs", "flip-flops", "LUT RAM", "block RAM"]
FAMILIES = {
    "ECP5": ("synth_ecp5 -noccu2", ["LUT4", "TRELLIS_FF", "TRELLIS_DPR16X4", "DP16KD"], None),
    "Xilinx 7": ("synth_xilinx", ["LUT[1-6]", "FD[RSCP]E(_1)?", r"RAM\d+(M|X1[DS])(_1)?", r"RAMB(18|36)E1"], None),
    "iCE40": ("synth_ice40", ["SB_LUT4", r"SB_DFF\w*", "-", r"SB_RAM40_4K\w*"], 7680),
    "Gowin": ("synth_gowin", ["LUT[1-4]", r"DFF\w*", r"RAM16S\w*", r"(SDP|DP|SP)(X9)?B?"], None),
    "Cyclone V": ("synth_intel_alm -family cyclonev", [r"MISTRAL_(ALUT\w+|NOT)", "MISTRAL_FF", "MISTRAL_MLAB", "MISTRAL_M10K"], None),
}
# the bits of a block memory, and how many of them a cell of another kind is
BLOCKS = {"ECP5": (18432, {}), "Xilinx 7": (18432, {"RAMB36E1": 2}), "iCE40": (4096, {}), "Gowin": (18432, {}), "Cyclone V": (10240, {})}
# The example, its frame and its options
CHECKED = [(name, "640 48", option) for name in ("gaussian3", "unsharp", "median") for option in ([], ["--enable"])]


def compiled(program, name, size, options, work, phases=1):
    """Writes dk.v, of the program of several pixels a clock if there are several phases, and returns the words and the bits of a word of its arrays."""
    with open(os.path.join(EXAMPLES, f"{name}.dk")) as file:
        text = re.sub(r"(?m)^size .*", f"size {size}", file.read())
    with open(f"{work}/sized.dk", "w") as file:
        file.write(text)
    if phases > 1:
        subprocess.run([program, "widen", str(phases), f"{work}/sized.dk", f"{work}/wide.dk"], check=True, stdout=subprocess.DEVNULL)
    subprocess.run([program, "compile", *options, f"{work}/{'wide' if phases > 1 else 'sized'}.dk", f"{work}/dk.v"], check=True)
    with open(f"{work}/dk.v") as file:
        return [(int(last) + 1, int(high or 0) + 1) for high, last in re.findall(r"(?m)^  reg (?:\[(\d+):0\] )?\w+ \[0:(\d+)\];$", file.read())]


def cells(family, work, minutes=10):
    """The cells of dk.v by kind, or why there are none."""
    command, kinds, _ = FAMILIES[family]
    script = f"read_verilog dk.v; {command} -top dk; tee -q -o cells.json stat -json"

    def limited():
        resource.setrlimit(resource.RLIMIT_AS, (BYTES, BYTES))
        resource.setrlimit(resource.RLIMIT_CPU, (60 * minutes, 60 * minutes + 5))

    said = subprocess.run(["yosys", "-q", "-p", script], preexec_fn=limited, cwd=work, stdout=subprocess.PIPE, stderr=subprocess.STDOUT, text=True)
    if said.returncode:
        print(f"memories: {family}: status {said.returncode}: {said.stdout[-300:]}", file=sys.stderr)
        return {-signal.SIGXCPU: f"over {minutes} minutes", -signal.SIGABRT: f"over {BYTES >> 30} GB"}.get(said.returncode, "ended by Yosys")
    with open(f"{work}/cells.json") as file:
        found = json.load(file)["design"]["num_cells_by_type"]
    return [sum(count for cell, count in found.items() if re.fullmatch(kind, cell)) for kind in kinds]


def check(program):
    failed = 0
    with tempfile.TemporaryDirectory() as work:
        for name, size, options in CHECKED:
            long = sum(words >= 512 for words, _ in compiled(program, name, size, ["--block", str(BLOCK), *options], work))
            for family in FAMILIES:
                found = cells(family, work)
                if long == 0 or isinstance(found, str) or found[3] < long:
                    print(f"memories: {family} has {found if isinstance(found, str) else found[3]} block memories "
                          f"for {long} long arrays of {name} {' '.join(options)}", file=sys.stderr)
                    failed = 1
    return failed


def blocks(family, text):
    """The block memories of a text."""
    command, kinds, _ = FAMILIES[family]
    size, weights = BLOCKS[family]
    with tempfile.TemporaryDirectory() as work:
        with open(f"{work}/dk.v", "w") as file:
            file.write(text)
        script = f"read_verilog dk.v; {command} -top dk -run begin:map_ffram; tee -q -o cells.json stat -json"
        subprocess.run(["yosys", "-q", "-p", script], cwd=work, check=True, stdout=subprocess.DEVNULL)
        with open(f"{work}/cells.json") as file:
            found = json.load(file)["design"]["num_cells_by_type"]
    return sum(count * weights.get(cell, 1) for cell, count in found.items() if re.fullmatch(kinds[3], cell))


def packing(program, names, jobs):
    """The lines of the table of `--packing`."""
    rows = [(name, family) for name in names for family in FAMILIES]
    texts, bits = {}, {}
    with tempfile.TemporaryDirectory() as work:
        for name in names:
            bits[name] = sum(words * width for words, width in compiled(program, name, SIZE, ["--age", "1", "--block", str(BLOCK)], work) if words >= BLOCK)
            with open(f"{work}/dk.v") as file:
                texts[name] = file.read()

    def row(wanted):
        name, family = wanted
        found = [blocks(family, text) for text in (unpack.unpacked(texts[name]), texts[name])]
        least = bits[name] / BLOCKS[family][0]
        print("memories:", name, family, *found, file=sys.stderr, flush=True)
        return f"| {name} | {family} | {bits[name]:,} | {least:.1f} | {found[0]} | {found[1]} | {found[1] / least:.2f} |"

    with concurrent.futures.ThreadPoolExecutor(jobs) as pool:
        lines = list(pool.map(row, rows))
    return ["| Program | Family | bits of its long arrays | these, in blocks | blocks without packing | packed | packed, by the bits |", "|" + "---|" * 7, *lines]


def widened(program, names, jobs):
    """The lines of the table of `--phases`."""
    texts = {}
    with tempfile.TemporaryDirectory() as work:
        for name in names:
            for phases in PHASES:
                compiled(program, name, SIZE, ["--age", "1", "--block", str(BLOCK)], work, phases)
                with open(f"{work}/dk.v") as file:
                    texts[name, phases] = file.read()

    def row(wanted):
        name, family = wanted
        found = [blocks(family, texts[name, phases]) for phases in PHASES]
        print("memories:", name, family, *found, file=sys.stderr, flush=True)
        return f"| {name} | {family} | {' | '.join(map(str, found))} |"

    with concurrent.futures.ThreadPoolExecutor(jobs) as pool:
        lines = list(pool.map(row, [(name, family) for name in names for family in FAMILIES]))
    return ["| Program | Family | " + " | ".join(f"P = {phases}" for phases in PHASES) + " |", "|" + "---|" * (len(PHASES) + 2), *lines]


def counted(program, name, family, block, minutes, kept):
    """The four columns of an example, with or without `--block`."""
    most = FAMILIES[family][2]
    with tempfile.TemporaryDirectory() as work:
        arrays = compiled(program, name, SIZE, ["--block", str(BLOCK)] if block else [], work)
        held = sum(words * bits for words, bits in arrays if not block or words < BLOCK)
        with open(f"{work}/dk.v") as file:
            texts = [file.read(), FAMILIES[family][0], section.version("yosys", "-V")]
        is_stale = lambda result: re.fullmatch(r"over \d+ minutes", str(result)) and result != f"over {minutes} minutes"
        found = f"over {most:,} flip-flops" if most and held > most else kept.result(texts, lambda: cells(family, work, minutes), is_stale)
    print("memories:", name, family, f"--block {BLOCK}:" if block else "without --block:", found, file=sys.stderr, flush=True)
    return [found] + ["–"] * (len(KINDS) - 1) if isinstance(found, str) else [f"{count:,}" for count in found]


def table(program, names, jobs, minutes, kept):
    """The lines of the table."""
    wanted = [(name, family, block) for block in (True, False) for name in names for family in FAMILIES]
    with concurrent.futures.ThreadPoolExecutor(jobs) as pool:
        found = dict(zip(wanted, pool.map(lambda row: counted(program, *row, minutes, kept), wanted)))
    heads = [f"{kind}{with_block}" for with_block in ("", f", `--block {BLOCK}`") for kind in KINDS]
    lines = ["| " + " | ".join(["Program", "Family", *heads]) + " |", "|" + "---|" * (len(heads) + 2)]
    for name in names:
        for family in FAMILIES:
            lines.append("| " + " | ".join([name, family, *found[name, family, False], *found[name, family, True]]) + " |")
    return lines


def main():
    words = argparse.ArgumentParser(usage=__doc__.split("usage: ")[1].split("\n\n")[0])
    words.add_argument("--check", action="store_true")
    words.add_argument("--packing", action="store_true")
    words.add_argument("--phases", action="store_true")
    words.add_argument("--write", action="store_true")
    words.add_argument("--jobs", type=int, default=2)
    words.add_argument("--minutes", type=int, default=10)
    words.add_argument("--keep")
    words.add_argument("program")
    words.add_argument("names", nargs="*", default=[])
    given = words.parse_args()
    program = os.path.abspath(given.program)
    if given.check:
        return check(program)
    if given.packing or given.phases:
        page, name, made = (HARDWARE, "packing", packing) if given.packing else (WIDEN, "blocks", widened)
        lines = made(program, given.names or SHOWN, given.jobs)
        if not given.write:
            print("\n".join(lines))
            return 0
        section.write(page, name, [f"Made on {section.today()} with Yosys {section.version('yosys', '-V')}:", "", *lines])
        return 0
    begun = time.time()
    lines = table(program, given.names or SHOWN, given.jobs, given.minutes, section.Kept(given.keep))
    took = "" if given.keep else f", in {round((time.time() - begun) / 60)} minutes with `--jobs {given.jobs}`"
    if not given.write:
        print("\n".join(lines))
        return 0
    section.write(section.GALLERY, "memories", [
        f"The frames are {SIZE.replace(' ', ' by ')}. Made on {section.today()} with Yosys {section.version('yosys', '-V')}{took}, by",
        "",
        "    " + " ".join(["python3 tools/dev/memories.py --write", *([f"--minutes {given.minutes}"] if given.minutes != 10 else []), os.path.relpath(program, os.path.dirname(os.path.dirname(os.path.dirname(os.path.abspath(__file__))))), *given.names]),
        "",
        *lines,
    ])
    return 0


if __name__ == "__main__":
    sys.exit(main())
