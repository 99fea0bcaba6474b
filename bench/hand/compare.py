#!/usr/bin/env python3
"""Compares filters written by hand in Verilog with the ones that dk compiles from the examples: first the pixels, then the cells.

usage: bench/hand/compare.py [--border zero|clamp]... [--cells] [--family ice40|ecp5] [--size W H] [--enable] [--all] [--seeds N] [--chroot DIR]
                             [--dk PROGRAM] [NAME..]
       bench/hand/compare.py --self-test [--dk PROGRAM]

The text of dk is `compile --age 1 --block 32` of what `cut 1` writes. The program of a border of zero is the example without `edge clamp`.

Without --cells every output pixel of both texts is compared with `dk eval`, by Verilator
(with --icarus by Icarus Verilog), for frames of 40 by 12 and of 64 by 48, without and
with clock enable, for both borders unless --border names one. The contents at power-up are random. A frame and a part of the next one
come first, then a reset, then two frames and most of a third. With clock enable about half the clocks are held, with other pixels.

With --cells it prints the cells and the clock rates of both at the size of --size, else 640 by 480. It has rows for each --border, else
for a border of zero, and for the modules with clock enable if --enable is given, else for those without. --all has rows for both borders,
without and with clock enable. The tools run in the folder of --chroot, if given. --self-test checks that wrong hand-written filters are
caught.
"""
import argparse
import itertools
import json
import os
import random
import re
import subprocess
import sys
import tempfile

sys.dont_write_bytecode = True
HERE = os.path.dirname(os.path.abspath(__file__))
TOP = os.path.join(HERE, "..", "..")
sys.path.insert(0, os.path.join(TOP, "tools", "dev"))
import place

NAMES = ["gaussian3", "sobel", "median", "harris"]
FRAMES = [(40, 12), (64, 48)]
FAMILIES = {"ice40": "HX8K", "ecp5": "ECP5-85"}
# wrong filters: what each shows, its file, the right text and the wrong one
WRONG = [
    ("the flag of the first column is one clock late", "gaussian3", ".first(col[R+1])", ".first(col[R+2])"),
    ("the window is shifted by one column", "sobel", "sum_left2 <= sum_left;", "sum_left2 <= sum_here;"),
    ("one comparison is exchanged", "median", "less3 < more3 ? more3 : less3", "less3 < more3 ? less3 : more3"),
    ("valid comes one clock early", "gaussian3", "row1 && col[P-1]) ok", "row1 && col[P-2]) ok"),
    ("valid has no reset", "sobel", "if (rst) ok <= 0;\n        else if", "if"),
    ("a register does not hold", "median", "if (en) begin", "begin"),
    ("the lines above are not compared", "harris", "below2 <= below;", "below2 <= 1;"),
]


def run(*words, work):
    said = subprocess.run(words, cwd=work, stdout=subprocess.PIPE, stderr=subprocess.STDOUT, text=True)
    if said.returncode:
        raise SystemExit(f"compare: {' '.join(words)}\n{said.stdout[-2000:]}")


PORT = r"(input|output) (?:reg )?(?:\[(\d+):0\] )?(\w+)"


def hand(name, border, size, enable, wrong=None):
    """A hand-written filter, in a module with the name and the ports of dk's."""
    text = ""
    for part in ("common", name):
        with open(os.path.join(HERE, part + ".v")) as file:
            text += file.read()
    if wrong:
        if text.count(wrong[0]) != 1:
            raise SystemExit(f"compare: {name} has no single '{wrong[0]}'")
        text = text.replace(*wrong)
    ports = [port for port in re.findall(PORT, re.search(rf"module {name}\b[^;]*;", text).group()) if enable or port[2] != "en"]
    head = ", ".join(f"{side} {f'[{high}:0] ' if high else ''}{port}" for side, high, port in ports)
    links = ", ".join([f".{port}({port})" for _, _, port in ports] + ([] if enable else [".en(1'b1)"]))
    return f"module dk({head});\n  {name} #(.W({size[0]}), .H({size[1]}), .CLAMP({int(border == 'clamp')})) core({links});\nendmodule\n{text}"


def program(name, border, size):
    """The example with this size and border."""
    with open(os.path.join(TOP, "examples", "programs", name + ".dk")) as file:
        text = re.sub(r"(?m)^size \d+ \d+", f"size {size[0]} {size[1]}", file.read())
    for offset, edge in re.findall(r"\w\(x([+-]\d+,y|,y[+-]\d+|[+-]\d+,y[+-]\d+)\)( edge clamp)?", text):
        if not edge:
            raise SystemExit(f"compare: {name} has an unclamped read at {offset}")
    return text.replace(" edge clamp", "") if border == "zero" else text


def compiled(given, name, border, size, enable, work):
    """The Verilog of dk."""
    with open(f"{work}/text.dk", "w") as file:
        file.write(program(name, border, size))
    run(given.dk, "cut", "1", "text.dk", "cut.dk", work=work)
    run(given.dk, "compile", "--age", "1", "--block", "32", *(["--enable"] if enable else []), "cut.dk", "dk.v", work=work)
    with open(f"{work}/dk.v") as file:
        return file.read()


def evaluated(given, source, size, frames, work):
    """What `dk eval` says of these frames: the samples of each output, one list an output."""
    with open(f"{work}/eval.dk", "w") as file:
        file.write(source)
    with open(f"{work}/in.pgm", "wb") as file:
        for frame in frames:
            file.write(b"P5\n%d %d\n255\n" % size + bytes(frame))
    run(given.dk, "eval", "eval.dk", "in.pgm", "out.pgm", work=work)
    with open(f"{work}/out.pgm", "rb") as file:
        rest = file.read()
    pictures = []
    while rest:
        _, _, greatest, rest = rest.split(b"\n", 3)
        each = 1 if int(greatest) < 256 else 2
        length = size[0] * size[1] * each
        pictures.append([int.from_bytes(rest[k:k + each], "big") for k in range(0, length, each)])
        rest = rest[length:]
    count = len(pictures) // len(frames)
    return [sum(pictures[k::count], []) for k in range(count)]


def stimuli(segments, holds, rng):
    """The clocks (rst, en, din): each segment begins with a reset."""
    rows = []
    for pixels in segments:
        rows.append((1, rng.getrandbits(1) if holds else 1, rng.getrandbits(8)))
        for pixel in pixels:
            while holds and rng.getrandbits(1):
                rows.append((0, 0, rng.getrandbits(8)))
            rows.append((0, 1, pixel))
    return rows


def judged(seen, rows, expected, least):
    """Why what a module showed in these clocks is wrong, or nothing. `expected` has each segment's samples of each output."""
    segment, streams = -1, []
    for clock, (values, (rst, en, _)) in enumerate(zip(seen, rows)):
        valids, samples = values[::2], values[1::2]
        if rst:
            segment, streams = segment + 1, [[] for _ in valids]
        if (rst or not en) and any(valids):
            return f"clock {clock}: valid in a reset clock or a held one"
        for k, stream in enumerate(streams if not rst and en else []):
            if valids[k]:
                stream.append(samples[k])
                place = len(stream) - 1
                if stream[place] != expected[segment][k][place]:
                    return f"clock {clock}, output {k}, pixel {place} after the reset: {stream[place]}, not {expected[segment][k][place]}"
            elif stream:
                return f"clock {clock}: valid falls"
    short = [k for k, stream in enumerate(streams) if len(stream) < least]
    return f"output {short[0]} has too few pixels" if short else ""


def simulated(given, modules, border, size, work):
    """The faults of modules. Each is (its title, its example, its Verilog, whether it has held clocks)."""
    area, rng = size[0] * size[1], random.Random(f"{border} {size}")
    frames = [[rng.choice((0, 255, rng.getrandbits(8))) if k % 2 else rng.getrandbits(8) for _ in range(area)] for k in range(5)]
    early, late = frames[:2], frames[2:]
    rows = [stimuli([sum(early, [])[:area * 7 // 5], sum(late, [])[:-3]], holds, rng) for holds in (False, True)]
    length = max(map(len, rows))
    for k in (0, 1):
        with open(f"{work}/rows{k}.hex", "w") as file:
            file.write("".join(f"{rst << 9 | en << 8 | din:x}\n" for rst, en, din in rows[k] + [(0, 0, 0)] * (length - len(rows[k]))))
    texts, nets, begins, shows = {}, [], [], []
    for k, (_, _, text, holds) in enumerate(modules):
        for part in re.split(r"(?<=endmodule)\n", text.replace("module dk(", f"module dk_{k}(")):
            texts.update({name: part for name in re.findall(r"(?m)^module (\w+)", part)})
        ports = re.findall(PORT, text.split(";", 1)[0])
        outs = [(f"{port}_{k}", high or 0) for side, high, port in ports if side == "output"]
        links = [f".{port}({port}{'' if port == 'clk' else f'_{k}' if side == 'output' else int(holds)})" for side, _, port in ports]
        nets += [*(f"  wire [{high}:0] {port};" for port, high in outs), f"  dk_{k} m{k}({', '.join(links)});", f"  integer f{k};"]
        begins.append(f'    f{k} = $fopen("seen{k}.txt");')
        shows.append(f'      $fdisplay(f{k}, "{" ".join(["%0d"] * len(outs))}", {", ".join(port for port, _ in outs)});')
    give = [f"      {port}{k} = rows{k}[k]{bits};" for k in (0, 1) for port, bits in (("rst", "[9]"), ("en", "[8]"), ("din", "[7:0]"))]
    lines = ["module bench;", "  reg clk, rst0, rst1, en0, en1;", "  reg [7:0] din0, din1;", f"  reg [9:0] rows0 [0:{length - 1}], rows1 [0:{length - 1}];",
             "  integer k;", *nets, "  initial begin", '    $readmemh("rows0.hex", rows0);', '    $readmemh("rows1.hex", rows1);', *begins, "    clk = 0;",
             f"    for (k = 0; k < {length}; k = k + 1) begin", *give, "      #1;", *shows, "      clk = 1;", "      #1 clk = 0;", "    end", "    $finish;",
             "  end", "endmodule", ""]
    with open(f"{work}/bench.v", "w") as file:
        file.write("\n".join([*texts.values(), *lines]))
    if given.icarus:
        run("iverilog", "-g2005", "-o", "bench.vvp", "bench.v", work=work)
        run("vvp", "-n", "bench.vvp", work=work)
    else:
        run("verilator", "--binary", "--timing", "-Wno-fatal", "-Wno-lint", "-Wno-style", "--x-initial", "unique", "--x-assign", "unique",
            "--top-module", "bench", "--Mdir", "obj", "-MAKEFLAGS", "OPT_FAST=-O0", "-o", "bench", "bench.v", work=work)
        run("obj/bench", "+verilator+seed+7", "+verilator+rand+reset+2", work=work)
    wanted = {name: [evaluated(given, program(name, border, size), size, frames, work) for frames in (early, late)] for name in {row[1] for row in modules}}
    faults = []
    for k, (_, name, _, holds) in enumerate(modules):
        with open(f"{work}/seen{k}.txt") as file:
            seen = [[-1 if "x" in value else int(value) for value in line.split()] for line in file]     # x is no pixel
        faults.append(judged(seen, rows[holds], wanted[name], 2 * area))
    return faults


def pixels(given):
    """Compares the pixels; the number of wrong modules."""
    wrong = 0
    with tempfile.TemporaryDirectory() as work:
        for border, size in itertools.product(given.border or ["zero", "clamp"], FRAMES):
            modules = []
            for name, enable in itertools.product(given.names, (False, True)):
                for side, text in (("hand-written", hand(name, border, size, enable)), ("dk's", compiled(given, name, border, size, enable, work))):
                    modules.append((f"{side} {name} {'with' if enable else 'without'} clock enable", name, text, enable))
            for module, fault in zip(modules, simulated(given, modules, border, size, work)):
                wrong += bool(fault)
                print(f"{module[0]}, border {border}, {size[0]} by {size[1]}: {fault or 'equal'}", flush=True)
    return wrong


def self_test(given):
    """The number of wrong filters that are not caught."""
    missed = 0
    with tempfile.TemporaryDirectory() as work:
        for what, name, right, wrong in WRONG:
            fault = simulated(given, [(what, name, hand(name, "zero", FRAMES[0], True, (right, wrong)), True)], "zero", FRAMES[0], work)[0]
            missed += not fault
            print(f"{name}, {what}: {'caught, ' + fault if fault else 'NOT CAUGHT'}", flush=True)
    return missed


def inside(root, work):
    """The words before those of a command that runs in the folder `work` of another root. Yosys reads /proc, which only the command sees there."""
    return ["unshare", "--mount", "sh", "-c", 'mount --bind /proc "$0/proc" && exec chroot "$0" sh -c \'cd "$0" && exec "$@"\' "$@"', root, work]


def counted(text, device, what, given, base):
    """LUT, FF, BRAM and MUL of a text and the middle of its clock rates, as far as the tools get; and the rates as a text."""
    with tempfile.TemporaryDirectory(dir=base) as work:
        rates = place.figures(text, device, what, given, work).split(": ")[-1]
        if not os.path.exists(f"{work}/cells.json"):
            return [None] * 5, rates
        with open(f"{work}/cells.json") as file:
            kinds = json.load(file)["design"]["num_cells_by_type"]
        counts = [place.cells(kinds, cell) for cell in device["cells"]]
        if os.path.exists(f"{work}/report.json"):
            with open(f"{work}/report.json") as file:
                counts[0] = json.load(file)["utilization"].get("TRELLIS_COMB", {"used": counts[0]})["used"]
    ends = [float(rate) for rate in re.findall(r"\d+(?= to | MHz)", rates)]
    return [*counts, sum(ends) / len(ends) if ends else None], rates.replace(" MHz", "")


def row_of(given, name, border, enable, device, base):
    """Prints the rows of a filter with these options: the hand-written one, dk's, and the ratios."""
    found, title = [], ", ".join([name, *(["clamped"] if border == "clamp" else []), *(["clock enable"] if enable else [])])
    with tempfile.TemporaryDirectory() as work:
        for side, text in (("hand", hand(name, border, given.size, enable)), ("dk", compiled(given, name, border, given.size, enable, work))):
            values, rates = counted(text, device, f"{title}, {side}", given, base)
            found.append(values)
            print(f"| {title} | {side} | " + " | ".join("" if value is None else f"{value:,}" for value in values[:4]) + f" | {rates} |", flush=True)
    ratios = [f"{after / before:.2f}" if before and after else "" for before, after in zip(*found)]
    print(f"| {title} | ratio | " + " | ".join(ratios) + " |", flush=True)


def figures(given):
    """Prints the cells and clock rates."""
    device, base = place.DEVICES[FAMILIES[given.family]], None
    if given.chroot:
        base = os.path.join(given.chroot, "tmp")
        outside = place.run
        place.run = lambda *words, work, **more: outside(*inside(given.chroot, "/" + os.path.relpath(work, given.chroot)), *words, work=work, **more)
    enter = inside(given.chroot, "/") if given.chroot else []
    given.path = False
    print(f"{FAMILIES[given.family]}, {given.size[0]} by {given.size[1]}. The border is zero and there is no clock enable where the name does not say otherwise. "
          f"Yosys {place.section.version(*enter, 'yosys', '-V')}, {device['place'][0]} {place.section.version(*enter, device['place'][0], '--version')}.")
    print(f"LUT: {'LUTs with those of carries and LUT RAM, by nextpnr' if given.family == 'ecp5' else 'SB_LUT4, by Yosys'}. FF, BRAM, MUL: {', '.join(list(device['cells'])[1:])}, by Yosys. They "
          f"include a register at each port but clk.\nMHz: the least and the greatest of {given.seeds} seeds; the ratio is that of the middles. Ratios are dk's by the hand-written.\n")
    print("| Filter | | LUT | FF | BRAM | MUL | MHz |\n|---|---|---|---|---|---|---|")
    borders = ["zero", "clamp"] if given.all else given.border or ["zero"]
    for name, border, enable in itertools.product(given.names, borders, [False, True] if given.all else [given.enable]):
        row_of(given, name, border, enable, device, base)


def main():
    read = argparse.ArgumentParser(usage=__doc__.split("usage: ")[1].split("\n\n")[0])
    read.add_argument("names", nargs="*", metavar="NAME", default=[])
    read.add_argument("--border", choices=["zero", "clamp"], action="append")
    read.add_argument("--cells", action="store_true")
    read.add_argument("--family", choices=FAMILIES, default="ice40")
    read.add_argument("--size", nargs=2, type=int, default=[640, 480])
    read.add_argument("--enable", action="store_true")
    read.add_argument("--all", action="store_true")
    read.add_argument("--seeds", type=int, default=3)
    read.add_argument("--chroot")
    read.add_argument("--icarus", action="store_true")
    read.add_argument("--dk", default=os.path.join(TOP, "bin", "dk"))
    read.add_argument("--self-test", action="store_true")
    given = read.parse_intermixed_args()
    given.dk, given.names = os.path.abspath(given.dk), given.names or NAMES
    if set(given.names) - set(NAMES):
        read.error(f"the filters are {' '.join(NAMES)}")
    if given.self_test:
        sys.exit(bool(self_test(given)))
    if given.cells:
        figures(given)
    else:
        sys.exit(bool(pixels(given)))


main()
