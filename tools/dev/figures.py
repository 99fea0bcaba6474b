#!/usr/bin/env python3
"""Prints the figures of the documentation that a program dk computes: bits, latencies, arrays, registers, assigns, definitions, levels.

usage: python3 tools/dev/figures.py [--write] PROGRAM      PROGRAM is bin/dk or another built program

Each part has the page, the commands, and then the lines that the page has: rows of a table, or sentences. A part of a line that no command
of dk computes, as a clock rate, is `..`. --write puts the rows into the tables of the pages, and prints only the sentences that a page
has not. tests/figures.py compares the lines with the pages.
"""
import os
import re
import subprocess
import sys
import tempfile

TOP = os.path.join(os.path.dirname(os.path.abspath(__file__)), "..", "..")
sys.dont_write_bytecode = True
sys.path += [os.path.join(TOP, "tools"), os.path.join(TOP, "bench")]
import kept  # noqa: E402
import memories  # noqa: E402
import run  # noqa: E402

EXAMPLES = os.path.join(TOP, "examples", "programs")
PIPELINES = ["isp", "canny", "deblur", "flow", "stereo", "corners"]
SMALL, MIDDLE, LARGE = "64 48", "640 480", "1920 1080"
FAST = "--age 1 --block 32"
OPEN = ".."
BLUR = """size 640 480
input a : u8
let rows = im(x,y) (a(x,y-1) + 2*a(x,y) + a(x,y+1)) as u10 end
let blur = im(x,y) ((rows(x-1,y) + 2*rows(x,y) + rows(x+1,y)) >> 4) as u8 end
output blur
"""
NINE = """size 640 480
input a : u8
{inline}let s = im(x,y) (a(x-1,y-1) + a(x,y-1) + a(x+1,y-1) + a(x-1,y) + a(x,y) + a(x+1,y) + a(x-1,y+1) + a(x,y+1) + a(x+1,y+1)){cast} end
let d = im(x,y) abs(s(x,y-1) - s(x,y+1)) end
let f = im(x,y) sat(d(x,y), u16) end
output f
"""
FIVE = """size 640 480
input a : u8
let s = im(x,y) a(x-2,y) + a(x-1,y) + a(x,y) + a(x+1,y) + a(x+2,y) end
let f = im(x,y) ((s(x,y-1) + s(x,y) + s(x,y+1)) / 15) as u8 end
output f
"""
THREE = """size 4 1
input a : u8
let f = im(x,y) ((a(x-1,y) + a(x,y) + a(x+1,y)) / 3) as u8 end
output f
"""
ALONG = """size 640 480
input a : u8
inline let row = im(x,y) a(x-1,y) + 2*a(x,y) + a(x+1,y) end
let f = im(x,y) ((row(x,y-1) + 2*row(x,y) + row(x,y+1)) / 16) as u8 end
output f
"""
DOWN = """size 640 480
input a : u8
let column = im(x,y) a(x,y-1) + 2*a(x,y) + a(x,y+1) end
let f = im(x,y) ((column(x-1,y) + 2*column(x,y) + column(x+1,y)) / 16) as u8 end
output f
"""


class Part:
    """Figures of a page. `lines` are rows of the table with the head `head`, or sentences where there is none; `excerpt` has a block of the page as some of its lines."""

    def __init__(self, page, commands, lines, head=None, excerpt=None):
        self.page, self.commands, self.lines, self.head, self.excerpt = page, commands, lines, head, excerpt


class Measured:
    """The counts of programs by a built program. Each text is written once, and each call is made once."""

    def __init__(self, program, folder, whole):
        self.dk, self.known, self.whole = kept.Dk(os.path.abspath(program), folder), {}, whole

    def call(self, *words):
        if words not in self.known:
            self.known[words] = self.dk.need(*words)
        return self.known[words]

    def written(self, name, text):
        self.dk.write(name, text.encode())
        return name

    def example(self, name, size, *rewrites):
        """The file of an example at a size, after rewriting commands."""
        folder = os.path.dirname(EXAMPLES) if "/" in name else EXAMPLES
        path = "_".join([name.replace("/", "_"), size, *rewrites]).replace(" ", "_") + ".dk"
        if rewrites:
            self.call(*rewrites[-1].split(), self.example(name, size, *rewrites[:-1]), path)
        elif path not in self.known:
            with open(f"{folder}/{name}.dk", encoding="utf-8") as file:
                self.known[path] = self.written(path, re.sub(r"(?m)^size .*", f"size {size}", file.read()))
        return path

    def plan(self, path, *options):
        """The numbers of a plan; `latency` is the greatest one."""
        lines = [line.split() for line in self.call("plan", *options, path).splitlines()]
        found = {line[0]: int(line[1]) for line in lines if line[0] in ("bits", "clocks", "reads")}
        return {**found, "latency": max(int(line[1]) for line in lines if line[0] == "latency")}

    def bits(self, path, *options):
        return self.plan(path, *options)["bits"]

    def verilog(self, path, options=""):
        self.call("compile", *options.split(), path, f"{path}.v")
        return self.dk.read(f"{path}.v").decode()

    def counts(self, path, options=""):
        """Registers, their bits, assigns, arrays and their bits of a text."""
        return counts_of(self.verilog(path, options))

    def cut(self, path, levels):
        """The definitions and the levels that `cut` prints."""
        said = self.call("cut", str(levels), path, f"{path}.cut{levels}")
        return tuple(map(int, re.search(r"^cut: definitions (\d+) levels (\d+)$", said, re.M).groups()))


def arrays_of(text):
    """The words and the bits of a word of each array."""
    return [(int(last) + 1, int(high or 0) + 1) for high, last in re.findall(r"(?m)^  reg (?:\[(\d+):0\] )?\w+ \[0:(\d+)\];$", text)]


def counts_of(text):
    registers = [int(high or 0) + 1 for high in re.findall(r"(?m)^  reg (?:\[(\d+):0\] )?\w+;$", text)]
    arrays = arrays_of(text)
    return len(registers), sum(registers), len(re.findall(r"(?m)^  assign ", text)), len(arrays), sum(words * bits for words, bits in arrays)


def row(*cells):
    return "| " + " | ".join(f"{cell:,}" if isinstance(cell, int) else str(cell) for cell in cells) + " |"


def sized(size, name="NAME", folder="programs"):
    return f"sed 's/^size .*/size {size}/' examples/{folder}/{name}.dk >p.dk"


def names_of(folder=EXAMPLES):
    return sorted(name[:-3] for name in os.listdir(folder) if name.endswith(".dk"))


# The parts of each page

def readme(dk):
    path = dk.written("blur.dk", BLUR)
    yield Part("README.md", ["dk compile blur.dk blur.v"], dk.verilog(path).splitlines(), excerpt="```verilog")
    yield Part("README.md", ["dk plan blur.dk"], ["It has {bits:,} buffer bits and a latency of {latency:,} clocks.".format(**dk.plan(path))])


def typed(dk):
    """HARDWARE, Compile: the bits of one program as it is, with a cast, and with an inline image."""
    forms = [("", ""), ("", " as u12"), ("inline ", "")]
    bits = [dk.bits(dk.written(f"nine{number}.dk", NINE.format(inline=inline, cast=cast))) for number, (inline, cast) in enumerate(forms)]
    line = "At 640 by 480, a sum of nine pixels and then the difference of two of its lines, `abs(s(x,y-1) - s(x,y+1))`, needs {:,} bits. With `as u12` on the sum it needs {:,}, and with an `inline` sum {:,}."
    yield Part("docs/HARDWARE.md", ["dk plan p.dk, of the program as described"], [line.format(*bits)])


def simulated(dk):
    """HARDWARE, Simulate: the clocks of a call, and a net with its image."""
    plan = dk.plan(dk.example("gaussian3", SMALL))
    yield Part("docs/HARDWARE.md", ["dk plan examples/programs/gaussian3.dk"],
               ["    ./dk sim dk.v {clocks} examples/programs/scene.pgm out.pgm".format(**plan),
                "{clocks} is the line `clocks` of `./dk plan examples/programs/gaussian3.dk`: 64 times 48 pixels, and the latency of {latency}.".format(**plan)])
    path = dk.example("gaussian3", SMALL)
    nets = kept.Nets(dk.call("nets", *FAST.split(), path))
    net = next(net for read, net in nets.reads if (read.reader, read.dy) == ("above", -1))
    assign = re.search(rf"(?m)^ *(assign {net} = \w+\[\w+\];)$", dk.verilog(path, FAST))[1]
    notes = {(read.reader, str(read)): read.age for read, found in nets.reads if found == net}
    ages = set(notes.values())
    said = ", ".join(f"{read} by {reader}" for reader, read in sorted(notes))
    yield Part("docs/HARDWARE.md", [f"python3 tools/names.py {FAST} examples/programs/gaussian3.dk"], [f"`{assign}  // grey {ages.pop()} clocks ago: {said}`"])


def packed(dk):
    lines = []
    for name in ("gaussian5", "harris", "local_threshold", "stereo"):
        bits = sum(words * width for words, width in arrays_of(dk.verilog(dk.example(name, LARGE), FAST)) if words >= memories.BLOCK)
        lines += [row(name, family, bits, f"{bits / size:.1f}", OPEN, OPEN, OPEN) for family, (size, _) in memories.BLOCKS.items()]
    yield Part("docs/HARDWARE.md", [sized(LARGE), f"dk compile {FAST} p.dk p.v", "the bits of the arrays of p.v of 32 and more words"], lines,
               head="| Program | Family | bits of its long arrays | these, in blocks |")


def columns(dk):
    """HARDWARE, Columns first and Narrow images, and what the options of gaussian3 cost."""
    names = ["gaussian3", "gaussian5", "sobel", "median", "unsharp", "dog", "harris", "local_threshold", "stereo", "majority"]
    lines = [row(name, OPEN, dk.bits(dk.example(name, MIDDLE)), OPEN, dk.bits(dk.example(name, MIDDLE, "cut 1"), "--age", "1")) for name in names]
    yield Part("docs/HARDWARE.md", [sized(MIDDLE), "dk plan p.dk", "dk cut 1 p.dk cut.dk && dk plan --age 1 cut.dk"], lines, head="| Program | line first | columns first |")
    plain = dk.plan(dk.example("gaussian3", MIDDLE))
    costs = [dk.plan(dk.example("gaussian3", MIDDLE, *rewrites), "--age", "1") for rewrites in ((), ("cut 1",))]
    more = [(cost["bits"] - plain["bits"], cost["latency"] - plain["latency"]) for cost in costs]
    yield Part("docs/HARDWARE.md", [sized(MIDDLE, "gaussian3"), "dk plan p.dk, dk plan --age 1 p.dk, and of dk cut 1 p.dk cut.dk"],
               [f"does not fit: {plain['bits']:,} bits in FF", "a register after each image: {} buffer bits and {} clocks of latency more".format(*more[0]),
                "a register after each operator: {} buffer bits and {} clocks of latency more".format(*more[1])])
    said = dk.call("narrow", dk.written("five.dk", FIVE), "five.narrow").strip()
    narrowed = [dk.bits(dk.example("harris", MIDDLE, *rewrites), "--age", "1") for rewrites in (("cut 1",), ("cut 1", "narrow"))]
    yield Part("docs/HARDWARE.md", ["dk narrow p.dk narrow.dk, of the program of the page", f"{sized(MIDDLE, 'harris')}; dk cut 1, dk narrow, dk plan --age 1"],
               [f"so it prints `{said}`", "(harris at 640 by 480, cut 1: {:,} to {:,})".format(*narrowed)])


def circuits(dk):
    """BENCH, the texts of the examples, and the assigns of those that were timed."""
    lines = []
    for name in names_of():
        path = dk.example(name, LARGE)
        plain, block = dk.counts(path), dk.counts(path, "--block 32")
        lines.append(row(name, *plain, *block[:4]))
    yield Part("docs/BENCH.md", [sized(LARGE), "dk compile p.dk p.v", "dk compile --block 32 p.dk p.v"], lines, head="| Program | registers | their bits | assigns |")
    lines = [row(run.name_of(name, rewrites, options), dk.counts(dk.example(name, MIDDLE, *rewrites), " ".join(options))[2], *[OPEN] * 6)
             for name, rewrites, options in run.cases_of_table()]
    yield Part("docs/BENCH.md", [sized(MIDDLE), "dk compile p.dk p.v"], lines, head="| Program | Assigns | `dk` |")


LARGEST = {
    "wide": "one image of 65,535 nodes with 4,096 live reads", "deep": "255 images of 255 nodes", "late": "a latency of {latency:,} clocks",
    "clamp": "one clamped read with 4,096 candidates", "clamps": "the same read 4,096 times",
}
# Their texts take a second, so the quick tests pass them over.
SLOW = ("wide", "deep")


def largest(dk):
    """BENCH, the texts of the largest programs, and the bytes of the shipped program."""
    names = [name for name in LARGEST if dk.whole or name not in SLOW]
    subprocess.run([sys.executable, os.path.join(TOP, "bench", "compile", "make.py"), *names], cwd=dk.dk.folder, check=True)
    lines = []
    for name, title in LARGEST.items():
        if name not in names:
            lines.append(row(f"`{name}`: {title}", *[OPEN] * 7))
            continue
        text = dk.verilog(f"{name}.dk")
        registers, _, assigns, arrays, bits = counts_of(text)
        title = title.format(latency=dk.plan(f"{name}.dk")["latency"]) if "{" in title else title
        lines.append(row(f"`{name}`: {title}", assigns, registers, arrays, bits, f"{len(text):,} bytes", OPEN, OPEN))
    yield Part("docs/BENCH.md", ["python3 bench/compile/make.py", "dk compile NAME.dk p.v"], lines, head="| Program | Assigns | Registers | Arrays | Bits | Text |")
    yield Part("docs/BENCH.md", ["wc -c <bin/dk"], [f"bin/dk has {os.path.getsize(os.path.join(TOP, 'bin', 'dk')) / 1e6:.1f} MB"])


def cuts(dk):
    """CUT: the bits and levels of its programs; CIRCUIT: the text of the first of them."""
    three = dk.cut(dk.written("three.dk", THREE), 1)
    yield Part("docs/CIRCUIT.md", ["dk compile p.dk p.v, of the program of the page"], dk.verilog("three.dk").splitlines(), excerpt="```verilog")
    yield Part("docs/CUT.md", ["dk cut 1 p.dk cut.dk, of the program of the page"], ["`cut: definitions {} levels {}`".format(*three)])
    lines = []
    for title, text in (("sums along the line, inline, read at three rows", ALONG), ("sums down the column, an image, read at three columns", DOWN)):
        path = dk.written(f"{title.split()[1]}.dk", text)
        definitions, levels = dk.cut(path, 1)
        lines.append(row(title, definitions, levels, dk.bits(f"{path}.cut1", "--age", "1"), OPEN))
    yield Part("docs/CUT.md", ["dk cut 1 p.dk cut.dk && dk plan --age 1 cut.dk"], lines, head="| Written as | Definitions | Levels | Buffer bits |")
    bits = {name: [dk.bits(dk.example(name, MIDDLE, *rewrites), "--age", "1") for rewrites in ((), ("cut 1",))]
            for name in names_of()}
    commands = [sized(MIDDLE), "dk plan --age 1 p.dk", "dk cut 1 p.dk cut.dk && dk plan --age 1 cut.dk"]
    yield Part("docs/CUT.md", commands, [row(name, *[OPEN] * 4, *bits[name]) for name in ("gaussian3", "sobel", "median")], head="| Program | `--block 32` | uncut |")
    listed = ", ".join("{} {:,} to {:,}".format(name, *bits[name]) for name in ("harris", "dog", "unsharp", "demosaic"))
    more = [100 * (after / before - 1) for name, (before, after) in bits.items() if name not in ("gaussian3", "sobel", "median") and 640 <= before < after]
    yield Part("docs/CUT.md", commands, [f"need {min(more):.1f} to {max(more):.1f} percent more bits at `cut 1` ({listed})", "Census needs fewer, {:,} to {:,}".format(*bits["census"])])


def pipelines(dk):
    """PIPELINES and DECISIONS: definitions, levels, latency, bits and live reads."""
    placed, limits = [], []
    for name in PIPELINES:
        path = dk.example(f"pipelines/{name}", LARGE)
        before, (definitions, levels), (same, most) = dk.plan(path), dk.cut(path, 1), dk.cut(path, 64)
        narrow = dk.example(f"pipelines/{name}", LARGE, "narrow")
        after, narrowed = dk.plan(dk.example(f"pipelines/{name}", LARGE, "narrow", "cut 1"), "--age", "1"), dk.plan(narrow)
        rows = [row("as written", same, most, before["latency"], before["bits"], *[OPEN] * 3),
                row("`narrow`", *dk.cut(narrow, 64), narrowed["latency"], narrowed["bits"], *[OPEN] * 3),
                row("`narrow`, `cut 1`, age 1", *dk.cut(narrow, 1), after["latency"], after["bits"], *[OPEN] * 3)]
        yield Part("docs/PIPELINES.md", [sized(LARGE, name, "pipelines"), "dk plan p.dk", "dk narrow p.dk n.dk && dk cut 1 n.dk c.dk && dk plan --age 1 c.dk"], rows, head=f"<!-- costs {name} -->")
        placed.append((name, row(name, *[OPEN] * 6, after["bits"], f"{after['bits'] / 18432:.1f}")))
        limits.append(row(name, same, definitions, before["reads"], dk.plan(f"{path}.cut1", "--age", "1")["reads"]))
    yield Part("docs/PIPELINES.md", ["as above"], [line for _, line in sorted(placed)], head="| 1920 by 1080 | COMB | FF |")
    yield Part("docs/DECISIONS.md", ["as above, without narrow"], limits, head="| Program | Definitions, of at most 256 |")


def gallery(dk):
    lines = []
    for name in names_of():
        path = dk.example(name, SMALL)
        _, _, _, arrays, bits = dk.counts(path)
        lines.append(row(name, dk.bits(path), arrays, bits, *[OPEN] * 7))
    yield Part("docs/GALLERY.md", ["dk plan examples/programs/NAME.dk", "dk compile examples/programs/NAME.dk p.v"], lines, head="| Program | Buffer bits by the plan | Memories |")


def page(path):
    with open(os.path.join(TOP, path), encoding="utf-8") as file:
        return file.read()


def cells_of(line):
    return [cell.strip() for cell in line.strip().strip("|").split("|")]


def by_hand():
    """The figures of bench/hand/README.md by filter, device and kind (dk or hand): cells and rates."""
    found = {}
    text = page("bench/hand/README.md")
    for cells in map(cells_of, text.splitlines()):
        if len(cells) in (6, 7) and cells[1] in ("dk", "hand"):
            found[cells[0], "ECP5" if len(cells) == 7 else "iCE40", cells[1]] = cells[2:]
    counts = r"([\d,]+) LUT, ([\d,]+) FF, (\d+) BRAM, (\d+) MUL, (\d+ to \d+) MHz"
    harris = re.search(f"{counts}; by hand {counts}", text).groups()
    found["harris", "ECP5", "dk"], found["harris", "ECP5", "hand"] = harris[:5], harris[5:]
    return found


def middle(rate):
    ends = [int(end) for end in rate.split(" to ")]
    return (ends[0] + ends[-1]) / 2


def beside(own, hand):
    """A cell of BENCH: dk's figure, the one by hand, and the ratio, of rates that of the middles."""
    if own == hand == "0":
        return "0 / 0"
    number = middle if "to" in own + hand else lambda cell: int(cell.replace(",", ""))
    return f"{own} / {hand} = {number(own) / number(hand):.2f}"


def hand(_):
    """BENCH, README and CUT: what bench/hand/README.md has."""
    figures, rows, short = by_hand(), [], []
    names = [name for name, device, kind in figures if device == "ECP5" and kind == "dk"]
    for name in sorted(names, key=lambda name: ("enable" in name, "clamped" in name, "harris" in name)):
        cells, briefs = [], []
        for device in ("iCE40", "ECP5"):
            pair = figures.get((name, device, "dk")), figures.get((name, device, "hand"))
            if pair[0] is None:
                cells, briefs = ["does not fit", "–", "–", "–"], ["does not fit", "–", "–", "–"]
                continue
            cells += [beside(*both) for both in zip(*pair)]
            briefs += [f"{own} / {other}" for own, other in list(zip(*pair))[:3]] + [f"{round(middle(pair[0][-1]))} / {round(middle(pair[1][-1]))}"]
        rows.append(row(name, *cells))
        short += [row(name, *briefs)] * ("," not in name)
    source = ["python3 bench/hand/compare.py --cells, and --family ecp5; bench/hand/README.md has the figures"]
    yield Part("docs/BENCH.md", source, rows, head="| Filter | iCE40 HX8K: LUT | FF |")
    yield Part("README.md", source, short, head="| Filter | iCE40 HX8K: LUT |")
    rates = [figures[name, "ECP5", "dk"][-1] for name in ("gaussian3", "sobel", "median")]
    *_, multipliers, rate = figures["harris", "ECP5", "dk"]
    yield Part("docs/CUT.md", source, ["`cut 1` of gaussian3, sobel and median reaches {}, {} and {} MHz on an ECP5-85".format(*rates),
                                       f"Harris reaches {rate} MHz there with {multipliers} multipliers"])


def placed(_):
    """CUT and HARDWARE: what the tables of placed circuits in GALLERY have."""
    text = page("docs/GALLERY.md")
    today = {cells[0]: cells[1:] for cells in map(cells_of, text.split("### Today's texts")[1].splitlines()) if len(cells) == 5}
    larger = {cells[1]: cells[2:] for cells in map(cells_of, text.split("### On an ECP5")[1].splitlines()) if cells[0] == "640 by 480"}
    source = ["tools/dev/place.py; docs/GALLERY.md, Today's texts and On an ECP5, has the figures"]
    rates = {name: [cell.split(": ")[1][:-4] for cell in today[name]] for name in ("gaussian3", "sobel", "median")}
    yield Part("docs/CUT.md", source, [row(name, *found, OPEN, OPEN) for name, found in rates.items()], head="| Program | `--block 32` | uncut |")
    block, fast, _, cut = today["gaussian3"]
    lines = [row("no options", *[OPEN] * 3), row("`--block 32`", block, *[OPEN] * 2), row("`--age 1 --block 32`", fast, larger["gaussian3"][0], OPEN),
             row("`cut 1`, `--age 1 --block 32`", cut, larger["gaussian3"][1], OPEN), *[row(*[OPEN] * 4)] * 3]
    yield Part("docs/HARDWARE.md", source, lines, head="| Text | iCE40 HX8K | ECP5-85 |")
    yield Part("docs/HARDWARE.md", source, ["gaussian3 at 640 by 480 reaches {3} MHz on an iCE40 HX8K with `cut 1`, and {1} MHz uncut".format(*rates["gaussian3"]),
                                            f"On an ECP5-85 `cut 1` reaches {larger['gaussian3'][1].split(': ')[1]}."])


PARTS = [readme, typed, simulated, packed, columns, circuits, largest, cuts, pipelines, gallery, hand, placed]


def parts(program, whole=True):
    """All parts, by a built program; not whole without what takes long."""
    if not os.access(program, os.X_OK) or os.path.isdir(program):
        sys.exit(f"{kept.TOOL}: {program}: not a program")
    with tempfile.TemporaryDirectory() as folder:
        dk = Measured(program, folder, whole)
        for made in PARTS:
            yield from made(dk)


def table(lines, head):
    """Where the rows of a table are: of the first one at or after the line that begins so, without its head."""
    start = next((at for at, line in enumerate(lines) if line.startswith(head)), len(lines))
    first = next((at + 1 for at in range(start, len(lines)) if lines[at].startswith("|---")), len(lines))
    end = next((at for at in range(first, len(lines)) if not lines[at].startswith("|")), len(lines))
    return range(first, end)


def write(part):
    """Puts the rows of a part into its table; the cells that are open stay."""
    lines = page(part.page).split("\n")
    rows = table(lines, part.head)
    if len(rows) != len(part.lines):
        sys.exit(f"{kept.TOOL}: {part.page} has {len(rows)} rows, not {len(part.lines)}: {part.head}")
    for at, line in zip(rows, part.lines):
        lines[at] = row(*(old if new == OPEN else new for new, old in zip(cells_of(line), cells_of(lines[at]))))
    with open(os.path.join(TOP, part.page), "w", encoding="utf-8") as file:
        file.write("\n".join(lines))


def main(words):
    writes = words[:1] == ["--write"]
    words = words[writes:]
    if len(words) != 1 or words[0].startswith("-"):
        sys.exit(__doc__)
    for part in parts(words[0]):
        if writes and part.head:
            write(part)
        if writes and (part.head or part.excerpt or all(line in page(part.page) for line in part.lines)):
            continue
        print(f"{part.page}, by")
        print("".join(f"    {line}\n" for line in part.commands))
        print("\n".join([part.head] * bool(part.head) + part.lines) + "\n")


if __name__ == "__main__":
    main(sys.argv[1:])
