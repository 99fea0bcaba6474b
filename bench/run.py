#!/usr/bin/env python3
"""`run` beside Verilator's compiled model of the text that `compile` prints, with one picture and in one run of this script.

usage: python3 bench/run.py DK --table [NAME..] [--runs N] [--keep FOLDER]
       python3 bench/run.py DK [WIDTH HEIGHT [NAME]] [--block N] [--enable] [--hold K] [--other DK] [--no-icarus] [--runs N]

--table measures all examples and pipelines at 640 by 480, and two examples after `cut 1` and after `widen 4`, with the times of `eval`,
and prints a table, or the rows of some. --keep keeps the models in FOLDER, and takes those of equal texts from there.
Else it takes the 3 by 3 Gaussian of the examples, or another example at another size; pipelines/NAME is one of examples/pipelines.
With --block or --enable the text is compiled so, and `sim` clocks it in place of `run`, with --hold K held clocks among the
others. --other is a further program, as an earlier build. Icarus Verilog runs once.

The model is built by gcc and by clang, each with -O3 -march=native, and dk is compared with the faster one. The script reads back from
the models which flags their parts got, and stops where that is not -O3 for each: the makefile of Verilator sets -Os by itself.
The pixels of all inputs are random. Times are processor times with reading and writing the files, the least of some runs in turn;
compile times do not count. A ratio is the median of those of the runs in turn. It stops where two pictures differ.
"""
import argparse
import array
import glob
import hashlib
import os
import re
import shutil
import subprocess
import sys
import tempfile

sys.dont_write_bytecode = True
import machine  # noqa: E402

HERE = os.path.dirname(os.path.abspath(__file__))
EXAMPLES = os.path.join(HERE, "..", "examples")
HARNESS = """
#include "Vm.h"
#include "verilated.h"
#include <cstdio>
#include <vector>
static const long pixels = %(pixels)d;
static std::vector<unsigned short> in(pixels * %(inputs)d);
static std::vector<unsigned char> out[%(outputs)d];
static long used[%(outputs)d];
// the inputs are those of a pixel, zeros for -1, and ones for -2
static inline void clock(Vm &m, bool rst, bool en, long pixel) {
    m.clk = 0;
    m.rst = rst;
    %(enable)s;
%(dins)s    m.eval();
%(shown)s    m.clk = 1;
    m.eval();
}
// By itself it is compiled for speed: what is inlined in main, which runs once, is compiled for size.
__attribute__((noinline)) static void frame(Vm &m) {
    clock(m, true, true, -1);
    for (long k = 0, run = 0; k < %(clocks)dL; k++) {
        clock(m, false, true, k < pixels ? k : -1);
        if (++run == %(hold)d) {
            clock(m, false, false, -2);
            run = 0;
        }
    }
}
int main() {
    FILE *f = fopen("raster", "rb");
    if (fread(in.data(), 2, in.size(), f) != in.size()) return 1;
    fclose(f);
    for (auto &bytes : out) bytes.resize(2 * pixels);
    Vm m;
    frame(m);
    f = fopen("verilated", "wb");
    for (int k = 0; k < %(outputs)d; k++) fwrite(out[k].data(), 1, used[k], f);
    fclose(f);
}
"""


def shown(number, bits):
    """The line of the harness that keeps the samples of an output, as a raster has them."""
    name = str(number) if number else ""
    size = 1 if bits <= 8 else 2
    high = f"out[{number}][used[{number}]++] = m.dout{name} >> 8; " if size == 2 else ""
    return f"    if (m.valid{name} && used[{number}] < {size} * pixels) {{ {high}out[{number}][used[{number}]++] = m.dout{name} & 255; }}\n"


def taken(number, bits, inputs):
    """The line of the harness that sets an input."""
    name = str(number) if number else ""
    return f"    m.din{name} = pixel >= 0 ? in[pixel * {inputs} + {number}] : pixel == -1 ? 0 : {(1 << bits) - 1};\n"


def make_images(widths, width, height):
    """Random images for inputs of these widths: g.pgm has them one after another, and raster the samples of each pixel in turn."""
    pixels = width * height
    planes = [array.array("H", os.urandom(2 * pixels)) for _ in widths]
    planes = [array.array("H", (sample & (1 << bits) - 1 for sample in plane)) for bits, plane in zip(widths, planes)]
    with open("raster", "wb") as file:
        array.array("H", (sample for pixel in zip(*planes) for sample in pixel)).tofile(file)
    with open("g.pgm", "wb") as file:
        for bits, plane in zip(widths, planes):
            file.write(b"P5\n%d %d\n%d\n" % (width, height, (1 << bits) - 1))
            if bits > 8:
                plane = array.array("H", plane)
                plane.byteswap()
                file.write(plane.tobytes())
            else:
                file.write(bytes(plane.tolist()))


def rasters(file):
    """The rasters of a file of images, one after the other."""
    found = b""
    while file:
        magic, size, maxval, rest = file.split(b"\n", 3)
        width, height = map(int, size.split())
        length = width * height * (1 if int(maxval) < 256 else 2)
        found, file = found + rest[:length], rest[length:]
    return found


def content(path):
    with open(path, "rb") as file:
        return file.read()


def write(path, text):
    with open(path, "w", encoding="utf-8") as file:
        file.write(text)


class Case:
    """A program in a folder of its own, with its text, its input and Verilator's models of it."""

    def __init__(self, dk, example, size, rewrites=(), options=(), hold=0):
        self.dk, self.example, self.rewrites, self.options, self.hold = dk, example, rewrites, options, hold
        folder = EXAMPLES if "/" in example else os.path.join(EXAMPLES, "programs")
        if not os.path.exists(f"{folder}/{example}.dk"):
            machine.stop(f"no example {example}")
        write("g.dk", re.sub(r"^size .*", f"size {size[0]} {size[1]}", content(f"{folder}/{example}.dk").decode(), flags=re.M))
        for words in rewrites:
            machine.quiet(dk, *words.split(), "g.dk", "new.dk")
            os.replace("new.dk", "g.dk")
        text = content("g.dk").decode()
        self.width, self.height = map(int, re.search(r"^size (\d+) (\d+)", text, re.M).groups())
        self.widths = [int(bits) for bits in re.findall(r"^input \w+ *: *u(\d+)", text, re.M)]
        self.pixels = self.width * self.height
        machine.quiet(dk, "compile", *options, "g.dk", "g.v")
        self.verilog = content("g.v").decode()
        age = options[options.index("--age"):][:2] if "--age" in options else []
        self.clocks = int(re.search(r"^clocks (\d+)$", machine.quiet(dk, "plan", *age, "g.dk"), re.M)[1])
        self.assigns = len(re.findall(r"^ *assign ", self.verilog, re.M))

    def call(self):
        held = ["--hold", str(self.hold)] * bool(self.hold)
        return ["sim", "g.v", str(self.clocks), "g.pgm", "own.pgm", *held] if self.options else ["run", "g.dk", "g.pgm", "own.pgm"]

    def name(self):
        return name_of(self.example, self.rewrites, self.options)

    def harness(self):
        """The C++ text that clocks the model."""
        outputs = [int(bits or 0) + 1 for bits in re.findall(r"output (?:\[(\d+):0\] )?dout\d?", self.verilog)]
        inputs = [int(bits or 0) + 1 for bits in re.findall(r"input (?:\[(\d+):0\] )?din\d?", self.verilog)]
        parts = {"pixels": self.pixels, "clocks": self.clocks, "hold": self.hold, "inputs": len(inputs), "outputs": len(outputs)}
        parts["shown"] = "".join(shown(k, bits) for k, bits in enumerate(outputs))
        parts["dins"] = "".join(taken(k, bits, len(inputs)) for k, bits in enumerate(inputs))
        return HARNESS % {**parts, "enable": "m.en = en" if "--enable" in self.options else "(void)en"}

    def verilate(self, compiler, keep=None):
        """Builds the model by a compiler, as Vm_gcc or Vm_clang, with -O3 for each part. Returns its flags, as the compiler has recorded them."""
        write("m.cpp", self.harness())
        model, folder, mark = f"Vm_{compiler}", f"obj_{compiler}", hashlib.sha256((self.verilog + self.harness()).encode()).hexdigest()
        kept = keep and os.path.join(keep, f"{mark}_{compiler}")
        if kept and os.path.exists(kept):
            shutil.copy(kept, model)
            return machine.check_flags(model)
        top = re.search(r"module (\w+)", self.verilog)[1]
        machine.quiet("verilator", "-O3", "--x-assign", "fast", "--x-initial", "fast", "--noassert", "-Wno-fatal", "--cc", "--exe",
                      "--Mdir", folder, "--prefix", "Vm", "--top-module", top, "g.v", "m.cpp")
        name = machine.COMPILERS[compiler][1]
        parts = [f"{part}={' '.join(machine.FLAGS)}" for part in ("OPT_FAST", "OPT_SLOW", "OPT_GLOBAL")]
        # Verilator's own part is the same for each model, and takes longest.
        for part in glob.glob(f"../runtime_{compiler}/*.o"):
            shutil.copy(part, folder)
        machine.quiet("make", "-C", folder, "-f", "Vm.mk", f"CXX={name}", f"LINK={name}", *parts)
        os.makedirs(f"../runtime_{compiler}", exist_ok=True)
        for part in glob.glob(f"{folder}/verilated*.o"):
            shutil.copy(part, f"../runtime_{compiler}")
        os.replace(f"{folder}/Vm", model)
        flags = machine.check_flags(model)
        if kept:
            shutil.copy(model, kept)
        return flags

    def measure(self, runs, others=()):
        """The times of dk, of other commands, and of each model, in turn. Stops where a model has another picture."""
        make_images(self.widths, self.width, self.height)
        models = sorted(glob.glob("Vm_*"))
        times = machine.in_turn([[self.dk, *self.call()], *others, *(["./" + model] for model in models)], runs)
        expected = rasters(content("own.pgm"))
        for model in models:
            machine.timed("./" + model)
            if content("verilated") != expected:
                machine.stop(f"{self.name()}: the picture of {model} is another one")
        return times[:-len(models)] if models else times, dict(zip(models, times[len(times) - len(models):]))


def fastest(models):
    """The model of the least time, with its times."""
    return min(models.items(), key=lambda it: min(it[1]))


def icarus(case, own):
    """Runs Icarus Verilog once, and compares its picture."""
    bench = [sys.executable, f"{HERE}/../tests/bench.py"]
    machine.quiet(*bench, "write", "g.v", "g.pgm", str(case.clocks), "1")
    machine.quiet("iverilog", "-g2005", "-o", "bench.vvp", "bench.v", "g.v")
    other = sum(machine.timed("vvp", "-n", "bench.vvp", stdout=subprocess.DEVNULL)[:2])
    machine.quiet(*bench, "picture", "g.v", "g.pgm", "seen.txt", "seen.pgm")
    if content("seen.pgm") != content("own.pgm"):
        machine.stop("the picture of Icarus is another one")
    print(f"Icarus Verilog: {other:.3f} s; dk takes {other / own:.0f} times less")


def name_of(example, rewrites, options):
    return ", ".join([example, *rewrites, *[" ".join(options)] * bool(options)])


def cases_of_table():
    """The programs of the table: what is measured, with the rewriting commands and the options of compile."""
    names = sorted(os.path.basename(path)[:-3] for path in glob.glob(f"{EXAMPLES}/programs/*.dk"))
    names += sorted("pipelines/" + os.path.basename(path)[:-3] for path in glob.glob(f"{EXAMPLES}/pipelines/*.dk"))
    fast = ("--age", "1", "--block", "32")
    return [(name, (), ()) for name in names] + [(name, (rewrite,), fast) for rewrite in ("cut 1", "widen 4") for name in ("gaussian3", "harris")]


def table(given, dk, room):
    """All rows: first every model is built, and then every one is measured, so that no compiler runs beside a measure."""
    rows, flags = [], set()
    for number, (name, rewrites, options) in enumerate(case for case in cases_of_table() if case[0] in given.size or not given.size):
        os.mkdir(f"{room}/{number}")
        os.chdir(f"{room}/{number}")
        case = Case(dk, name, (640, 480), rewrites, options)
        flags |= {f"{compiler} {case.verilate(compiler, given.keep)}" for compiler in machine.compilers()}
        rows.append((number, case))
    if given.build:
        return
    print(machine.described("verilator"))
    print(f"models by {', '.join(sorted(flags))}\n")
    print("| Program | Assigns | `dk` | ns a clock | gcc | clang | `dk` beside the faster | `eval` |\n" + "|---" * 8 + "|")
    for number, case in rows:
        os.chdir(f"{room}/{number}")
        (own, evaluated), models = case.measure(given.runs, [[dk, "eval", "g.dk", "g.pgm", "eval.pgm"]])
        if content("eval.pgm") != content("own.pgm"):
            machine.stop(f"{case.name()}: the picture of eval is another one")
        times = [f"{min(models[model]):.3f} s" if model in models else "–" for model in ("Vm_gcc", "Vm_clang")]
        beside = machine.ratio(own, fastest(models)[1])
        print(f"| {case.name()} | {case.assigns:,} | {min(own):.3f} s | {1e9 * min(own) / case.clocks:,.0f} | {' | '.join(times)} | {beside:.2f} times | {min(evaluated):.3f} s |", flush=True)


def single(given, dk, room):
    """One program."""
    os.mkdir(f"{room}/0")
    os.chdir(f"{room}/0")
    size = tuple(map(int, given.size[:2] or (640, 480)))
    options = (*["--block", given.block][:2 * bool(given.block)], *["--enable"] * given.enable)
    case = Case(dk, given.size[2] if len(given.size) > 2 else "gaussian3", size, (), options, given.hold)
    flags = {f"Vm_{compiler}": case.verilate(compiler, given.keep) for compiler in machine.compilers()} if shutil.which("verilator") else {}
    others, models = case.measure(given.runs, [[os.path.abspath(given.other), *case.call()]] if given.other else [])
    own = others[0]
    print(f"{machine.described('verilator')}\ndk {case.call()[0]}: {min(own):.3f} s, {1e9 * min(own) / case.clocks:.0f} ns a clock")
    named = [("the other program", other) for other in others[1:]]
    named += [(f"Verilator, {model[3:]} {flags[model]}", times) for model, times in models.items()]
    for name, times in named:
        print(f"{name}: {min(times):.3f} s; dk takes {min(own) / min(times):.2f} times as long, by the median of ratios {machine.ratio(own, times):.2f}")
    if shutil.which("iverilog") and case.pixels <= 640 * 480 and len(case.widths) == 1 and not options and not given.no_icarus:
        icarus(case, min(own))


def arguments():
    """The words of the call."""
    words = argparse.ArgumentParser(description=__doc__, formatter_class=argparse.RawDescriptionHelpFormatter)
    words.add_argument("dk")
    words.add_argument("size", nargs="*")
    words.add_argument("--table", action="store_true")
    words.add_argument("--keep")
    words.add_argument("--build", action="store_true", help="with --table and --keep: only builds the models")
    words.add_argument("--block")
    words.add_argument("--enable", action="store_true")
    words.add_argument("--hold", type=int, default=0)
    words.add_argument("--other")
    words.add_argument("--no-icarus", action="store_true")
    words.add_argument("--runs", type=int, default=7)
    given = words.parse_intermixed_args()
    unknown = set(given.size) - {case[0] for case in cases_of_table()}
    if given.table and unknown:
        words.error(f"no row of the table: {', '.join(sorted(unknown))}")
    if not given.table and given.size and not (len(given.size) in (2, 3) and all(map(str.isdecimal, given.size[:2]))):
        words.error("a size is WIDTH HEIGHT, and NAME may follow")
    if given.runs < 1:
        words.error("--runs is 1 at least")
    return given


def main():
    given = arguments()
    for tool in [given.dk] + ["readelf"] * bool(given.table or shutil.which("verilator")) + ["verilator", "make"] * given.table:
        shutil.which(tool) or machine.stop(f"{tool} is not a program that is installed")
    if given.keep:
        given.keep = os.path.abspath(given.keep)
        os.makedirs(given.keep, exist_ok=True)
    with tempfile.TemporaryDirectory() as room:
        (table if given.table else single)(given, os.path.abspath(given.dk), room)


if __name__ == "__main__":
    main()
