#!/usr/bin/env python3
"""A test bench in plain Verilog for a text that `compile` wrote, for the simulators of others.

usage: bench.py write VERILOG IN CLOCKS SEED      writes bench.v and in.hex; CLOCKS is what `plan` says for one round
       bench.py write .. --random                 the same, with random contents at power-up, or --zeros or --ones
       bench.py picture VERILOG IN SEEN OUT       the pictures of what the bench saw, as `run` writes them

The bench gives a reset clock and then the clocks that the rounds of IN take. It writes each clock's outputs before
the edge into seen.txt. Where the module has the port `en`, about half of all clocks are held, with other pixels at
the inputs, and the outputs of those stand on lines of their own. With the word +early=K at the simulator, K clocks with
random inputs come before all this, behind a reset clock of their own; nothing is written of them.
"""
import random
import re
import sys


def ports(text):
    """The inputs and outputs with their widths, but for the clock, in the text's order."""
    found = re.findall(r"(input|output) (?:\[(\d+):0\] )?(\w+)", text.split(";", 1)[0])
    sides = {"input": [], "output": []}
    for side, high, name in found:
        sides[side].append((name, int(high or 0) + 1))
    return sides["input"][1:], sides["output"]


def images(content):
    """The images of a file whose headers are three lines: width, height and samples."""
    while content:
        _, size, greatest, rest = content.split(b"\n", 3)
        width, height = map(int, size.split())
        each = 1 if int(greatest) < 256 else 2
        raster, content = rest[:width * height * each], rest[width * height * each:]
        yield width, height, [int.from_bytes(raster[k:k + each], "big") for k in range(0, len(raster), each)]


def write(verilog, image, clocks, seed, contents):
    with open(verilog) as file:
        text = file.read()
    with open(image, "rb") as file:
        pictures = [samples for _, _, samples in images(file.read())]
    inputs, outputs = ports(text)
    dins = [port for port in inputs if port[0].startswith("din")]
    enable = ("en", 1) in inputs
    streams = [sum(pictures[k::len(dins)], []) for k in range(len(dins))]
    pixels = len(streams[0])
    clocks = int(clocks) + pixels - len(pictures[0])
    with open("in.hex", "w") as file:
        for row in zip(*streams):
            file.write(" ".join(f"{sample:x}" for sample in row) + "\n")
    chosen = random.Random(int(seed))
    power_up = []
    for high, name, last in re.findall(r"^  reg (?:\[(\d+):0\] )?(\w+)(?: \[0:(\d+)\])?;", text, re.M) if contents else []:
        wide = int(high or 0) + 1
        for place in [f"[{k}]" for k in range(int(last) + 1)] if last else [""]:
            value = {"zeros": 0, "ones": 2 ** wide - 1, "random": chosen.getrandbits(wide)}[contents]
            power_up.append(f"    dut.{name}{place} = {wide}'h{value:x};")
    shape = "".join(f" {'%0d'}" for _ in outputs).strip()
    shown = ", ".join(name for name, _ in outputs)
    give = [f"      {name} = k < {pixels} ? pixels[k * {len(dins)} + {place}] : 0;" for place, (name, _) in enumerate(dins)]
    if enable:
        give += ["      en = $random(seed);"]
        give += [f"      if (!en) {name} = $random(seed);" for name, _ in dins]
    lines = [
        "module bench;",
        *(f"  reg [{wide - 1}:0] {name};" for name, wide in [("clk", 1), *inputs]),
        *(f"  wire [{wide - 1}:0] {name};" for name, wide in outputs),
        f"  reg [15:0] pixels [0:{pixels * len(dins) - 1}];",
        "  integer k, seed, file, early;",
        f"  dk dut({', '.join(f'.{name}({name})' for name, _ in [('clk', 1), *inputs, *outputs])});",
        "  initial begin",
        '    $readmemh("in.hex", pixels);',
        '    file = $fopen("seen.txt");',
        f"    seed = {seed};",
        *power_up,
        "    clk = 0;",
        "    rst = 1;",
        *(["    en = 0;"] if enable else []),
        *(f"    {name} = 0;" for name, _ in dins),
        '    if (!$value$plusargs("early=%d", early)) early = 0;',
        "    for (k = early; k >= 0 && early > 0; k = k - 1) begin",
        "      #1 clk = 1;",
        "      #1 clk = 0;",
        "      rst = k == 0;",
        *(f"      {name} = $random(seed);" for name, _ in ([("en", 1)] if enable else []) + dins),
        "    end",
        "    #1 clk = 1;",
        "    #1 clk = 0;",
        "    rst = 0;",
        "    k = 0;",
        f"    while (k < {clocks}) begin",
        *give,
        "      #1;",
        f'      $fdisplay(file, "{"%0d " if enable else ""}{shape}", {"en, " if enable else ""}{shown});',
        "      clk = 1;",
        "      #1 clk = 0;",
        "      if (en) k = k + 1;" if enable else "      k = k + 1;",
        "    end",
        "    $finish;",
        "  end",
        "endmodule",
    ]
    with open("bench.v", "w") as file:
        file.write("\n".join(lines) + "\n")


def picture(verilog, image, seen, out):
    with open(verilog) as file:
        inputs, outputs = ports(file.read())
    with open(image, "rb") as file:
        given = list(images(file.read()))
    width, height, _ = given[0]
    rounds = len(given) // sum(name.startswith("din") for name, _ in inputs)
    shown = [[] for _ in outputs[::2]]
    with open(seen) as file:
        for line in file:
            values = line.split()
            if ("en", 1) in inputs and values.pop(0) == "0":
                if "1" in values[::2]:
                    sys.exit(f"valid in a held clock: {line}")
                continue
            for samples, valid, sample in zip(shown, values[::2], values[1::2]):
                if valid == "1":
                    samples.append(int(sample))
    area = width * height
    with open(out, "wb") as file:
        for k in range(rounds):
            for samples, (_, wide) in zip(shown, outputs[1::2]):
                file.write(b"P5\n%d %d\n%d\n" % (width, height, 2 ** wide - 1))
                raster = samples[k * area:(k + 1) * area]
                file.write(b"".join(sample.to_bytes(1 if wide <= 8 else 2, "big") for sample in raster))


if sys.argv[1] == "write":
    write(*sys.argv[2:6], "".join(sys.argv[6:]).lstrip("-"))
else:
    picture(*sys.argv[2:])
