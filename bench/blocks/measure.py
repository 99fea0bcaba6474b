#!/usr/bin/env python3
"""usage: measure.py PROGRAM[,PROGRAM ..] [TEXT ..]: the nanoseconds of a clock and of an assign, by blocks and one clock at a
time, of the modules of some Verilog texts and of those that it writes: processor time, the least of seven runs, all in turn,
the time of a run of no clocks taken off. Further programs, as builds with another length of blocks, are run by blocks alone.
It stops where two of them give other outputs."""
import os
import re
import subprocess
import sys
import tempfile

RUNS = 7
CLOCKS = 640


def module(file, enable, declared, assigns, updates, dout):
    ports = "input en, " if enable else ""
    file.write(f"module m(input clk, input rst, {ports}input [7:0] din, output valid, output [7:0] dout);\n")
    file.writelines(f"  {line};\n" for line in declared + assigns + ["assign valid = ~rst", f"assign dout = {dout}"])
    file.write("  always @(posedge clk) begin\n")
    file.writelines(f"    {line};\n" for line in updates)
    file.write("  end\nendmodule\n")


def chain(count, first):
    """A chain of sums of 8 bits: what is declared, and the assigns."""
    left = [first] + [f"n{k}" for k in range(count - 1)]
    return [f"wire [7:0] n{k}" for k in range(count)], [f"assign n{k} = {left[k]} + din" for k in range(count)]


def write_hard(room):
    """The modules that blocks do not serve, or hardly."""
    made = {}

    def add(name, *parts):
        made[name] = f"{room}/{name}.v"
        with open(made[name], "w", encoding="utf-8") as file:
            module(file, *parts)

    wires, sums = chain(1000, "r")
    add("chain of 1,000 sums around a register", False, ["reg [7:0] r"] + wires, sums, ["r <= n999"], "r")
    wires, sums = chain(1000, "din")
    add("chain of 1,000 sums", False, ["reg [7:0] r"] + wires, sums, ["r <= din"], "n999")
    add("one register that feeds itself", False, ["reg [7:0] r", "wire [7:0] n"], ["assign n = r + din"], ["r <= n"], "r")
    wires, sums = chain(100, "r")
    held = ["assign h = en ? n99 : r", "assign g = rst ? 8'd0 : h"]
    add("chain of 100 sums around a register with en", True, ["reg [7:0] r", "wire [7:0] h", "wire [7:0] g"] + wires, sums + held, ["r <= g"], "r")
    wires, sums = chain(100, "w")
    twice = ["assign w = m0[r]", "assign v = m0[8'd3]"]
    add("array read by two assigns, 100 sums", False, ["reg [7:0] r", "reg [7:0] m0 [0:255]", "wire [7:0] w", "wire [7:0] v"] + wires, twice + sums, ["r <= din", "m0[r] <= v"], "n99")
    return made


def timed(program, text, words):
    """The processor time of a run, and what it prints."""
    with open(text, "rb") as given:
        child = subprocess.Popen([program, *words], stdin=given, stdout=subprocess.PIPE)
        said = child.stdout.read()
        _, status, used = os.wait4(child.pid, 0)
    if status:
        sys.exit(f"{program} ended with {status}")
    return used.ru_utime + used.ru_stime, said


def measure(programs, text, held, count):
    """The least nanoseconds of a clock, of each program and way."""
    words = ["held"] * held
    least, said = {}, set()
    for _ in range(RUNS):
        for name, program in programs.items():
            for way in ["blocks", "steps"] if name == list(programs)[0] else ["blocks"]:
                none, _ = timed(program, text, [way, "0", *words])
                some, sum_of = timed(program, text, [way, str(count), *words])
                said.add(sum_of)
                spent = 1e9 * (some - none) / (count * CLOCKS)
                key = f"{name} {way}" if way == "blocks" else way
                least[key] = min(least.get(key, spent), spent)
    if len(said) > 1:
        sys.exit(f"{text}: the outputs are others")
    return least


def main():
    programs = {os.path.basename(it): os.path.abspath(it) for it in sys.argv[1].split(",")}
    with tempfile.TemporaryDirectory() as room:
        texts = {os.path.basename(it)[:-2]: it for it in sys.argv[2:]}
        texts.update(write_hard(room))
        for name, text in texts.items():
            source = open(text, encoding="utf-8").read()
            assigns = source.count("assign ")
            count = max(50, 200_000 // (assigns + 20))
            for held in [False, True] if "input en" in source else [False]:
                least = measure(programs, text, held, count)
                told = "; ".join(f"{way} {spent:.0f} ns a clock, {spent / assigns:.2f} an assign" for way, spent in least.items())
                print(f"{name}, {assigns} assigns{', a fourth of the clocks held' * held}: {told}", flush=True)


main()
