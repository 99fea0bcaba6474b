#!/usr/bin/env python3
"""Makes skip.txt, a report of skip.dk, by the linear programming kit GLPK: it knows dk's report by docs/REPORT.md alone.
It minimises the buffer bits over delays and ends, and takes the flow from the dual values of the rows.
usage: tests/reports/glpk.py   (needs glpsol of the Debian package glpk-utils)"""
import os
import subprocess
import tempfile

here = os.path.dirname(os.path.abspath(__file__))
WIDTH, HEIGHT, AGE = 16, 8, 0
# name, width in bits; the input first
IMAGES = [("a", 8), ("across", 10), ("blurred", 8), ("detail", 8)]
INPUTS = 1
# reader, source, dx, dy: in the order of reader, source, dy, dx
READS = [(1, 0, -1, 0), (1, 0, 0, 0), (1, 0, 1, 0), (2, 1, 0, -1), (2, 1, 0, 0), (2, 1, 0, 1), (3, 0, 0, 0), (3, 2, 0, 0)]
OUTPUTS = [3]


def offset(read):
    return read[3] * WIDTH + read[2]


def begin(k):
    return "b0" if k < INPUTS else f"b{k}"


def end(k):
    return f"e{k}"


def constraints():
    """Each with its words in a report, and target, source and cost: target less source is at least cost."""
    names = [name for name, _ in IMAGES]
    for k, name in enumerate(names):
        yield f"hold {name}", end(k), begin(k), 0
    for k in range(INPUTS, len(IMAGES)):
        yield f"start {names[k]}", begin(k), "b0", 0
    for kind in ("read", "keep"):
        for read in READS:
            f, g, dx, dy = read
            words = f"{kind} {names[f]} {names[g]} {dx} {dy}"
            if kind == "read":
                yield words, begin(f), begin(g), offset(read) + AGE
            else:
                yield words, end(g), begin(f), -offset(read)


def solve():
    """The values of the variables, and the dual value of each constraint."""
    rows = list(constraints())
    terms = {}
    for k, (_, width) in enumerate(IMAGES):
        terms[end(k)] = terms.get(end(k), 0) + width
        terms[begin(k)] = terms.get(begin(k), 0) - width
    with tempfile.TemporaryDirectory() as folder:
        model, answer = f"{folder}/model.lp", f"{folder}/answer.txt"
        with open(model, "w") as file:
            file.write("Minimize\n bits: " + " ".join(f"{c:+d} {v}" for v, c in terms.items()) + "\nSubject To\n")
            for k, (_, target, source, cost) in enumerate(rows):
                file.write(f" r{k}: {target} - {source} >= {cost}\n")
            file.write(" at0: b0 = 0\nEnd\n")
        subprocess.run(["glpsol", "--lp", model, "-w", answer], check=True, stdout=subprocess.DEVNULL)
        with open(answer) as file:
            lines = [line.split() for line in file]
    duals = [float(line[4]) for line in lines if line[0] == "i"]
    values = [float(line[3]) for line in lines if line[0] == "j"]
    names = list(terms)
    return rows, {name: round(value) for name, value in zip(names, values)}, [round(dual) for dual in duals]


def main():
    rows, values, flows = solve()
    delays = [values[begin(k)] for k in range(len(IMAGES))]
    depths = [max([delays[f] - delays[g] - offset((f, g, dx, dy)) for f, g, dx, dy in READS if g == k], default=0) for k in range(len(IMAGES))]
    bits = sum(width * depth for (_, width), depth in zip(IMAGES, depths))
    latencies = [delays[k] for k in OUTPUTS]
    lines = ["plan 2", "limits 67108864 67108864", f"age {AGE}", f"size {WIDTH} {HEIGHT}"]
    lines += [f"image {name} {width} {delays[k]} {depths[k]}" for k, (name, width) in enumerate(IMAGES)]
    lines += [f"latency {latency}" for latency in latencies]
    lines += [f"clocks {WIDTH * HEIGHT + max(latencies)}", f"bits {bits}", f"reads {len(READS)}"]
    lines += [f"flow {row[0]} {flow}" for row, flow in zip(rows, flows) if flow > 0]
    lines += ["end"]
    with open(f"{here}/skip.txt", "w") as file:
        file.write("\n".join(lines) + "\n")


main()
