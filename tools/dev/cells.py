#!/usr/bin/env python3
"""Synthesizes the Verilog texts of the examples by Yosys and prints the table of docs/GALLERY.md.

usage: tools/dev/cells.py PROGRAM [NAME..]      NAME is an example without `.dk`; all examples by default
"""
import glob
import json
import os
import subprocess
import sys
import tempfile

EXAMPLES = os.path.join(os.path.dirname(os.path.dirname(os.path.dirname(os.path.abspath(__file__)))), "examples")

# Gates of one and two inputs, choices and flip-flops; memories are left whole.
GATES = ("read_verilog dk.v; hierarchy -check -top dk; proc; opt_clean; tee -q -o memories.json stat -json; "
         "synth -run begin:fine; opt -full; techmap; opt -fast; abc -fast; opt -fast; clean; tee -q -o gates.json stat -json")
ECP5 = "read_verilog dk.v; synth_ecp5 -top dk; tee -q -o ecp5.json stat -json"


def counted(name):
    with open(name) as file:
        return json.load(file)["design"]


def paths_of(names):
    """The files of these examples, or of all."""
    paths = sorted(glob.glob(os.path.join(EXAMPLES, "programs", "*.dk")))
    known = {os.path.basename(path)[:-3]: path for path in paths}
    unknown = [name for name in names if name not in known]
    if unknown:
        sys.exit(f"cells: no example {', '.join(unknown)}; there are: {' '.join(known)}")
    return [known[name] for name in names] or paths


def print_table(program, paths):
    print("| Program | Buffer bits by the plan | Memories | Memory bits | Gates | Flip-flops | ECP5: LUT4 | CCU2C | TRELLIS_FF | TRELLIS_DPR16X4 | DP16KD |")
    print("|---|---|---|---|---|---|---|---|---|---|---|")
    for path in paths:
        subprocess.run([program, "compile", path, "dk.v"], check=True)
        plan = subprocess.run([program, "plan", path], check=True, capture_output=True, text=True).stdout
        bits = next(line.split()[1] for line in plan.splitlines() if line.startswith("bits "))
        for script in (GATES, ECP5):
            subprocess.run(["yosys", "-q", "-p", script], check=True, stdout=subprocess.DEVNULL, stderr=subprocess.DEVNULL)
        memories, gates, ecp5 = counted("memories.json"), counted("gates.json")["num_cells_by_type"], counted("ecp5.json")["num_cells_by_type"]
        flops = sum(count for kind, count in gates.items() if "DFF" in kind)
        plain = sum(count for kind, count in gates.items() if "DFF" not in kind and not kind.startswith("$mem"))
        mapped = [ecp5.get(kind, 0) for kind in ("LUT4", "CCU2C", "TRELLIS_FF", "TRELLIS_DPR16X4", "DP16KD")]
        name = os.path.basename(path)[:-3]
        print("|", " | ".join(f"{cell:,}" if isinstance(cell, int) else cell for cell in [name, f"{int(bits):,}", memories["num_memories"], memories["num_memory_bits"], plain, flops, *mapped]), "|", flush=True)


if len(sys.argv) < 2 or sys.argv[1].startswith("-"):
    sys.exit(__doc__.strip())
PROGRAM, PATHS = os.path.abspath(sys.argv[1]), paths_of(sys.argv[2:])
with tempfile.TemporaryDirectory() as WORK:
    os.chdir(WORK)
    print_table(PROGRAM, PATHS)
