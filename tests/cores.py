#!/usr/bin/env python3
"""Runs the target `sim` of a core file that tools/axis wrote, as FuseSoC would: it collects the files of the core and of the cores that
it depends on, copies them into a new folder, builds the toplevel there and runs it with the defaults of the parameters.
With `lint` it runs the target `lint` of a core file of a block, which must pass without a warning.
It reads only the keys that these core files have. It needs PyYAML.

usage: cores.py BENCH.core TOOL    TOOL: icarus or verilator
       cores.py BLOCK.core lint
"""
import glob
import os
import shutil
import subprocess
import sys
import tempfile

import yaml


def read(path):
    with open(path) as file:
        return yaml.safe_load(file)


def files_of(core, target, cores):
    """The files of a target with their places in the work folder, those of the cores it depends on first."""
    folder = os.path.dirname(cores[core["name"]])
    for fileset in core["targets"][target]["filesets"]:
        part = core["filesets"][fileset]
        for other in part.get("depend", []):
            yield from files_of(read(cores[other]), "default", cores)
        for entry in part["files"]:
            name, how = (entry, {}) if isinstance(entry, str) else next(iter(entry.items()))
            yield os.path.join(folder, name), how.get("copyto", name), how.get("file_type", part["file_type"])


def main(path, tool):
    path = os.path.abspath(path)
    cores = {read(other)["name"]: other for other in glob.glob(os.path.join(os.path.dirname(path), "*.core"))}
    core = read(path)
    lint = tool == "lint"
    target = core["targets"]["lint" if lint else "sim"]
    options = target["tools"][target["default_tool"] if lint else tool]
    plusargs = [f"+{name}={core['parameters'][name]['default']}" for name in target.get("parameters", []) if core["parameters"][name]["paramtype"] == "plusarg"]
    with tempfile.TemporaryDirectory() as work:
        sources = []
        for source, place, kind in files_of(core, "lint" if lint else "sim", cores):
            os.makedirs(os.path.dirname(os.path.join(work, place)), exist_ok=True)
            shutil.copy(source, os.path.join(work, place))
            sources += [place] if kind == "verilogSource" else []
        top = target["toplevel"]
        if lint:
            steps = [["verilator", f"--{options['mode']}", *sources, "--top-module", top]]
        elif tool == "icarus":
            steps = [["iverilog", f"-s{top}", "-obench", *options["iverilog_options"], *sources], ["vvp", "-n", "bench", *plusargs]]
        else:
            steps = [["verilator", "--Mdir", ".", f"--{options['mode']}", *options["verilator_options"], *sources, "--top-module", top],
                     ["make", "-s", "-f", f"V{top}.mk"], [f"./V{top}", *plusargs]]
        for step in steps:
            said = subprocess.run(step, cwd=work, stdout=subprocess.PIPE, stderr=subprocess.STDOUT, text=True)
            if said.returncode:
                sys.exit(f"cores: {' '.join(step)}: {said.stdout[-1000:]}")
    if lint and said.stdout or not lint and "passed in" not in said.stdout or "FAILED" in said.stdout:
        sys.exit(f"cores: {os.path.basename(path)} under {tool}: {said.stdout[-1000:]}")


main(*sys.argv[1:])
