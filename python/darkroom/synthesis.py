"""Cells and clock rates of a Verilog text, by Yosys and nextpnr where they are installed.

A figure is what these programs find for this text. Another version of them may find another one.
"""
from __future__ import annotations

import json
import re
import shutil
import subprocess
import tempfile
from dataclasses import dataclass
from pathlib import Path
from typing import Mapping, Sequence

from .failures import MissingTool

SECONDS = 600


@dataclass(frozen=True)
class Device:
    """A device: how Yosys and nextpnr are called for it, and which of their cells are of which kind."""

    synthesis: str
    place: Sequence[str]
    package: str
    luts: frozenset[str]
    flip_flops: str
    carries: Mapping[str, int]
    memories: frozenset[str]
    multipliers: frozenset[str]


DEVICES: Mapping[str, Device] = {
    "HX8K": Device("synth_ice40 -top top", ("nextpnr-ice40", "--hx8k", "--package", "ct256", "--pcf-allow-unconstrained"),
                   "nextpnr-ice40", frozenset({"SB_LUT4"}), "SB_DFF", {"SB_CARRY": 1}, frozenset({"SB_RAM40_4K"}),
                   frozenset({"SB_MAC16"})),
    "ECP5-85": Device("synth_ecp5 -top top", ("nextpnr-ecp5", "--85k", "--lpf-allow-unconstrained"),
                      "nextpnr-ecp5", frozenset({"LUT4"}), "TRELLIS_FF", {"CCU2C": 2}, frozenset({"DP16KD"}),
                      frozenset({"MULT18X18D"})),
}


@dataclass(frozen=True)
class Cells:
    """The cells of a text on a device, before placement. `tool` is the program and the version that counted them."""

    device: str
    tool: str
    luts: int
    flip_flops: int
    carries: int
    memories: int
    multipliers: int


@dataclass(frozen=True)
class Placed:
    """The greatest clock rate in MHz that nextpnr finds for each seed. `tool` is its version."""

    device: str
    tool: str
    rates: tuple[float, ...]


class ToolError(Exception):
    """A program of others that failed or took too long. The text is one line."""


def cells(verilog: str, device: str = "HX8K") -> Cells:
    """The cells of a text that `compile` wrote, by Yosys.

    Raises ValueError for an unknown device, `MissingTool` without Yosys, `ToolError` if it fails or needs more than ten
    minutes.
    """
    kind = _device(device)
    with tempfile.TemporaryDirectory(prefix="darkroom-") as folder:
        counted = _synthesize(verilog, kind, Path(folder), wrapped=False)
        return Cells(
            device, _version(["yosys", "-V"]), _sum(counted, kind.luts),
            sum(number for name, number in counted.items() if name.startswith(kind.flip_flops)),
            sum(number * kind.carries[name] for name, number in counted.items() if name in kind.carries),
            _sum(counted, kind.memories), _sum(counted, kind.multipliers))


def place(verilog: str, device: str = "HX8K", seeds: int = 1) -> Placed:
    """The clock rates of a text that `compile` wrote, by Yosys and nextpnr, for the seeds 1 to `seeds`.

    Each port but the clock passes a register, so that the rate is that of the module only. Raises as `cells`.
    """
    kind = _device(device)
    if not 1 <= seeds <= 100:
        raise ValueError(f"seeds is 1 to 100, not {seeds}")
    _find(kind.place[0], kind.package)
    with tempfile.TemporaryDirectory(prefix="darkroom-") as folder:
        _synthesize(verilog, kind, Path(folder), wrapped=True)
        rates = tuple(_rate(kind, Path(folder), seed) for seed in range(1, seeds + 1))
        return Placed(device, _version([kind.place[0], "--version"]), rates)


def is_installed(tool: str) -> bool:
    """Whether the search path has this program."""
    return shutil.which(tool) is not None


def _device(name: str) -> Device:
    if name not in DEVICES:
        raise ValueError(f"there is no device {name!r}: the devices are {', '.join(DEVICES)}")
    return DEVICES[name]


def _find(tool: str, package: str) -> str:
    found = shutil.which(tool)
    if found is None:
        raise MissingTool(tool, package)
    return found


def _run(words: Sequence[str], folder: Path) -> str:
    """What a program writes to both of its outputs."""
    try:
        done = subprocess.run(words, cwd=folder, stdin=subprocess.DEVNULL, stdout=subprocess.PIPE,
                              stderr=subprocess.STDOUT, timeout=SECONDS)
    except subprocess.TimeoutExpired:
        raise ToolError(f"{words[0]} took more than {SECONDS} seconds, and was ended") from None
    said = done.stdout.decode("utf-8", "replace")
    if done.returncode:
        errors = [line for line in said.splitlines() if "ERROR" in line] or said.splitlines()[-1:] or ["no message"]
        raise ToolError(f"{words[0]} failed with status {done.returncode}: {errors[0].strip()}")
    return said


def _version(words: Sequence[str]) -> str:
    lines = _run(words, Path("/")).splitlines()
    found = re.search(r"(?:Yosys |Version )([^ ()]+)", lines[0] if lines else "")
    return f"{words[0]} {found[1]}" if found else words[0]


def _synthesize(verilog: str, kind: Device, folder: Path, wrapped: bool) -> Mapping[str, int]:
    """The cells by their kind. top.json in the folder has the netlist."""
    found = re.match(r"module (\w+)\((.*?)\);", verilog, re.DOTALL)
    if not found:
        raise ValueError("the text is no module that compile wrote")
    yosys = _find("yosys", "yosys")
    (folder / "dk.v").write_text(verilog + (_wrapper(found[1], found[2]) if wrapped else ""))
    synthesis = kind.synthesis if wrapped else kind.synthesis.replace("-top top", f"-top {found[1]}")
    _run([yosys, "-q", "-p", f"read_verilog dk.v; {synthesis} -json top.json; tee -q -o cells.json stat -json"], folder)
    counted = json.loads((folder / "cells.json").read_text())["design"]["num_cells_by_type"]
    return {str(name): int(number) for name, number in counted.items()}


def _wrapper(module: str, ports: str) -> str:
    """A module whose ports pass registers on their way to and from the module."""
    from .templating import render
    words = [re.fullmatch(r"\s*(input|output)\s*(\[\d+:0\])?\s*(\w+)\s*", port) for port in ports.split(",")]
    parsed = [(word[1], word[2] or "", word[3]) for word in words if word]
    if len(parsed) != len(words):
        raise ValueError("the ports of the module are not of the form that compile writes")
    return render("registered.v", module=module, inputs=[(width, name) for side, width, name in parsed if side == "input" and name != "clk"],
                  outputs=[(width, name) for side, width, name in parsed if side == "output"])


def _rate(kind: Device, folder: Path, seed: int) -> float:
    said = _run([*kind.place, "--json", "top.json", "--seed", str(seed), "--freq", "400", "--timing-allow-fail"], folder)
    rates = re.findall(r"Max frequency for clock [^:]*: ([0-9.]+) MHz", said)
    if not rates:
        raise ToolError(f"{kind.place[0]} found no clock rate")
    return float(rates[-1])


def _sum(counted: Mapping[str, int], names: frozenset[str]) -> int:
    return sum(number for name, number in counted.items() if name in names)
