"""Names of a module and its ports: only names change, and a name that cannot be used is refused."""
from __future__ import annotations

import shutil
import subprocess
from pathlib import Path

import pytest

from darkroom import Program, u8, x, y


def program() -> Program:
    p = Program(8, 4)
    a = p.input("a", u8)
    f = p.let(a(x - 1, y), name="f")
    p.output(f)
    p.output(a)
    return p


HEADER = """// shift: frames of 8 by 4 pixels.
// pixel_in: input a, 8 bits.
// moved, valid by valid: output f, 8 bits, latency 0 clocks.
// dout1, valid by there: output a, 8 bits, latency 0 clocks.
module shift(input clk, input rst, input [7:0] pixel_in, output valid, output [7:0] moved, output there, output [7:0] dout1);
"""


def test_only_names_change(tmp_path: Path) -> None:
    file = tmp_path / "shift.v"
    text = program().compile(file, module="shift", ports={"din": "pixel_in", "f": "moved", "valid1": "there"})
    assert text.startswith(HEADER) and file.read_text() == text
    body = text[len(HEADER):].replace("pixel_in", "din").replace("moved", "dout").replace("there", "valid1")
    assert body == program().compile().split(";\n", 1)[1]
    if shutil.which("iverilog"):
        subprocess.run(["iverilog", "-o", str(tmp_path / "out"), str(file)], check=True)


def test_swapped_ports() -> None:
    text = program().compile(ports={"dout": "dout1", "dout1": "dout"})
    assert "  assign dout = din;" in text


@pytest.mark.parametrize("module, ports, said", [
    ("module", {}, "not a name of Verilog"), ("3x3", {}, "not a name of Verilog"), ("a\n", {}, "not a name of Verilog"),
    (None, {"f": "n0"}, "used twice"), (None, {"clk": "c", "rst": "c"}, "used twice"), (None, {"f": "u", "dout": "w"}, "two names"),
    (None, {"a": "b"}, "may be each of din, dout1"), (None, {"en": "go"}, "is not one of"),
])
def test_refused(module: str | None, ports: dict[str, str], said: str) -> None:
    with pytest.raises(ValueError, match=said):
        program().compile(module=module, ports=ports)
