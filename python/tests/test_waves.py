"""Traces: the example of docs/COMMANDS.md by hand, texts that are refused, and waves of WaveJSON."""
from __future__ import annotations

import numpy as np
import pytest

from darkroom import Program, compiler, u8, waves, x, y
from darkroom.pictures import Image, encode
from darkroom.waves import Trace, TraceError, parse

# docs/COMMANDS.md, "The trace of trace": *Copy*
COPY = """module dk(input clk, input rst, input [7:0] din, output valid, output [7:0] dout);
  assign valid = ~rst;
  assign dout = din;
endmodule
"""
HEAD = """$timescale 1 ns $end
$scope module dk $end
$var wire 1 ! rst $end
$var wire 8 " din $end
$upscope $end
$enddefinitions $end
"""


def test_the_example_of_the_docs() -> None:
    images = encode([Image(255, np.array([[10, 20, 30]], np.uint8))])
    found = parse(compiler.trace(COPY, 3, images))
    assert found.widths == {"rst": 1, "din": 8, "valid": 1, "dout": 8}
    assert found.values == {"rst": (1, 0, 0, 0), "din": (0, 10, 20, 30), "valid": (0, 1, 1, 1), "dout": (0, 10, 20, 30)}


def test_values_stay_until_they_change() -> None:
    found = parse(HEAD + '#0 b0 " 1! #1 0! #4 b11 " #5')
    assert found.times == 5
    assert found.values == {"rst": (1, 0, 0, 0, 0), "din": (0, 0, 0, 0, 3)}


@pytest.mark.parametrize("text", [
    "", "x", HEAD, HEAD + "#0", HEAD + "#1 1! b0 \" #2", HEAD + "1! #0 #1", HEAD + "#0 1! #1", HEAD + "#0 1! b0 \" #1 #1",
    HEAD + "#0 1? b0 \" #1", HEAD + "#0 x! b0 \" #1", HEAD + "#0 1! b2 \" #1", HEAD + "#0 1! b0", HEAD + "#z 1! b0 \" #1",
    "$scope module dk", "$var wire 1 ! $end", "$var wire x ! rst $end $enddefinitions $end #0 1! #1",
])
def test_other_texts_are_refused(text: str) -> None:
    with pytest.raises(TraceError) as found:
        parse(text)
    assert "\n" not in str(found.value)


def test_waves() -> None:
    found = Trace({"rst": 1, "din": 8}, {"rst": (1, 0, 0, 1), "din": (0, 7, 7, 9)})
    assert found.wavedrom(["din", "rst"]) == {
        "signal": [{"name": "din", "wave": "==.=", "data": ["0", "7", "9"]}, {"name": "rst", "wave": "10.1"}], "head": {"tick": -1}}
    assert found.wavedrom(["rst"], 1, 2) == {"signal": [{"name": "rst", "wave": "0."}], "head": {"tick": 0}}
    for wrong in ((2, 1), (0, 4), (-1, 2)):
        with pytest.raises(ValueError, match="times"):
            found.wavedrom(["rst"], *wrong)
    with pytest.raises(ValueError, match="no variable 'dout'"):
        found.wavedrom(["dout"])


def test_a_trace_has_the_images_by_name() -> None:
    """f is the pixel to the right, so its delay is 1: 20 30 0 after one clock more than the reset."""
    p = Program(3, 1)
    a = p.input("a", u8)
    p.output(p.let(a(x + 1, y), name="f"))
    found = waves.trace(p, np.array([[10, 20, 30]], np.uint8))
    assert found.times == 1 + 3 + 1
    assert found.values["a"][1:4] == found.values["din"][1:4] == (10, 20, 30)
    assert found.values["f"][2:] == found.values["dout"][2:] == (20, 30, 0)
    assert found.values["valid"] == (0, 0, 1, 1, 1)
