"""The drawing of a plan, the page of a program, and the cells of its circuit: values by hand, or of another program."""
from __future__ import annotations

import base64
import io
import re
import xml.etree.ElementTree as ElementTree

import numpy as np
import pytest
from PIL import Image as Pillow

from darkroom import Fault, Image, Program, Text, compiler, drawing, page, select, synthesis, u8, x, y
from darkroom.compiler import TextPort, TextType
from darkroom.failures import MissingTool
from darkroom.report import parse, parse_nets

pytest.importorskip("jinja2")
SVG = "{http://www.w3.org/2000/svg}"

# docs/REPORT.md, "Mean of three neighbours": the buffer of a has 2 words of 8 bits, and f reads at the ages 0, 1 and 2
REPORT = parse("""plan 2
limits 67108864 67108864
age 0
size 4 1
image a 8 0 2
image f 8 1 0
latency 1
clocks 5
bits 16
reads 3
end
""")
LINES = f"""text sha256 {"0" * 64}
image a din 8 0
image f n9 8 1
read f a -1 0 n1 2
read f a 0 0 n2 1
read f a 1 0 din 0
output f valid dout
"""


def texts(svg: str) -> list[str]:
    return ["".join(text.itertext()) for text in ElementTree.fromstring(svg).iter(f"{SVG}text")]


def test_the_drawing_has_the_figures_of_the_report() -> None:
    svg = drawing.draw(REPORT, parse_nets(LINES))
    said = texts(svg)
    assert said[0] == "Frames of 4 by 1, age 0: 16 buffer bits, latency 1, 3 live reads"
    assert [text for text in said if text.startswith(("a:", "f:"))] == ["a: 8 bits, delay 0", "f: 8 bits, delay 1"]
    assert "2 words, 16 bits" in said and "no buffer" in said and "reads a at age 0-2" in said


def test_places_of_the_drawing() -> None:
    """The scale has 2 clocks on 440 pixels from 300 on: a clock is 220. The bar is 2 clocks long and 16 pixels high."""
    root = ElementTree.fromstring(drawing.draw(REPORT, parse_nets(LINES)))
    bars = [bar for group in root.iter(f"{SVG}g") for bar in group.iter(f"{SVG}rect")]
    assert [(bar.get("x"), bar.get("width"), bar.get("height")) for bar in bars] == [("300.0", "440.0", "16.0")]
    starts = [path.attrib["d"].split(",")[0] for path in root.iter(f"{SVG}path") if path.get("class") == "read"]
    assert starts == ["M300.0", "M520.0", "M740.0"]
    points = [circle.get("cx") for circle in root.iter(f"{SVG}circle")]
    assert points == ["300.0", "520.0"]


@pytest.mark.parametrize("wrong", [LINES.replace("din 8 0", "din 9 0"), LINES.replace("n9 8 1", "n9 8 2"),
                                   LINES.replace("n1 2", "n1 3"), LINES.replace("image f n9 8 1\n", "")])
def test_nets_of_another_program_are_refused(wrong: str) -> None:
    with pytest.raises(ValueError):
        drawing.draw(REPORT, parse_nets(wrong))


@pytest.mark.parametrize("numbers, expected", [([], []), ([3], [(3, 3)]), ([5, 1, 2, 2, 3], [(1, 3), (5, 5)])])
def test_ranges(numbers: list[int], expected: list[tuple[int, int]]) -> None:
    assert drawing.ranges(numbers) == expected


# The pixels 10 and 25: differences to the left 10 and 15, a negative of them, and values of 29 bits. Of w the 13 lowest bits
# are left out: 10 * 2^20 - 5 becomes 10 * 2^20 - 8192 = 10,477,568, and 25 * 2^20 - 5 becomes 26,206,208.
PAGE_TEXT = """size 2 1
input a : u8
let d = im(x,y) a(x,y)-a(x-1,y) end -- output of none
let n = im(x,y) d(x,y)*2-40 end
let w = im(x,y) (a(x,y)<<20)-5 end
let shown0 = im(x,y) sat(n(x,y)+w(x,y), u8) end
output shown0
"""
PAGE = Text(PAGE_TEXT, 2, 1, (TextPort("a", TextType(8)),), (TextPort("shown0", TextType(8)),))
CAPTIONS = {
    "a": "u8, from 10 to 25",
    "d": "s9, from 10 to 15",
    "n": "s12, from -20 to -10",
    "w": "s29, from 10,477,568 to 26,206,208, without its 13 lowest bits",
    "shown0": "u8, from 255 to 255",
}


def test_the_captions_have_the_values() -> None:
    written = page.page(PAGE, np.array([[10, 25]], np.uint8), "a<b.dk")
    assert dict(re.findall("<figcaption><b>(.*?)</b>: (.*?)</figcaption>", written)) == CAPTIONS
    assert "<title>a&lt;b.dk</title>" in written and "a(x-1,y) end -- output of none" in written
    assert "2 by 1 pixels, " in written and "latency 0 clocks" in written
    assert not re.search(r'(src|href)="(?!data:|#)', written)


def test_the_pictures_are_stretched() -> None:
    """10 and 25 become black and white; a picture of one value is black."""
    written = page.page(PAGE, np.array([[10, 25]], np.uint8))
    pictures = {name: Pillow.open(io.BytesIO(base64.b64decode(data)))
                for name, data in re.findall('<img alt="(.*?)" src="data:image/png;base64,(.*?)"', written)}
    assert {name: np.asarray(picture).tolist() for name, picture in pictures.items()} == {
        "a": [[0, 255]], "d": [[0, 255]], "n": [[0, 255]], "w": [[0, 255]], "shown0": [[0, 0]]}


def test_more_images_than_outputs() -> None:
    """19 images in a row, each the one before plus 1: more than a program has outputs."""
    program = Program(1, 1)
    first = program.input("a", u8)
    image: Image = first
    for at in range(18):
        image = program.let(image(x, y) + 1, u8, name=f"f{at}")
    program.output(image)
    shown = page.images(program, program.plan(), np.array([[5]], np.uint8))
    assert [(one.name, one.signed, samples.tolist()) for one, samples in shown] == \
        [(first.name, False, [[5]]), *((f"f{at}", False, [[6 + at]]) for at in range(18))]


def test_the_page_of_a_fault_is_the_fault() -> None:
    program = Program(1, 1)
    image = program.input("a", u8)
    program.output(program.let(select(image(x, y), 1, 0), name="f"))
    with pytest.raises(Fault):
        program.look(None, np.array([[1]], np.uint8))
    shown = program._repr_html_()
    assert "<pre>size 1 1" in shown and "<svg" not in shown and "test_figures.py" in shown


def test_a_notebook_shows_the_plan() -> None:
    program = Program(4, 1)
    image = program.input("a", u8)
    program.output(program.let(image(x - 1, y), name="f"))
    assert "<svg" in program._repr_html_()


# a register of 8 bits: 8 flip-flops, and a multiplexer of its reset and input
VERILOG = """module dk(input clk, input rst, input [7:0] din, output valid, output [7:0] dout);
  reg [7:0] r;
  assign valid = ~rst;
  assign dout = r;
  always @(posedge clk) begin
    r <= din;
  end
endmodule
"""


@pytest.mark.skipif(not synthesis.is_installed("yosys"), reason="Yosys is not installed")
def test_the_cells_of_a_register() -> None:
    """8 flip-flops; `~rst` is one look-up table."""
    counted = synthesis.cells(VERILOG)
    assert (counted.luts, counted.flip_flops, counted.carries, counted.memories, counted.multipliers) == (1, 8, 0, 0, 0)
    assert re.fullmatch("yosys [0-9].*", counted.tool)


@pytest.mark.skipif(not synthesis.is_installed("yosys") or not synthesis.is_installed("nextpnr-ice40"),
                    reason="Yosys or nextpnr-ice40 is not installed")
def test_the_rate_of_a_register() -> None:
    placed = synthesis.place(VERILOG, seeds=2)
    assert len(placed.rates) == 2 and all(100 < rate < 2000 for rate in placed.rates)


def test_tools_that_are_missing(monkeypatch: pytest.MonkeyPatch) -> None:
    monkeypatch.setenv("PATH", "/nonexistent")
    with pytest.raises(MissingTool, match="^yosys is not installed: apt install yosys$"):
        synthesis.cells(VERILOG)
    with pytest.raises(MissingTool, match="^nextpnr-ecp5 is not installed: apt install nextpnr-ecp5$"):
        synthesis.place(VERILOG, "ECP5-85")


def test_wrong_texts_and_devices() -> None:
    with pytest.raises(ValueError, match="no device"):
        synthesis.cells(VERILOG, "HX1")
    with pytest.raises(ValueError, match="no module"):
        synthesis.cells("size 1 1")
    with pytest.raises(ValueError, match="seeds"):
        synthesis.place(VERILOG, seeds=0)
