"""Reports and lines of `nets`: those of docs/REPORT.md and docs/COMMANDS.md, and their refusals by `dk check`."""
from __future__ import annotations

import subprocess
from pathlib import Path

import pytest
from hypothesis import given, settings
from hypothesis import strategies as st

from darkroom import compiler
from darkroom.report import Flow, FormError, Image, NetImage, NetOutput, NetRead, ReadFlow, parse, parse_nets

MEAN = """plan 2
limits 67108864 67108864
age 0
size 4 1
image a 8 0 2
image f 8 1 0
latency 1
clocks 5
bits 16
reads 3
flow hold f 8
flow read f a 1 0 8
flow keep f a -1 0 8
end
"""
TWO = """plan 3
limits 67108864 67108864
age 0
size 2 1
image a 8 0 1
image b 8 0 0
image f 8 1 0
image g 8 0 0
latency 1
latency 0
clocks 3
bits 8
reads 3
flow hold b 8
flow hold f 8
flow hold g 8
flow read f b 1 0 8
flow keep f a 0 0 8
end
"""
SQUARE = """size 4 3
image a 8 0 8
image p 16 8 0
image s 8 8 0
image c 16 8 0
latency 8
clocks 20
bits 64
flow hold p 8
flow hold s 8
flow hold c 16
flow read s a 0 2 8
flow read c s 0 0 8
flow keep p a 0 0 8
flow keep c p 0 0 8
"""
MEAN_PROGRAM = """size 4 1
input a : u8
let f = im(x,y) ((a(x-1,y) + a(x,y) + a(x+1,y)) / 3) as u8 end
output f
"""
SQUARE_PROGRAM = """size 4 3
input a : u8
let p = im(x,y) a(x,y)*a(x,y) end
let s = im(x,y) a(x,y+2) end
let c = im(x,y) (p(x,y)+s(x,y)) as u16 end
output c
"""
TWO_PROGRAM = """size 2 1
input a : u8
input b : u8
let f = im(x,y) (a(x,y)+b(x+1,y)) as u8 end
let g = im(x,y) a(x,y) end
output f
output g
"""


def test_mean_of_three_neighbours() -> None:
    report = parse(MEAN)
    assert (report.version, report.limits, report.age, report.width, report.height) == (2, (67108864, 67108864), 0, 4, 1)
    assert list(report.images.values()) == [Image("a", 8, 0, 2), Image("f", 8, 1, 0)]
    assert (report.latencies, report.latency, report.clocks, report.bits, report.reads) == ((1,), 1, 5, 16, 3)
    assert report.images["a"].bits == 16
    assert report.flows == (Flow("hold", "f", 8), ReadFlow("read", "f", "a", 1, 0, 8), ReadFlow("keep", "f", "a", -1, 0, 8))


def test_two_outputs_have_two_latencies() -> None:
    report = parse(TWO)
    assert (report.version, report.latencies, report.latency) == (3, (1, 0), 1)


def test_version_1_has_no_limits_and_no_reads() -> None:
    report = parse(SQUARE)
    assert (report.version, report.limits, report.age, report.reads, report.bits) == (1, None, 0, None, 64)


@pytest.mark.parametrize("text", [MEAN, TWO, SQUARE])
def test_a_report_is_written_as_it_was_read(text: str) -> None:
    assert parse(text).text() == text


# docs/REPORT.md, "Reading a report": each row by hand
REFUSED = [
    ("the last LF is missing", SQUARE[:-1], 15),
    ("a name twice", SQUARE.replace("image s ", "image p "), 4),
    ("no end", MEAN[:-4], 14),
    ("unknown version", MEAN.replace("plan 2", "plan 4"), 1),
    ("empty", "", 1),
    ("two blanks", MEAN.replace("age 0", "age  0"), 3),
    ("a leading zero", MEAN.replace("bits 16", "bits 016"), 9),
    ("a sign", MEAN.replace("clocks 5", "clocks +5"), 8),
    ("2^64", MEAN.replace("bits 16", "bits 18446744073709551616"), 9),
    ("a digit outside ASCII", MEAN.replace("bits 16", "bits 1\u0666"), 9),
    ("CR", MEAN.replace("age 0\n", "age 0\r\n"), 3),
    ("a width of 65", MEAN.replace("image f 8", "image f 65"), 6),
    ("a size of 0", MEAN.replace("size 4 1", "size 0 1"), 4),
    ("an age of 65", MEAN.replace("age 0", "age 65"), 3),
    ("a reserved word", MEAN.replace("image f", "image max"), 6),
    ("a type word", MEAN.replace("image f", "image u8"), 6),
    ("no image", MEAN.replace("image a 8 0 2\nimage f 8 1 0\n", ""), 5),
    ("two latencies in version 2", MEAN.replace("latency 1\n", "latency 1\nlatency 1\n"), 8),
    ("-0", MEAN.replace("a 1 0 8", "a 1 -0 8"), 12),
    ("an offset of 4096", MEAN.replace("a 1 0 8", "a 4096 0 8"), 12),
    ("an image that is not there", MEAN.replace("read f a", "read f b"), 12),
    ("a flow of 0", MEAN.replace("hold f 8", "hold f 0"), 11),
    ("an unknown kind", MEAN.replace("hold f 8", "hald f 8"), 11),
    ("an order that does not ascend", SQUARE.replace("flow hold p 8\nflow hold s 8\n", "flow hold s 8\nflow hold p 8\n"), 10),
    ("a flow twice", MEAN.replace("flow hold f 8\n", "flow hold f 8\nflow hold f 8\n"), 12),
    ("a line after the end", MEAN + "end\n", 15),
    ("a text after the end", MEAN + "e", 15),
]


@pytest.mark.parametrize("shows, text, line", REFUSED, ids=[row[0] for row in REFUSED])
def test_the_first_wrong_line_is_named(shows: str, text: str, line: int) -> None:
    with pytest.raises(FormError) as found:
        parse(text)
    assert found.value.line == line
    assert str(found.value).startswith(f"line {line}: ")
    assert "\n" not in str(found.value)


def check_says(folder: Path, program: str, report: str) -> str:
    """What `dk check` writes to standard error: the second reader."""
    (folder / "p.dk").write_text(program)
    (folder / "report").write_text(report, newline="")
    return subprocess.run([compiler.find(), "check", "p.dk", "report"], cwd=folder, capture_output=True, text=True).stderr


@settings(max_examples=60, deadline=None)
@given(st.data())
def test_dk_names_the_line_too(tmp_path_factory: pytest.TempPathFactory, data: st.DataObject) -> None:
    """One or two changed bytes: where the form is wrong, `dk check` names the same line."""
    text, program = data.draw(st.sampled_from([(MEAN, MEAN_PROGRAM), (TWO, TWO_PROGRAM), (SQUARE, SQUARE_PROGRAM)]))
    for _ in range(data.draw(st.integers(1, 2))):
        at = data.draw(st.integers(0, len(text) - 1))
        text = text[:at] + data.draw(st.sampled_from(["", " ", "\n", "0", "9", "-", "a", "end\n"])) + text[at + data.draw(st.integers(0, 1)):]
    said = check_says(tmp_path_factory.mktemp("check"), program, text)
    try:
        parse(text)
    except FormError as error:
        assert said == f"report: line {error.line}\n"


# the SHA-256 of the text "abc", which FIPS 180-2 gives as its first example
ABC = "ba7816bf8f01cfea414140de5dae2223b00361a396177a9cb410ff61f20015ad"
TEXT = f"text sha256 {ABC}\n"


def test_nets() -> None:
    nets = parse_nets(TEXT + "image a din 8 0\nimage f n28 8 2\nread f a -1 0 n3 3\noutput f valid dout\n")
    assert nets.digest == ABC and nets.is_of("abc") and not nets.is_of("abd")
    assert nets.images == (NetImage("a", "din", 8, 0), NetImage("f", "n28", 8, 2))
    assert nets.reads == (NetRead("f", "a", -1, 0, "n3", 3),)
    assert nets.outputs == (NetOutput("f", "valid", "dout"),)


def test_a_copy_has_the_net_of_its_input_and_is_no_input() -> None:
    nets = parse_nets(TEXT + "image a din 8 0\nimage b din1 8 0\nimage f din 8 0\noutput f valid dout\n")
    assert [image.name for image in nets.inputs] == ["a", "b"]


@pytest.mark.parametrize("text, line", [
    ("", 1), (TEXT, 2), ("image a din 8 0\noutput a valid dout\n", 1), (f"text md5 {ABC}\n", 1), (f"text sha256 {ABC[1:]}\n", 1), (f"text sha256 {ABC.upper()}\n", 1),
    (f"{TEXT}image a din 8 0\n", 3), (f"{TEXT}image a din 8\noutput a valid dout\n", 2), (f"{TEXT}image a din 8 0\noutput a valid dout", 3),
    (f"{TEXT}image a din 8 0\noutput a valid dout\nread a a 0 0 din 0\n", 4), (f"{TEXT}image a din 8 0\nread a a x 0 din 0\noutput a valid dout\n", 3)])
def test_nets_refused(text: str, line: int) -> None:
    with pytest.raises(FormError) as found:
        parse_nets(text)
    assert found.value.line == line


def of_images(version: int, count: int) -> str:
    """A report of this many images, by its form only."""
    lines = [f"image i{at} 1 0 0" for at in range(count)]
    return "\n".join([f"plan {version}", "limits 0 0", "age 0", "size 1 1", *lines, "latency 0", "clocks 1", "bits 0", "reads 0", "end", ""])


@pytest.mark.parametrize("version, most", [(2, 257), (3, 264)])
def test_the_most_images(version: int, most: int) -> None:
    assert len(parse(of_images(version, most)).images) == most
    with pytest.raises(FormError) as found:
        parse(of_images(version, most + 1))
    assert found.value.line == 4 + most + 1


def test_the_most_latencies() -> None:
    text = of_images(3, 1)
    assert parse(text.replace("latency 0\n", "latency 0\n" * 8)).latencies == (0,) * 8
    with pytest.raises(FormError) as found:
        parse(text.replace("latency 0\n", "latency 0\n" * 9))
    assert found.value.line == 14


def test_the_greatest_number() -> None:
    assert parse(MEAN.replace("bits 16", f"bits {2**64 - 1}")).bits == 18446744073709551615


def test_flows_of_one_image_are_in_the_order_of_dy_and_then_dx() -> None:
    start = "size 4 3\nimage a 8 0 0\nlatency 0\nclocks 12\nbits 0\n"
    up, down = "flow read a a 1 -1 1\n", "flow read a a 0 0 1\n"
    assert [(flow.dx, flow.dy) for flow in parse(start + up + down).flows if isinstance(flow, ReadFlow)] == [(1, -1), (0, 0)]
    with pytest.raises(FormError) as found:
        parse(start + down + up)
    assert found.value.line == 7
