"""The programs of README.md, and a program from its first line to its Verilog."""
from __future__ import annotations

import re
from pathlib import Path

import numpy as np
import pytest

import darkroom
from darkroom import Program, u8, x, y

README = Path(__file__).parents[1] / "README.md"


def blocks() -> list[tuple[str, str]]:
    """The blocks of code of the page: their language, and their text."""
    return re.findall(r"^```(\w*)\n(.*?)^```$", README.read_text(encoding="utf-8"), re.M | re.S)


def blur() -> Program:
    p = Program(4, 1)
    a = p.input("a", u8)
    p.output(p.let((a(x - 1, y) + a(x, y)) // 2, name="f"))
    return p


def test_the_first_program_prints_what_the_page_shows(capsys: pytest.CaptureFixture[str]) -> None:
    (language, program), (_, shown) = blocks()[:2]
    assert language == "python"
    exec(compile(program, "README.md", "exec"), {})
    # (print adds a line end of its own)
    assert capsys.readouterr().out == f"{shown}\n"


def test_the_other_programs_run(tmp_path: Path, monkeypatch: pytest.MonkeyPatch) -> None:
    pytest.importorskip("jinja2")
    monkeypatch.chdir(tmp_path)
    darkroom.write("photo.png", np.zeros((480, 640), np.uint8))
    known: dict[str, object] = {}
    programs = [text for language, text in blocks() if language == "python"]
    assert len(programs) == 3
    for text in programs:
        exec(compile(text, "README.md", "exec"), known)
    assert Path("blur.v").read_text(encoding="ascii").startswith("module dk(")
    assert Path("plan.svg").read_text(encoding="utf-8").startswith("<svg")
    # 4*a has 8 + 3 bits, and each of the four sums one bit more
    assert "<b>rows</b>: u15, from 0 to 0<" in Path("page.html").read_text(encoding="utf-8")


def test_a_picture_by_hand() -> None:
    picture = np.array([[10, 20, 31, 0]], np.uint8)
    for shown in (blur().eval(picture), blur().run(picture), blur().run(picture, age=1), blur().cut(1).run(picture)):
        assert isinstance(shown, np.ndarray)
        assert shown.tolist() == [[5, 15, 25, 15]]


def test_a_fault_names_the_line_of_this_file() -> None:
    p = Program(4, 1)
    a = p.input("a", u8)
    p.output(p.let(a(x, y) + 300, u8, name="f"))
    p.let(a(x, y) + 300, name="g", declared=u8)
    with pytest.raises(darkroom.Fault) as caught:
        p.plan()
    source = caught.value.source
    assert source is not None and source.file == __file__
    line = Path(__file__).read_text(encoding="utf-8").splitlines()[source.line - 1]
    assert 'name="g"' in line
    assert str(caught.value).startswith(f"{__file__}:{source.line}: error: ")
