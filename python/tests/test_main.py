"""The commands of the package, as a user calls them: outputs, refusals in one line, and inputs that stay."""
from __future__ import annotations

import json
import os
import subprocess
import sys
from pathlib import Path
from typing import Sequence

import numpy as np
import pytest

from darkroom import compiler, pictures

pytest.importorskip("jinja2")
PACKAGE = Path(__file__).resolve().parents[1]
PROGRAM = "size 2 1\ninput a : u8\ninput b : u8\nlet f = im(x,y) (a(x,y)+b(x,y)) as u8 end\noutput f\n"


@pytest.fixture
def folder(tmp_path: Path) -> Path:
    (tmp_path / "p.dk").write_text(PROGRAM)
    pictures.write(tmp_path / "a.png", np.array([[1, 2]], np.uint8))
    pictures.write(tmp_path / "b.png", np.array([[30, 40]], np.uint8))
    pictures.write(tmp_path / "ab.pgm", np.array([[[1, 2]], [[30, 40]]], np.uint8))
    return tmp_path


def call(folder: Path, *words: str | bytes, path: str | None = None) -> subprocess.CompletedProcess[str]:
    environment = {**os.environ, "PYTHONPATH": str(PACKAGE), "DK": str(compiler.find())}
    if path is not None:
        environment["PATH"] = path
    return subprocess.run([sys.executable, "-m", "darkroom", *words], cwd=folder, env=environment, capture_output=True,
                          text=True, errors="replace", stdin=subprocess.DEVNULL)


def content(folder: Path) -> dict[str, bytes]:
    return {file.name: file.read_bytes() for file in folder.iterdir()}


@pytest.mark.parametrize("given", [["ab.pgm"], ["a.png", "b.png"]])
def test_look(folder: Path, given: Sequence[str]) -> None:
    """1 + 30 and 2 + 40."""
    done = call(folder, "look", "p.dk", *given, "p.html")
    assert (done.returncode, done.stdout, done.stderr) == (0, "", "")
    written = (folder / "p.html").read_text()
    for caption in ("<b>a</b>: u8, from 1 to 2<", "<b>b</b>: u8, from 30 to 40<", "<b>f</b>: u8, from 31 to 42<"):
        assert caption in written


def test_waves(folder: Path) -> None:
    """The sums 31 and 42 in the clocks 0 and 1, which are the times 1 and 2."""
    done = call(folder, "waves", "--show", "rst,f", "--first", "1", "--last", "2", "p.dk", "ab.pgm", "w.json")
    assert (done.returncode, done.stdout, done.stderr) == (0, "", "")
    assert json.loads((folder / "w.json").read_text()) == {
        "signal": [{"name": "rst", "wave": "0."}, {"name": "f", "wave": "==", "data": ["31", "42"]}], "head": {"tick": 0}}


def test_draw_writes_to_a_pipe(folder: Path) -> None:
    done = call(folder, "draw", "--age", "1", "p.dk", "/dev/stdout")
    assert done.returncode == 0 and done.stdout.startswith("<svg") and "age 1: " in done.stdout


REFUSED = [
    ("no command", [], 2),
    ("unknown command", ["lok", "p.dk"], 2),
    ("a word too few", ["draw", "p.dk"], 2),
    ("an option in part", ["draw", "--ag", "1", "p.dk", "p.svg"], 2),
    ("an age that is no number", ["draw", "--age", "x", "p.dk", "p.svg"], 2),
    ("an age of 65", ["draw", "--age", "65", "p.dk", "p.svg"], 1),
    ("no program", ["draw", "q.dk", "p.svg"], 1),
    ("a folder as a program", ["draw", ".", "p.svg"], 1),
    ("a picture as a program", ["draw", "a.png", "p.svg"], 3),
    ("a folder that is not there", ["draw", "p.dk", "q/p.svg"], 1),
    ("a program over itself", ["draw", "p.dk", "./p.dk"], 1),
    ("a page over the program", ["look", "p.dk", "ab.pgm", "p.dk"], 1),
    ("a page over a picture", ["look", "p.dk", "a.png", "b.png", "b.png"], 1),
    ("a page over a picture by another name", ["look", "p.dk", "ab.pgm", "../{}/ab.pgm"], 1),
    ("no picture", ["look", "p.dk", "c.png", "p.html"], 1),
    ("a text as a picture", ["look", "p.dk", "p.dk", "p.html"], 4),
    ("one of two pictures", ["look", "p.dk", "a.png", "p.html"], 1),
    ("three pictures", ["look", "p.dk", "a.png", "b.png", "a.png", "p.html"], 1),
    ("waves of an unknown image", ["waves", "--show", "g", "p.dk", "ab.pgm", "w.json"], 1),
    ("waves past the end", ["waves", "--last", "9", "p.dk", "ab.pgm", "w.json"], 1),
    ("waves over a picture", ["waves", "p.dk", "ab.pgm", "ab.pgm"], 1),
    ("an unknown device", ["place", "--device", "HX1", "p.dk"], 2),
    ("a name with a line end", ["draw", "p\n.dk", "p.svg"], 1),
    ("a name that a terminal obeys", ["draw", "\x1b[31m.dk", "p.svg"], 1),
]


@pytest.mark.parametrize("shows, words, status", REFUSED, ids=[row[0] for row in REFUSED])
def test_a_refusal_is_one_line_and_changes_nothing(folder: Path, shows: str, words: Sequence[str], status: int) -> None:
    before = content(folder)
    done = call(folder, *(word.format(folder.name) for word in words))
    assert (done.returncode, done.stdout) == (status, "")
    lines = done.stderr.split("\n")
    assert lines[-1] == "" and (status == 3 or len(lines) == 2)
    assert "Traceback" not in done.stderr and all(line.isprintable() and line for line in lines[:-1])
    assert content(folder) == before


def test_a_name_that_is_not_text(folder: Path) -> None:
    os.rename(folder / "p.dk", os.fsencode(folder) + b"/\xff.dk")
    assert call(folder, "draw", b"\xff.dk", "p.svg").returncode == 0
    done = call(folder, "draw", b"\xfe.dk", "p.svg")
    assert done.returncode == 1 and done.stderr.count("\n") == 1 and "Traceback" not in done.stderr


def test_a_missing_tool_is_named(folder: Path) -> None:
    done = call(folder, "place", "p.dk", path="/nonexistent")
    assert (done.returncode, done.stdout) == (1, "")
    # (without a search path dk itself may be a script that cannot run)
    assert done.stderr.count("\n") == 1 and "Traceback" not in done.stderr


def test_a_full_device(folder: Path) -> None:
    done = call(folder, "draw", "p.dk", "/dev/full")
    assert (done.returncode, done.stderr) == (1, "darkroom: No space left on device: /dev/full\n")


def test_a_closed_pipe(folder: Path) -> None:
    read, write = os.pipe()
    os.close(read)
    done = subprocess.run([sys.executable, "-m", "darkroom", "draw", "p.dk", "/dev/stdout"], cwd=folder, stdout=write,
                          stderr=subprocess.PIPE, text=True,
                          env={**os.environ, "PYTHONPATH": str(PACKAGE), "DK": str(compiler.find())})
    os.close(write)
    assert done.returncode == 1 and done.stderr.count("\n") == 1 and "Broken pipe" in done.stderr


def test_closed_standard_descriptors(folder: Path) -> None:
    words = [sys.executable, "-m", "darkroom", "draw", "p.dk", "p.svg"]
    done = subprocess.run(["/bin/sh", "-c", '"$@" <&- >&- 2>&-', "sh", *words], cwd=folder, timeout=100,
                          env={**os.environ, "PYTHONPATH": str(PACKAGE), "DK": str(compiler.find())})
    assert done.returncode == 0 and (folder / "p.svg").read_text().startswith("<svg")


def test_help(folder: Path) -> None:
    done = call(folder, "--help")
    assert done.returncode == 0 and "look" in done.stdout and done.stderr == ""
