"""Calls of `dk`: its commands by the tables of the docs, faults, interruption, and files that must stay."""
from __future__ import annotations

import os
import pickle
import signal
import subprocess
import sys
import threading
import time
from concurrent.futures import ThreadPoolExecutor
from dataclasses import dataclass, field
from pathlib import Path
from typing import Any, Mapping

import numpy as np
import pytest

from darkroom import compiler, pictures
from darkroom.compiler import Fault, NotFound, Rejected, Text, TextPort, TextSource, TextType, Unable
from darkroom.pictures import Array
from darkroom.report import FormError, parse

TOP = Path(__file__).resolve().parents[2]
PROGRAMS = TOP / "examples" / "programs"


@dataclass
class Stand:
    """A program as language.py has it: the parts that compiler.py reads."""

    written: str
    width: int = 3
    height: int = 1
    inputs: tuple[TextPort, ...] = (TextPort("a", TextType(8)),)
    outputs: tuple[TextPort, ...] = (TextPort("f", TextType(8)),)
    sources: Mapping[int, TextSource] = field(default_factory=dict)

    def text(self) -> str:
        return self.written


def one(body: str, width: int = 3, height: int = 1, **more: Any) -> Stand:
    return Stand(f"size {width} {height}\ninput a : u8\n{body}\noutput f\n", width, height, **more)


MEAN = one("let f = im(x,y) ((a(x-1,y) + a(x,y) + a(x+1,y)) / 3) as u8 end", 4)
COPY = one("let f = im(x,y) a(x,y) end")
TWO = Stand("size 2 1\ninput a : u8\ninput b : u8\nlet f = im(x,y) (a(x,y)+b(x+1,y)) as u8 end\nlet g = im(x,y) a(x,y) end\noutput f\noutput g\n", 2, 1,
            (TextPort("a", TextType(8)), TextPort("b", TextType(8))), (TextPort("f", TextType(8)), TextPort("g", TextType(8))))


def eight(*samples: Any) -> Array:
    return np.array(samples, np.uint8)


def shown(answer: Any) -> Any:
    return {name: array.tolist() for name, array in answer.items()} if isinstance(answer, dict) else answer.tolist()


# docs/LANGUAGE.md, "Worked programs"
WORKED = [
    ("copy", COPY, [[10, 20, 30]], [[10, 20, 30]]),
    ("mean of three neighbours", MEAN, [[3, 6, 9, 12]], [[3, 6, 9, 7]]),
    ("doubling, exact", one("let f = im(x,y) a(x,y)+a(x,y) end", 2), [[100, 200]], [[200, 400]]),
    ("read of the row below", one("let f = im(x,y) a(x,y+1) end", 2, 3), [[1, 2], [3, 4], [5, 6]], [[3, 4], [5, 6], [0, 0]]),
    ("clamped corner", one("let f = im(x,y) a(x+1,y+1) edge clamp end", 2, 2), [[1, 2], [3, 4]], [[4, 4], [4, 4]]),
]


@pytest.mark.parametrize("shows, program, samples, picture", WORKED, ids=[row[0] for row in WORKED])
def test_pictures(shows: str, program: Stand, samples: Any, picture: Any) -> None:
    for answer in (compiler.evaluate(program, eight(*samples)), compiler.run(program, eight(*samples)), compiler.run(program, {"a": eight(*samples)}, age=2)):
        assert isinstance(answer, np.ndarray) and answer.dtype == (np.uint16 if shows == "doubling, exact" else np.uint8)
        assert answer.tolist() == picture


def test_several_inputs_outputs_and_rounds() -> None:
    given = {"b": eight([10, 20]), "a": eight([1, 2])}
    assert shown(compiler.run(TWO, given)) == shown(compiler.evaluate(TWO, given)) == {"f": [[21, 2]], "g": [[1, 2]]}
    rounds = {name: np.stack([array, array + array]) for name, array in given.items()}
    assert shown(compiler.run(TWO, rounds)) == {"f": [[[21, 2]], [[42, 4]]], "g": [[[1, 2]], [[2, 4]]]}
    assert shown(compiler.run(MEAN, eight([[3, 6, 9, 12]], [[1, 1, 1, 1]]))) == [[[3, 6, 9, 7]], [[0, 1, 1, 0]]]


@pytest.mark.parametrize("name, picture", [("sobel", "scene"), ("median", "speckled"), ("gaussian3", "scene")])
def test_examples(name: str, picture: str) -> None:
    program = compiler.load(PROGRAMS / f"{name}.dk")
    photo = pictures.read(PROGRAMS / f"{picture}.pgm")
    expected = pictures.read(PROGRAMS / f"{name}.pgm")
    assert shown(compiler.run(program, photo, age=1)) == expected.tolist()
    assert shown(compiler.evaluate(compiler.cut(program, 1), photo)) == expected.tolist()
    assert shown(compiler.evaluate(compiler.narrow(program), photo)) == expected.tolist()


def test_wrong_pictures_and_numbers_are_refused_before_a_call(monkeypatch: pytest.MonkeyPatch) -> None:
    monkeypatch.setenv("DK", "/there/is/no/dk")
    with pytest.raises(ValueError, match="the shape must be"):
        compiler.run(COPY, eight([1, 2]))
    with pytest.raises(TypeError, match="unsigned type"):
        compiler.evaluate(COPY, np.zeros((1, 3), np.int16))
    with pytest.raises(ValueError, match="age is 0 to 64, not 65"):
        compiler.plan(COPY, age=65)
    with pytest.raises(ValueError, match="block is 2 to 67108864, not 1"):
        compiler.compile(COPY, block=1)
    with pytest.raises(ValueError, match="phases is 2 to 8, not 9"):
        compiler.widen(COPY, 9)
    with pytest.raises(ValueError, match="levels is 1 to 64, not 0"):
        compiler.cut(COPY, 0)


# Reports and texts

def test_plan_and_check() -> None:
    report = compiler.plan(MEAN)
    assert (report.bits, report.latency, report.clocks, report.reads, report.images["f"].delay, report.images["a"].depth) == (16, 1, 5, 3, 1, 2)
    assert (compiler.plan(MEAN, age=1).bits, compiler.plan(MEAN, age=1).latency) == (24, 2)
    assert compiler.check(MEAN, report) == compiler.check(MEAN, report.text()) == compiler.Held(16, 1)
    with pytest.raises(Rejected) as found:
        compiler.check(MEAN, parse(report.text().replace("bits 16", "bits 17")))
    assert found.value.at == 9
    with pytest.raises(Rejected) as found:
        compiler.check(MEAN, " " * 4194305)
    assert found.value.at is None and found.value.answer == "report: TooLong 4194304"


def test_cut() -> None:
    cut = compiler.cut(MEAN, 1)
    assert cut.content == """size 4 1
input a : u8
let f_1 = im(x,y) a(x-1,y) + a(x,y) end
let f_2 = im(x,y) f_1(x,y) + a(x+1,y) end
let f = im(x,y) (f_2(x,y) / 3) as u8 end
output f
"""
    assert (cut.definitions, cut.levels, cut.over) == (3, 2, (("f", "operator"),))
    assert compiler.cut(MEAN, 64).content == MEAN.written and compiler.cut(MEAN, 64).over == ()
    assert shown(compiler.run(cut, eight([3, 6, 9, 12]), age=1)) == [[3, 6, 9, 7]]


def test_narrow() -> None:
    narrowed = compiler.narrow(MEAN)
    assert (narrowed.bits, narrowed.before) == (16, 16)
    assert shown(compiler.evaluate(narrowed, eight([3, 6, 9, 12]))) == [[3, 6, 9, 7]]


def test_widen() -> None:
    """docs/WIDEN.md, "The text"."""
    wide = compiler.widen(one("let f = im(x,y) ((a(x-1,y) edge clamp + a(x,y) + a(x+1,y) edge clamp) / 3) as u8 end", 4), 2)
    assert (wide.definitions, wide.bits, wide.before, wide.width, wide.height) == (5, 16, 16, 2, 1)
    assert [port.name for port in wide.inputs] == ["a_0", "a_1"] and [port.name for port in wide.outputs] == ["f_0", "f_1"]
    answer = compiler.run(wide, dict(zip(["a_0", "a_1"], pictures.split(eight([3, 6, 9, 12]), 2))))
    assert isinstance(answer, dict)
    assert pictures.join([answer["f_0"], answer["f_1"]]).tolist() == [[4, 6, 9, 11]]
    with pytest.raises(Unable, match="widen: Width 3"):
        compiler.widen(COPY, 2)


def test_nets_name_what_compile_writes() -> None:
    nets = compiler.nets(COPY, enable=True, age=1, block=32)
    text = compiler.compile(COPY, enable=True, age=1, block=32)
    assert nets.is_of(text) and not nets.is_of(compiler.compile(COPY, age=1))
    assert [(image.name, image.width, image.delay) for image in nets.images] == [("a", 8, 0), ("f", 8, 1)]
    assert [(read.reader, read.name, read.dx, read.dy, read.age) for read in nets.reads] == [("f", "a", 0, 0, 1)]
    assert text.startswith("module dk(input clk, input rst, input en, input [7:0] din, output valid, output [7:0] dout);\n")
    assert all(f" {image.net}" in text for image in nets.images)


def test_load_names_size_inputs_and_outputs() -> None:
    program = compiler.load(PROGRAMS / "two_cameras.dk")
    assert [(port.name, port.type.bits) for port in program.inputs] == [("left", 8), ("right", 8)]
    assert [(port.name, port.type.bits) for port in program.outputs] == [("difference", 8), ("differs", 1)]


# Faults

UNKNOWN = Stand("size 1 1\ninput a : u8\nlet f = im(x,y) b(x,y) end\noutput f\n", 1, 1, sources={1: TextSource("demo.py", 4), 3: TextSource("demo.py", 12)})


def test_a_fault_shows_the_python_line_first() -> None:
    with pytest.raises(Fault) as found:
        compiler.run(UNKNOWN, eight([1]))
    fault = found.value
    assert (fault.kind, fault.line, fault.column, fault.source, fault.status) == ("UnknownImage", 3, 17, TextSource("demo.py", 12), 3)
    assert fault.answer == "program 38-39: UnknownImage" and fault.message == "there is no image `b`"
    assert str(fault).splitlines() == [
        "demo.py:12: error: UnknownImage: there is no image `b`", "  line 3, column 17 of the Darkroom text:",
        "   3 | let f = im(x,y) b(x,y) end", "     |                 ^", "     = help: an image reads inputs and earlier definitions"]
    assert compiler.explain(UNKNOWN) == f"{fault}\n"
    assert compiler.explain(COPY) == ""


def test_a_line_without_a_source_has_that_of_the_line_before() -> None:
    program = Stand(UNKNOWN.written.replace("im(x,y) ", "im(x,y)\n  "), 1, 1, sources=UNKNOWN.sources)
    with pytest.raises(Fault) as found:
        compiler.plan(program)
    assert (found.value.line, found.value.column, found.value.source) == (4, 3, TextSource("demo.py", 12))


# docs/LANGUAGE.md, "Worked faults": the place by hand
WORKED_FAULTS = [
    ("", "program 0-0: Syntax", 1, 1),
    ("size 3 @", "program 7-8: BadByte", 1, 8),
    ("size 3 1 input a : u8 output", "program 28-28: Syntax", 1, 29),
    ("size 1 1\ninput a : u8\nlet f = im(x,y) a(x+65,y) end\noutput f\n", "program 42-44: OffsetRange", 3, 21),
    ("size 1 1\ninput a : u8\nlet f = im(x,y) -a(x,y) end\noutput f\n", "program 57-58: OutputType", 4, 8),
]


@pytest.mark.parametrize("text, line, at, column", WORKED_FAULTS)
def test_worked_faults(text: str, line: str, at: int, column: int) -> None:
    with pytest.raises(Fault) as found:
        compiler.parse_text(text)
    assert (found.value.answer, found.value.line, found.value.column, found.value.source) == (line, at, column, None)


def test_faults_of_several_definitions() -> None:
    text = "size 1 1\ninput a : u8\nlet f = im(x,y) b(x,y) end\nlet g = im(x,y) a(x+65,y) end\noutput f\n"
    with pytest.raises(Fault) as found:
        compiler.parse_text(text)
    assert [(each.kind, each.line) for each in found.value.messages] == [("UnknownImage", 3), ("OffsetRange", 4)]


def test_a_fault_of_the_whole_text_has_no_place() -> None:
    """Doubled fifteen times inline: 98303 nodes."""
    lines = [f"inline let i{k} = im(x,y) {before}(x,y)+{before}(x,y) end" for k, before in enumerate(["a", *(f"i{k}" for k in range(1, 15))], 1)]
    program = Stand("\n".join(["size 1 1", "input a : u8", *lines, "let f = im(x,y) i15(x,y) as u8 end", "output f", ""]), 1, 1, sources={1: TextSource("demo.py", 1)})
    with pytest.raises(Fault) as found:
        compiler.plan(program)
    assert (found.value.answer, found.value.kind, found.value.line, found.value.source) == ("program: Nodes 98303", "Nodes", None, None)
    assert str(found.value).startswith("error: Nodes: ")


def test_a_fault_of_an_age_is_shown_though_explain_has_none() -> None:
    """Eight inputs of 16 bits, each read 64 lines above and 64 below: at age 0 they have 8*16*128*4096 bits, which is the limit.

    At age 1 each has a word more, 128 bits in all. `explain` judges at age 0.
    """
    names = "abcdefgh"
    reads = " ^ ".join(f"{name}(x,y-64) ^ {name}(x,y+64)" for name in names)
    text = "size 4096 4096\n" + "".join(f"input {name} : u16\n" for name in names) + f"let o = im(x,y) {reads} end\noutput o\n"
    program = compiler.parse_text(text)
    assert compiler.plan(program).bits == 67108864
    with pytest.raises(Fault) as found:
        compiler.plan(program, age=1)
    assert (found.value.kind, found.value.line, found.value.answer) == ("Bits", None, "program: Bits 67108992")
    assert "program: Bits 67108992" in str(found.value) and compiler.explain(program) == ""


def test_bytes_outside_utf8_reach_dk(tmp_path: Path) -> None:
    (tmp_path / "p.dk").write_bytes(b"-- \xff\xe9\n" + COPY.written.encode())
    program = compiler.load(tmp_path / "p.dk")
    assert compiler.cut(program, 1).content.encode("utf-8", "surrogateescape") == (tmp_path / "p.dk").read_bytes()


def test_load_shows_the_line_of_the_file(tmp_path: Path) -> None:
    path = tmp_path / "odd ' name.dk"
    path.write_text(UNKNOWN.written)
    with pytest.raises(Fault) as found:
        compiler.load(path)
    assert str(found.value).startswith(f"{path}:3: error: UnknownImage: ")


# Files

@pytest.mark.parametrize("name", ["with blank.v", "quote'\".v", "-o", "two\nlines.v", "dk"])
def test_odd_names_of_files(name: str, tmp_path: Path, monkeypatch: pytest.MonkeyPatch) -> None:
    monkeypatch.chdir(tmp_path)
    text = compiler.compile(COPY, name)
    assert text.startswith("module dk(") and Path(name).read_text() == text and os.listdir() == [name]


def test_an_output_that_is_an_input_is_refused(tmp_path: Path, monkeypatch: pytest.MonkeyPatch) -> None:
    monkeypatch.chdir(tmp_path)
    Path("p.dk").write_text(COPY.written)
    Path("link.dk").symlink_to("p.dk")
    os.link("p.dk", "hard.dk")
    program = compiler.load("p.dk")
    programs: list[compiler.Program] = [program, compiler.cut(program, 1), compiler.narrow(program), Stand(COPY.written, sources={1: TextSource("p.dk", 1)})]
    for path in ("p.dk", "./p.dk", "link.dk", "hard.dk", str(tmp_path / "p.dk")):
        for each in programs:
            with pytest.raises(ValueError, match="would be overwritten"):
                compiler.compile(each, path)
    assert Path("p.dk").read_text() == COPY.written and sorted(os.listdir()) == ["hard.dk", "link.dk", "p.dk"]


def test_a_fault_or_a_folder_that_cannot_be_written_leaves_the_file(tmp_path: Path) -> None:
    (tmp_path / "f.v").write_text("before")
    with pytest.raises(Fault):
        compiler.compile(UNKNOWN, tmp_path / "f.v")
    assert (tmp_path / "f.v").read_text() == "before"
    for path in (f"{tmp_path}/f.v/g.v", f"{tmp_path}/none/g.v", str(tmp_path), "", "/proc/g.v"):
        with pytest.raises(OSError):
            compiler.compile(COPY, path)
    assert os.listdir(tmp_path) == ["f.v"]


# The program dk

def script(folder: Path, body: str) -> str:
    path = folder / "fake dk"
    path.write_text(f"#!/bin/sh\n{body}\n")
    path.chmod(0o755)
    return str(path)


def test_find(tmp_path: Path, monkeypatch: pytest.MonkeyPatch) -> None:
    monkeypatch.delenv("DK", raising=False)
    assert compiler.find() == TOP / "dk"
    monkeypatch.setenv("DK", str(TOP / "bin" / "dk"))
    assert compiler.find() == TOP / "bin" / "dk"
    monkeypatch.setenv("DK", str(tmp_path / "none"))
    with pytest.raises(NotFound, match="the environment variable DK is .*, and there is no such program"):
        compiler.plan(COPY)
    monkeypatch.setenv("DK", "")
    monkeypatch.setattr(compiler, "__file__", str(tmp_path / "python" / "darkroom" / "compiler.py"))
    monkeypatch.setenv("PATH", str(tmp_path))
    with pytest.raises(NotFound, match="install it by tools/install.sh, or set the environment variable DK"):
        compiler.plan(COPY)
    Path(script(tmp_path, "exit 0")).rename(tmp_path / "dk")
    assert compiler.find() == tmp_path / "dk"


@pytest.mark.parametrize("status, line, error", [
    (1, "dk: neither bin/dk nor build/dk was built from these sources.", compiler.NotFound), (2, "usage: run", compiler.UsageError),
    (3, "what?", compiler.Ended), (4, "image: TooLong 268435456", compiler.ImageError), (7, "cannot read", compiler.ReadError),
    (8, "cannot write", compiler.WriteError), (9, "out of memory", compiler.OutOfMemory), (11, "widen: Limits", compiler.Unable), (77, "", compiler.Ended)])
def test_each_status_has_an_exception(status: int, line: str, error: type[compiler.Failure], tmp_path: Path, monkeypatch: pytest.MonkeyPatch) -> None:
    monkeypatch.setenv("DK", script(tmp_path, f"echo '{line}' >&2; exit {status}"))
    with pytest.raises(error) as found:
        compiler.run(COPY, eight([1, 2, 3]))
    assert type(found.value) is error and found.value.status == status and line in str(found.value)


def test_a_program_that_is_no_program_and_a_signal(tmp_path: Path, monkeypatch: pytest.MonkeyPatch) -> None:
    (tmp_path / "empty").write_bytes(b"\x7fELF")
    (tmp_path / "empty").chmod(0o755)
    monkeypatch.setenv("DK", str(tmp_path / "empty"))
    with pytest.raises(NotFound, match="Exec format error"):
        compiler.plan(COPY)
    monkeypatch.setenv("DK", script(tmp_path, "kill -KILL $$"))
    with pytest.raises(compiler.Ended) as found:
        compiler.plan(COPY)
    assert found.value.status == -9


def is_there(process: int) -> bool:
    """Whether it runs. One that ended and that nobody waits for yet does not."""
    try:
        return Path(f"/proc/{process}/stat").read_text().rsplit(")", 1)[1].split()[0] != "Z"
    except FileNotFoundError:
        return False


def test_an_interrupted_call_leaves_no_process_and_no_file(tmp_path: Path, monkeypatch: pytest.MonkeyPatch) -> None:
    pids, out = tmp_path / "pids", tmp_path / "out"
    out.mkdir()
    monkeypatch.setenv("TMPDIR", str(out))
    monkeypatch.setenv("DK", script(tmp_path, f"sleep 600 & echo $$ $! >'{pids}.new'; mv '{pids}.new' '{pids}'; wait"))

    def interrupt() -> None:
        while not pids.exists():
            time.sleep(0.02)
        time.sleep(0.3)  # (until the call waits for its answer)
        os.kill(os.getpid(), signal.SIGINT)

    before = set(os.listdir("/proc/self/fd"))
    thread = threading.Thread(target=interrupt)
    thread.start()
    with pytest.raises(KeyboardInterrupt):
        compiler.compile(COPY, out / "f.v")
    thread.join()
    for _ in range(100):
        if not any(map(is_there, map(int, pids.read_text().split()))):
            break
        time.sleep(0.05)
    assert not any(map(is_there, map(int, pids.read_text().split())))
    assert os.listdir(out) == [] and set(os.listdir("/proc/self/fd")) == before


def test_an_interrupted_python_leaves_no_process(tmp_path: Path) -> None:
    """SIGINT to a Python that feeds a real `dk` with a long run."""
    code = ("import numpy as np\nfrom darkroom import compiler\n"
            "p = compiler.parse_text('size 512 512\\ninput a : u8\\nlet f = im(x,y) (a(x,y-1)+a(x,y+1)) as u8 end\\noutput f\\n')\n"
            "print('begun', flush=True)\ncompiler.run(p, np.zeros((400, 512, 512), np.uint8))\nprint('done')\n")
    environment = {**os.environ, "PYTHONPATH": str(TOP / "python"), "DK": str(TOP / "bin" / "dk")}
    process = subprocess.Popen([sys.executable, "-c", code], stdout=subprocess.PIPE, stderr=subprocess.PIPE, text=True, env=environment, cwd=tmp_path)
    assert process.stdout is not None and process.stdout.readline() == "begun\n"
    children = Path(f"/proc/{process.pid}/task/{process.pid}/children")
    while not children.read_text():
        time.sleep(0.02)
    child = int(children.read_text().split()[0])
    time.sleep(0.3)  # (until the call writes its pictures)
    process.send_signal(signal.SIGINT)
    out, err = process.communicate(timeout=60)
    assert "done" not in out and err.rstrip().endswith("KeyboardInterrupt") and not is_there(child)
    assert os.listdir(tmp_path) == []


def test_large_pictures_go_through_pipes(tmp_path: Path, monkeypatch: pytest.MonkeyPatch) -> None:
    """Ten megabytes each way, more than a pipe holds, and no file."""
    monkeypatch.setenv("TMPDIR", str(tmp_path))
    program = one("let f = im(x,y) a(x,y) end", 1024, 1024)
    photo = np.arange(10 * 1024 * 1024, dtype=np.uint32).astype(np.uint8).reshape(10, 1024, 1024)
    answer = compiler.evaluate(program, photo)
    assert isinstance(answer, np.ndarray) and (answer == photo).all() and os.listdir(tmp_path) == []


def test_a_call_that_ends_before_it_reads_raises_its_fault() -> None:
    program = Stand("size 1024 1024\ninput a : u8\noutput f\n", 1024, 1024)
    with pytest.raises(Fault, match="UnknownImage"):
        compiler.run(program, np.zeros((10, 1024, 1024), np.uint8))


def test_failures_can_be_pickled() -> None:
    """A pool of processes hands each exception on."""
    fault = compiler._fault(UNKNOWN, "program 38-39: UnknownImage")
    for error in (fault, Rejected(10, "report: line 4"), NotFound(127, "none"), FormError(3, "no"), pictures.PgmError("Short", [1, 2], ": x")):
        again = pickle.loads(pickle.dumps(error))
        assert type(again) is type(error) and str(again) == str(error) and vars(again) == vars(error)


@pytest.mark.parametrize("path", sorted([*PROGRAMS.glob("*.dk"), *(TOP / "examples" / "pipelines").glob("*.dk")]), ids=lambda path: str(path.stem))
def test_each_example_is_read_strictly(path: Path) -> None:
    """The report is the one that `dk plan` writes, byte for byte, and `nets` agrees with it."""
    raw = subprocess.run([compiler.find(), "plan", "--age", "1", path], capture_output=True, text=True, check=True).stdout
    program = compiler.load(path)
    report, nets = compiler.plan(program, age=1), compiler.nets(program, age=1)
    assert report.text() == raw and len(nets.reads) == report.reads
    assert [(image.name, image.width, image.delay) for image in nets.images] == [(image.name, image.width, image.delay) for image in report.images.values()]
    assert [report.images[output.name].delay for output in nets.outputs] == list(report.latencies)
    inputs = [line.split()[1] for line in path.read_text().splitlines() if line.startswith("input ")]
    assert [port.name for port in program.inputs] == inputs


def test_a_program_that_no_picture_fits_is_a_fault() -> None:
    for text, inputs, kind in [("size 1 1\noutput f\n", (), "Syntax"), ("size 1 1\ninput a : u17\noutput a\n", (TextPort("a", TextType(17)),), "InputType")]:
        with pytest.raises(Fault) as found:
            compiler.run(Stand(text, 1, 1, inputs, ()), eight([1]))
        assert found.value.kind == kind


def test_an_answer_of_another_form(tmp_path: Path, monkeypatch: pytest.MonkeyPatch) -> None:
    monkeypatch.setenv("DK", script(tmp_path, "cat >/dev/null; echo P5"))
    with pytest.raises(compiler.Ended, match="pictures of another form: image: Number 3: "):
        compiler.run(COPY, eight([1, 2, 3]))
    with pytest.raises(compiler.Ended, match="an answer of another form: 'P5'"):
        compiler.cut(COPY, 1)
    with pytest.raises(FormError, match="line 1: not a line `size`"):
        compiler.plan(COPY)


def test_two_lines_of_cut(tmp_path: Path, monkeypatch: pytest.MonkeyPatch) -> None:
    answer = "echo 'cut: definitions 4 levels 3'; echo 'cut: over 1: f operator g limit'"
    monkeypatch.setenv("DK", script(tmp_path, answer))
    assert compiler.cut(COPY, 1).over == (("f", "operator"), ("g", "limit"))
    for wrong in (answer.replace("limit", "limits"), answer.replace("over 1", "over 2"), answer.replace(" g limit", " g")):
        monkeypatch.setenv("DK", script(tmp_path, wrong))
        with pytest.raises(compiler.Ended, match="an answer of another form"):
            compiler.cut(COPY, 1)


def test_a_text_that_is_too_long() -> None:
    with pytest.raises(Fault) as found:
        compiler.parse_text(" " * 1048577)
    assert (found.value.answer, found.value.kind, found.value.line) == ("program: TooLong 1048576", "TooLong", None)


def test_calls_of_several_threads() -> None:
    """No call inherits the descriptors of another: each ends when its own input ends."""
    def copied(sample: int) -> object:
        found: object = shown(compiler.run(COPY, eight([sample, 0, sample])))
        return found

    with ThreadPoolExecutor(8) as pool:
        answers = list(pool.map(copied, range(40)))
    assert answers == [[[sample, 0, sample]] for sample in range(40)]
