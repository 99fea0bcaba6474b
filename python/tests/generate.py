"""Random programs for the tests, as trees; the Darkroom expressions that Python's operators make of them; calls of dk."""
from __future__ import annotations

import operator
import re
import subprocess
from dataclasses import dataclass
from pathlib import Path
from typing import Any, Callable, Mapping

from hypothesis import strategies as st
from hypothesis.strategies import DrawFn, SearchStrategy

import darkroom
from darkroom import Expression, Image, Type, x, y
from model import BINARY, BY_NUMBER, Frame, Kind, TooWide, Tree, kind_of, value_of

DK = Path(__file__).resolve().parents[2] / "bin" / "dk"

OPERATORS: dict[str, Callable[[Any, Any], Expression]] = {
    "+": operator.add, "-": operator.sub, "*": operator.mul, "/": operator.floordiv, "<<": operator.lshift,
    ">>": operator.rshift, "&": operator.and_, "|": operator.or_, "^": operator.xor, "<": operator.lt, "<=": operator.le,
    ">": operator.gt, ">=": operator.ge, "==": operator.eq, "!=": operator.ne}
FORMS = [*BINARY, *BY_NUMBER, "neg", "not", "select", "min", "max", "abs", "as", "sat"]


# Trees

def kinds(most: int = 64) -> SearchStrategy[Kind]:
    return st.builds(Kind, st.integers(1, most), st.booleans())


@st.composite
def leaves(draw: DrawFn, images: Mapping[str, Kind]) -> Tree:
    if draw(st.integers(0, 3)) == 0:
        return Tree("number", (), (draw(st.one_of(st.integers(0, 5), st.integers(0, 2**draw(st.integers(1, 64)) - 1))),))
    offset = st.integers(-2, 2)
    return Tree("read", (), (draw(st.sampled_from(sorted(images))), draw(offset), draw(offset), draw(st.booleans())))


@st.composite
def trees(draw: DrawFn, images: Mapping[str, Kind], depth: int) -> Tree:
    """A tree that dk accepts: an operand of a wrong type, or of too many bits, is cast."""
    if depth == 0 or draw(st.integers(0, 4)) == 0:
        return draw(leaves(images))
    form = draw(st.sampled_from(FORMS))
    count = 3 if form == "select" else 2 if form in BINARY or form in ("min", "max") else 1
    operands = tuple(draw(trees(images, depth - 1)) for _ in range(count))
    rest: tuple[object, ...] = ()
    if form in ("as", "sat"):
        rest = (draw(kinds()),)
    elif form in BY_NUMBER:
        rest = (draw(st.integers(1, 9) if form == "/" else st.integers(0, 20)),)
    return fitted(Tree(form, operands, rest), images)


def fitted(tree: Tree, images: Mapping[str, Kind]) -> Tree:
    operands = list(tree.operands)
    if tree.form in "&|^":
        signed = [kind_of(operand, images).signed for operand in operands]
        operands = [Tree("abs", (o,)) if is_signed else o for o, is_signed in zip(operands, signed)]
    if tree.form in ("not", "select") and kind_of(operands[0], images) != Kind(1, False):
        operands[0] = Tree("as", (operands[0],), (Kind(1, False),))
    new = Tree(tree.form, tuple(operands), tree.rest)
    try:
        kind_of(new, images)
    except TooWide:
        skipped = 1 if tree.form == "select" else 0
        narrow = [Tree("as", (operand,), (Kind(20, kind_of(operand, images).signed),)) for operand in operands[skipped:]]
        new = Tree(tree.form, (*operands[:skipped], *narrow), tree.rest)
    return new


# Expressions

def build(tree: Tree, images: Mapping[str, Image]) -> Expression:
    """The expression that Python's operators make of the tree. Numbers are Python's where that keeps the tree."""
    if tree.form == "number":
        return darkroom.number(int(str(tree.rest[0])))
    if tree.form == "read":
        return built_read(tree, images)
    built = [build(operand, images) for operand in tree.operands]
    if tree.form in BINARY:
        return OPERATORS[tree.form](*plain(tree, built))
    if tree.form in BY_NUMBER:
        return OPERATORS[tree.form](built[0], tree.rest[0])
    if tree.form in ("as", "sat"):
        kind = tree.rest[0]
        assert isinstance(kind, Kind)
        type = Type(kind.bits, kind.signed)
        return built[0].as_(type) if tree.form == "as" else darkroom.sat(built[0], type)
    if tree.form in ("neg", "not"):
        return -built[0] if tree.form == "neg" else ~built[0]
    function: Callable[..., Expression] = getattr(darkroom, tree.form)
    return function(*(python_number(operand, part) for operand, part in zip(tree.operands, built)))


def python_number(tree: Tree, built: Expression) -> Any:
    if tree.form == "number":
        return tree.rest[0]
    if tree.form == "neg" and tree.operands[0].form == "number" and tree.operands[0].rest[0]:
        return -int(str(tree.operands[0].rest[0]))
    return built


def plain(tree: Tree, built: list[Expression]) -> tuple[Any, Any]:
    """The operands, one of them as a Python number if that is possible."""
    left, right = (python_number(operand, part) for operand, part in zip(tree.operands, built))
    if isinstance(right, int):
        return built[0], right
    is_unchanged = isinstance(left, int) and (tree.form, left) not in (("+", 0), ("*", 1)) and BINARY[tree.form] > 0
    return left if is_unchanged else built[0], built[1]


def built_read(tree: Tree, images: Mapping[str, Image]) -> Expression:
    name, dx, dy, is_clamped = tree.rest
    read = images[str(name)](x + int(str(dx)), int(str(dy)) + y)
    return read.clamp if is_clamped else read


# Programs

@dataclass(frozen=True)
class Definition:
    name: str
    tree: Tree
    is_inline: bool
    cast: Kind | None
    declared: Kind | None

    def whole(self) -> Tree:
        return self.tree if self.cast is None else Tree("as", (self.tree,), (self.cast,))


@dataclass(frozen=True)
class Sample:
    """Inputs with their pictures, and definitions. The outputs are four parts of 16 bits of the last definition."""

    inputs: dict[str, Kind]
    frames: dict[str, Frame]
    definitions: list[Definition]


def parts(name: str) -> list[Tree]:
    read = Tree("read", (), (name, 0, 0, False))
    return [Tree("as", (Tree(">>", (read,), (16 * at,)),), (Kind(16, False),)) for at in range(4)]


@st.composite
def samples(draw: DrawFn, depth: int = 4) -> Sample:
    width, height = draw(st.integers(1, 5)), draw(st.integers(1, 4))
    inputs = {name: Kind(draw(st.integers(1, 16)), False) for name in ("a", "b")}
    frames = {}
    for name, kind in inputs.items():
        line = st.lists(st.integers(0, 2**kind.bits - 1), min_size=width, max_size=width)
        frames[name] = draw(st.lists(line, min_size=height, max_size=height))
    images, definitions = dict(inputs), []
    for at in range(draw(st.integers(1, 3))):
        tree = draw(trees(images, depth))
        cast = draw(st.none() | kinds())
        kind = cast or kind_of(tree, images)
        declared = draw(st.none() | kinds().filter(lambda other: other.accepts(kind))) if kind.bits < 40 else None
        definitions.append(Definition(f"d{at}", tree, draw(st.booleans()), cast, declared))
        images[f"d{at}"] = declared or kind
    return Sample(inputs, frames, definitions)


def program_of(sample: Sample) -> tuple[darkroom.Program, dict[str, Image]]:
    frame = sample.frames["a"]
    program = darkroom.Program(len(frame[0]), len(frame))
    images: dict[str, Image] = {name: program.input(name, to_type(kind)) for name, kind in sample.inputs.items()}
    for one in sample.definitions:
        define = program.inline if one.is_inline else program.let
        cast, declared = [None if kind is None else to_type(kind) for kind in (one.cast, one.declared)]
        images[one.name] = define(build(one.tree, images), cast, one.name, declared=declared)
    for at, part in enumerate(parts(sample.definitions[-1].name)):
        program.output(program.let(build(part, images), name=f"part{at}"))
    return program, images


def to_type(kind: Kind) -> Type:
    return Type(kind.bits, kind.signed)


def frames_of(sample: Sample) -> list[Frame]:
    """The pictures of the outputs, by the model."""
    images = dict(sample.frames)
    height, width = len(images["a"]), len(images["a"][0])

    def frame(tree: Tree) -> Frame:
        return [[value_of(tree, images, column, line) for column in range(width)] for line in range(height)]

    for one in sample.definitions:
        images[one.name] = frame(one.whole())
    return [frame(part) for part in parts(sample.definitions[-1].name)]


# Calls of dk

def evaluate(text: str, frames: list[Frame], bits: list[int], folder: Path) -> list[Frame]:
    """What `dk eval` makes of the text and one round of pictures."""
    (folder / "program.dk").write_text(text, encoding="ascii")
    (folder / "in.pgm").write_bytes(b"".join(to_pgm(frame, depth) for frame, depth in zip(frames, bits)))
    words = [str(DK), "eval", str(folder / "program.dk"), str(folder / "in.pgm"), str(folder / "out.pgm")]
    done = subprocess.run(words, capture_output=True, text=True, timeout=60)
    assert done.returncode == 0, f"{done.stderr}\n{text}"
    return from_pgm((folder / "out.pgm").read_bytes())


def fault_of(text: str, folder: Path) -> str:
    """The line of the fault that dk reports, or nothing."""
    (folder / "program.dk").write_text(text, encoding="ascii")
    words = [str(DK), "plan", str(folder / "program.dk")]
    return subprocess.run(words, capture_output=True, text=True, timeout=60).stderr.strip()


def to_pgm(frame: Frame, bits: int) -> bytes:
    most = 2**bits - 1
    samples = b"".join(value.to_bytes(1 if most < 256 else 2, "big") for line in frame for value in line)
    return f"P5\n{len(frame[0])} {len(frame)}\n{most}\n".encode() + samples


def from_pgm(content: bytes) -> list[Frame]:
    frames, at = [], 0
    while at < len(content):
        head = re.compile(rb"P5\n(\d+) (\d+)\n(\d+)\n").match(content, at)
        assert head is not None
        width, height, most = (int(word) for word in head.groups())
        size = 1 if most < 256 else 2
        at = head.end() + width * height * size
        raster = content[head.end():at]
        values = [int.from_bytes(raster[i:i + size], "big") for i in range(0, len(raster), size)]
        frames.append([values[i:i + width] for i in range(0, len(values), width)])
    return frames
