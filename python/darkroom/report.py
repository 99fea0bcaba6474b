"""Reports of `dk plan` and lines of `dk nets`, as dataclasses.

docs/REPORT.md defines the report, and docs/COMMANDS.md the lines of `nets`. Both are read strictly: a line that is not of
the form raises `FormError` with its number. Whether a report holds is judged by `dk check` only.

Units: a delay, a depth, an age and a latency are clocks; a width is bits; dx and dy are pixels.
"""
from __future__ import annotations

import hashlib
import re
from dataclasses import dataclass
from typing import Iterator, Mapping, Union

RESERVED = frozenset("size input let inline im end output as select min max abs sat x y edge clamp".split())
MOST = 2**64 - 1
KINDS = ("hold", "start", "read", "keep")

_NAME = re.compile("[A-Za-z_][A-Za-z0-9_]{0,63}")
_TYPE = re.compile("[us]([1-9]|[1-5][0-9]|6[0-4])")
_NUMBER = re.compile("0|[1-9][0-9]{0,19}")
_OFFSET = re.compile("0|-?[1-9][0-9]{0,3}")
_DIGEST = re.compile("[0-9a-f]{64}")
_NET = re.compile("[A-Za-z_][A-Za-z0-9_$]*")


class FormError(ValueError):
    """A text that is not of the form. `line` is the number of the first line that cannot continue it, from 1."""

    def __init__(self, line: int, reason: str) -> None:
        super().__init__(line, reason)
        self.line = line
        self.reason = reason

    def __str__(self) -> str:
        return f"line {self.line}: {self.reason}"


@dataclass(frozen=True)
class Image:
    """A kept image: its width in bits, its delay in clocks, and the depth of its line buffer in words."""

    name: str
    width: int
    delay: int
    depth: int

    @property
    def bits(self) -> int:
        """The bits of its line buffer."""
        return self.width * self.depth


@dataclass(frozen=True)
class Flow:
    """The flow of a constraint `hold` or `start` of an image."""

    kind: str
    image: str
    flow: int

    def words(self) -> str:
        return f"{self.kind} {self.image} {self.flow}"


@dataclass(frozen=True)
class ReadFlow:
    """The flow of a constraint `read` or `keep`: `reader` reads `image` at (dx, dy)."""

    kind: str
    reader: str
    image: str
    dx: int
    dy: int
    flow: int

    def words(self) -> str:
        return f"{self.kind} {self.reader} {self.image} {self.dx} {self.dy} {self.flow}"


AnyFlow = Union[Flow, ReadFlow]


@dataclass(frozen=True)
class Report:
    """A report of `plan`, with the names of docs/REPORT.md. `width` and `height` are the frame's, in pixels.

    `images` has the kept images by name, in the order of the program. `latencies` has the latency of each output.
    `limits` and `reads` are None in a report of version 1, which has no such lines.
    """

    version: int
    limits: tuple[int, int] | None
    age: int
    width: int
    height: int
    images: Mapping[str, Image]
    latencies: tuple[int, ...]
    clocks: int
    bits: int
    reads: int | None
    flows: tuple[AnyFlow, ...]

    @property
    def latency(self) -> int:
        """The greatest latency of an output, in clocks."""
        return max(self.latencies)

    def text(self) -> str:
        """The report as a text, which `parse` reads again."""
        return "".join(f"{line}\n" for line in self._lines())

    def _lines(self) -> Iterator[str]:
        if self.limits is not None:
            yield f"plan {self.version}"
            yield f"limits {self.limits[0]} {self.limits[1]}"
            yield f"age {self.age}"
        yield f"size {self.width} {self.height}"
        for image in self.images.values():
            yield f"image {image.name} {image.width} {image.delay} {image.depth}"
        for latency in self.latencies:
            yield f"latency {latency}"
        yield f"clocks {self.clocks}"
        yield f"bits {self.bits}"
        if self.reads is not None:
            yield f"reads {self.reads}"
        for flow in self.flows:
            yield f"flow {flow.words()}"
        if self.version > 1:
            yield "end"


class _Lines:
    """The lines of a text, one after another."""

    def __init__(self, text: str) -> None:
        self.lines = text.split("\n")
        self.rest = self.lines.pop()
        self.at = 0

    def fault(self, reason: str) -> FormError:
        """The fault of the line that was taken last."""
        return FormError(self.at, reason)

    def begins(self, word: str) -> bool:
        """Whether the next line is there and has this first word."""
        return self.at < len(self.lines) and self.lines[self.at].split(" ")[0] == word

    def take(self, word: str, count: int) -> list[str]:
        """The fields after this word of the next line, which has `count` of them."""
        self.at += 1
        if self.at > len(self.lines):
            raise self.fault("the line has no LF" if self.rest else f"the text ends where a line `{word}` must be")
        first, *fields = self.lines[self.at - 1].split(" ")
        if first != word:
            raise self.fault(f"not a line `{word}`")
        if len(fields) != count:
            raise self.fault(f"`{word}` has {count} fields, not {len(fields)}")
        return fields

    def end(self) -> None:
        """The text ends here."""
        self.at += 1
        if self.at <= len(self.lines) or self.rest:
            raise self.fault("a line after the end")

    def number(self, field: str, least: int = 0, most: int = MOST) -> int:
        if not _NUMBER.fullmatch(field) or not least <= int(field) <= most:
            raise self.fault(f"{field!r} is not a number from {least} to {most}")
        return int(field)

    def single(self, word: str, least: int = 0, most: int = MOST) -> int:
        """The number of the next line, which has this word and one number."""
        return self.number(self.take(word, 1)[0], least, most)

    def offset(self, field: str) -> int:
        if not _OFFSET.fullmatch(field) or abs(int(field)) > 4095:
            raise self.fault(f"{field!r} is not a number from -4095 to 4095")
        return int(field)

    def name(self, field: str) -> str:
        if not _NAME.fullmatch(field) or field in RESERVED or _TYPE.fullmatch(field):
            raise self.fault(f"{field!r} is not a name")
        return field

    def net(self, field: str) -> str:
        if not _NET.fullmatch(field):
            raise self.fault(f"{field!r} is not a net")
        return field


def parse(text: str) -> Report:
    """Reads a report of version 1, 2 or 3. Raises `FormError` by the rules of docs/REPORT.md, "Reading a report"."""
    lines = _Lines(text)
    version, limits, age = _head(lines)
    width, height = (lines.number(field, 1, 4096) for field in lines.take("size", 2))
    images = _images(lines, 264 if version == 3 else 257)
    latencies = [lines.single("latency")]
    while version == 3 and len(latencies) < 8 and lines.begins("latency"):
        latencies.append(lines.single("latency"))
    clocks = lines.single("clocks")
    bits = lines.single("bits")
    reads = lines.single("reads") if version > 1 else None
    flows = _flows(lines, list(images))
    if version > 1:
        lines.take("end", 0)
    lines.end()
    return Report(version, limits, age, width, height, images, tuple(latencies), clocks, bits, reads, flows)


def _head(lines: _Lines) -> tuple[int, tuple[int, int] | None, int]:
    """The version, the limits and the age. Version 1 has no such lines, and its age is 0."""
    if not lines.begins("plan"):
        return 1, None, 0
    version = lines.single("plan", 2, 3)
    bits, latency = (lines.number(field) for field in lines.take("limits", 2))
    return version, (bits, latency), lines.single("age", 0, 64)


def _images(lines: _Lines, most: int) -> dict[str, Image]:
    images: dict[str, Image] = {}
    while not images or len(images) < most and lines.begins("image"):
        name, width, delay, depth = lines.take("image", 4)
        if lines.name(name) in images:
            raise lines.fault(f"a second image {name!r}")
        images[name] = Image(name, lines.number(width, 1, 64), lines.number(delay), lines.number(depth))
    return images


def _flows(lines: _Lines, names: list[str]) -> tuple[AnyFlow, ...]:
    """The flow lines, which are in strictly ascending order."""
    place = {name: at for at, name in enumerate(names)}
    flows: list[AnyFlow] = []
    last: tuple[int, ...] = ()
    while lines.begins("flow"):
        flow = _flow(lines, place)
        if isinstance(flow, Flow):
            order: tuple[int, ...] = (KINDS.index(flow.kind), place[flow.image])
        else:
            order = (KINDS.index(flow.kind), place[flow.reader], place[flow.image], flow.dy, flow.dx)
        if order <= last:
            raise lines.fault("the flow lines are not in ascending order")
        last = order
        flows.append(flow)
    return tuple(flows)


def _flow(lines: _Lines, place: Mapping[str, int]) -> AnyFlow:
    kind = lines.lines[lines.at].split(" ")[1:2]
    fields = lines.take("flow", 3 if kind in (["hold"], ["start"]) else 6)
    if fields[0] not in KINDS:
        raise lines.fault(f"{fields[0]!r} is not a kind of constraint")
    images = fields[1:2] if len(fields) == 3 else fields[1:3]
    for image in images:
        if image not in place:
            raise lines.fault(f"there is no image line of {image!r}")
    flow = lines.number(fields[-1], 1)
    if len(images) == 1:
        return Flow(fields[0], images[0], flow)
    return ReadFlow(fields[0], images[0], images[1], lines.offset(fields[3]), lines.offset(fields[4]), flow)


# The lines of `nets`

@dataclass(frozen=True)
class NetImage:
    """The net of a kept image: at clock t it is pixel t - delay of the image. `width` is in bits."""

    name: str
    net: str
    width: int
    delay: int


@dataclass(frozen=True)
class NetRead:
    """The net of a live read of `reader`: the pixel of `name` at (dx, dy), which came `age` clocks before."""

    reader: str
    name: str
    dx: int
    dy: int
    net: str
    age: int


@dataclass(frozen=True)
class NetOutput:
    """The ports of an output."""

    name: str
    valid: str
    dout: str


@dataclass(frozen=True)
class Nets:
    """The lines of `nets`, in their order. `digest` is the SHA-256 (FIPS 180-4) of the Verilog text, in 64 digits of lowercase hex."""

    digest: str
    images: tuple[NetImage, ...]
    reads: tuple[NetRead, ...]
    outputs: tuple[NetOutput, ...]

    @property
    def inputs(self) -> tuple[NetImage, ...]:
        """The images that are inputs. They are the first ones, and the net of number k is the k-th port `din`."""
        count = 0
        while count < len(self.images) and self.images[count].net == f"din{count or ''}":
            count += 1
        return self.images[:count]

    def is_of(self, verilog: str) -> bool:
        """Whether the nets are those of this Verilog text, by its digest."""
        return hashlib.sha256(verilog.encode("ascii")).hexdigest() == self.digest


def parse_nets(text: str) -> Nets:
    """Reads what `nets` prints. Raises `FormError` with the number of the first line that is not of its form."""
    lines = _Lines(text)
    kind, digest = lines.take("text", 2)
    if kind != "sha256" or not _DIGEST.fullmatch(digest):
        raise lines.fault("not the SHA-256 of a text")
    images: list[NetImage] = []
    reads: list[NetRead] = []
    outputs: list[NetOutput] = []
    while not images or lines.begins("image"):
        name, net, width, delay = lines.take("image", 4)
        images.append(NetImage(lines.name(name), lines.net(net), lines.number(width, 1, 64), lines.number(delay)))
    while lines.begins("read"):
        reader, name, dx, dy, net, age = lines.take("read", 6)
        reads.append(NetRead(lines.name(reader), lines.name(name), lines.offset(dx), lines.offset(dy),
                             lines.net(net), lines.number(age)))
    while not outputs or lines.begins("output"):
        name, valid, dout = lines.take("output", 3)
        outputs.append(NetOutput(lines.name(name), lines.net(valid), lines.net(dout)))
    lines.end()
    return Nets(digest, tuple(images), tuple(reads), tuple(outputs))
