"""The page of a program: one HTML file with its text, the picture of each kept image, its plan and its circuit's cells.

The page refers to no other file. templates/page.html has the form.
"""
from __future__ import annotations

import base64
import html
import io
import re
from dataclasses import dataclass, replace
from typing import Iterator, Mapping, Sequence

import numpy as np
from PIL import Image as Pillow

from . import compiler, drawing
from .compiler import Failure, Program, Text, TextPort, TextType
from .failures import MissingTool
from .pictures import Array, Pictures, gather
from .report import Report
from .synthesis import Cells
from .templating import render

SHOWN_BITS = 16
OUTPUTS = 8


@dataclass(frozen=True)
class Shown:
    """A kept image: its name, its width in bits, and whether it is signed.

    An output has at most 16 bits and no sign. So `dropped` low bits are left out, and half the range is added to a signed
    image.
    """

    name: str
    width: int
    signed: bool

    @property
    def dropped(self) -> int:
        return max(0, self.width - SHOWN_BITS)

    @property
    def bits(self) -> int:
        return self.width - self.dropped

    @property
    def half(self) -> int:
        return 1 << (self.bits - 1) if self.signed else 0

    def body(self) -> str:
        """The body of a definition that shows the image."""
        value = f"{self.name}(x,y)"
        if self.dropped:
            value = f"({value} >> {self.dropped})"
        if self.signed:
            value = f"({value} + {self.half})"
        return f"{value} as u{self.bits}" if self.signed or self.dropped else value

    def value(self, sample: int) -> int:
        """The value that a sample stands for; of a wide image the least of those that it stands for."""
        return (sample - self.half) << self.dropped

    def caption(self, samples: Array) -> str:
        least, greatest = self.value(int(samples.min())), self.value(int(samples.max()))
        note = f", without its {self.dropped} lowest bits" if self.dropped else ""
        return f"{'s' if self.signed else 'u'}{self.width}, from {least:,} to {greatest:,}{note}"


@dataclass(frozen=True)
class Figure:
    """A picture of the page: a PNG in base 64, and what is written below it."""

    name: str
    data: str
    caption: str


def page(program: Program, pictures: Pictures, name: str = "program", age: int = 0, cells: Cells | None = None) -> str:
    """The page as HTML.

    `pictures` are those of `eval`; of several rounds the first one is shown. Samples are stretched, so that the least one
    of a picture is black and the greatest one white; the caption has both, as values of the image. Raises what `eval` and
    `plan` raise, and `MissingTool` without Jinja2.
    """
    report = compiler.plan(program, age)
    nets = compiler.nets(program, age=age)
    latencies = {output.name: latency for output, latency in zip(program.outputs, report.latencies)}
    figures = [_figure(image, samples) for image, samples in images(program, report, pictures)]
    return render("page.html", name=name, report=report, latencies=latencies, figures=figures, cells=cells,
                  drawing=drawing.draw(report, nets), text=_shown_text(program))


def notebook(program: Program) -> str:
    """What a notebook shows of a program: its text, and its plan or what is wrong with it."""
    text = f"<pre>{html.escape(_shown_text(program))}</pre>"
    try:
        return text + drawing.draw(compiler.plan(program), compiler.nets(program))
    except (Failure, MissingTool) as error:
        return f"{text}<pre>{html.escape(str(error))}</pre>"


def _shown_text(program: Program) -> str:
    """The text with a sign for each byte that is not UTF-8."""
    return program.text().encode("utf-8", "surrogateescape").decode("utf-8", "replace")


def images(program: Program, report: Report, pictures: Pictures) -> Iterator[tuple[Shown, Array]]:
    """Each kept image with its samples of the first round, of shape (height, width)."""
    front = _front(program)
    ports = [(port.name, port.type.bits) for port in program.inputs]
    arrays, _ = gather(ports, (program.height, program.width), pictures)
    first = {name: array[0] for (name, _), array in zip(ports, arrays)}
    shown = _signed(program, front, report)
    for at in range(0, len(shown), OUTPUTS):
        part = shown[at:at + OUTPUTS]
        names = _unused(front, len(part))
        answer = compiler.evaluate(_with(program, front, {name: image.body() for name, image in zip(names, part)},
                                         [TextPort(name, TextType(image.bits)) for name, image in zip(names, part)]), first)
        for name, image in zip(names, part):
            yield image, answer[name] if isinstance(answer, dict) else answer


def _front(program: Program) -> str:
    """The text before its outputs, without comments."""
    bare = re.sub("--[^\n]*", "", program.text())
    return re.split(r"\boutput\b", bare, maxsplit=1)[0].rstrip() + "\n"


def _with(program: Program, front: str, bodies: Mapping[str, str], outputs: Sequence[TextPort]) -> Text:
    """The program with more definitions, a line for each, and with other outputs."""
    lines = [f"let {name} = im(x,y) {body} end\n" for name, body in bodies.items()]
    inputs = tuple(TextPort(port.name, TextType(port.type.bits)) for port in program.inputs)
    content = "".join([front, *lines, *(f"output {port.name}\n" for port in outputs)])
    return Text(content, program.width, program.height, inputs, tuple(outputs))


def _signed(program: Program, front: str, report: Report) -> list[Shown]:
    """The kept images: one is signed if it does not fit an unsigned type of its width, by the judgement of `explain`."""
    found = [Shown(image.name, image.width, False) for image in report.images.values()]
    for at in range(0, len(found), OUTPUTS):
        part = found[at:at + OUTPUTS]
        names = _unused(front, len(part))
        heads = {f"{name} : u{image.width}": f"{image.name}(x,y)" for name, image in zip(names, part)}
        probe = _with(program, front, heads, [TextPort(program.inputs[0].name, TextType(program.inputs[0].type.bits))])
        first = front.count("\n") + 1
        wrong = {message.line for message in compiler.messages(probe)}
        found[at:at + OUTPUTS] = [replace(image, signed=first + row in wrong) for row, image in enumerate(part)]
    return found


def _unused(text: str, count: int) -> list[str]:
    taken = set(re.findall(r"\w+", text))
    return [name for name in (f"shown{at}" for at in range(len(taken) + count)) if name not in taken][:count]


def _figure(image: Shown, samples: Array) -> Figure:
    content = io.BytesIO()
    Pillow.fromarray(stretched(samples)).save(content, "PNG")
    return Figure(image.name, base64.b64encode(content.getvalue()).decode("ascii"), image.caption(samples))


def stretched(samples: Array) -> Array:
    """The samples from 0, the least one, to 255, the greatest one, as uint8."""
    wide = samples.astype(np.int64)
    least, greatest = int(wide.min()), int(wide.max())
    return ((wide - least) * 255 // max(1, greatest - least)).astype(np.uint8)
