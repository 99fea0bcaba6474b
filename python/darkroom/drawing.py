"""The drawing of a plan as SVG: line buffers as bars, and live reads as arrows.

Each image has a row, in the order of the text. Its bar begins at its delay, is as long as its line buffer and as high as
a pixel has bits, so that its area is the bits of the buffer. An arrow is a live read. It leaves the bar of the image that
is read at the age of the read, and ends at the delay of the reader. templates/plan.svg has the form.
"""
from __future__ import annotations

from dataclasses import dataclass
from textwrap import wrap
from typing import Iterable, Mapping

from .report import NetRead, Nets, Report
from .templating import render

WIDE, LEFT, RIGHT, TOP = 900, 300, 740, 62
INK = "#1a1a1a"
COLOURS = ("#1b4f8a", "#9a3412", "#2c6e2f", "#6a3d9a", "#7a5c00", "#00696b", "#a01a58", "#4a4a4a")
FEET = ("A bar begins at the delay of its image. It is as long as the line buffer, and its area is the bits of the buffer.",
        "An arrow is a live read: it leaves the bar at its age (the numbers below the bar) and ends at the delay of the reader.")

Ages = Mapping[tuple[str, str], frozenset[int]]


@dataclass(frozen=True)
class Label:
    """A text in the middle of x."""

    x: float
    text: str


@dataclass(frozen=True)
class Row:
    """The row of an image. All places and lengths are pixels of the drawing; `end` is where the bar ends."""

    name: str
    about: str
    buffer: str
    reads: tuple[str, ...]
    ages: tuple[Label, ...]
    colour: str
    top: float
    x: float
    y: float
    length: float
    high: float

    @property
    def middle(self) -> float:
        return _point(self.y + self.high / 2)

    @property
    def end(self) -> float:
        return _point(self.x + self.length)

    @property
    def next(self) -> float:
        """Where the next row begins."""
        return self.top + max(50 + self.high / 2, 38 + 13 * len(self.reads))


@dataclass(frozen=True)
class Arrow:
    """A live read, as a curve with one bend. `colour` is a place in `COLOURS`."""

    x: float
    y: float
    bend_x: float
    bend_y: float
    to_x: float
    to_y: float
    colour: int


def draw(report: Report, nets: Nets) -> str:
    """The plan as SVG. `nets` is what `nets` has of the same program and age.

    Raises ValueError if the images, delays or ages of `nets` are not those of the report, and `MissingTool` without Jinja2.
    """
    ages = _ages(report, nets)
    end = max(1, *(image.delay + image.depth for image in report.images.values()))
    across = (RIGHT - LEFT) / end
    rows = _rows(report, ages, across)
    foot = _point(rows[-1].next)
    marks = [Label(_point(LEFT + clock * across), f"{clock:,}") for clock in _marks(report, end)]
    return render("plan.svg", wide=WIDE, high=round(foot + 8 + 16 * len(FEET)), top=TOP, right=RIGHT, foot=foot,
                  head=_head(report, nets), colours=COLOURS, marks=marks, rows=rows, feet=FEET,
                  arrows=_arrows(rows, ages, across))


def _ages(report: Report, nets: Nets) -> dict[tuple[str, str], frozenset[int]]:
    """The ages of the live reads in clocks, by the reader and the image that is read."""
    if [(image.name, image.width, image.delay) for image in nets.images] != \
            [(image.name, image.width, image.delay) for image in report.images.values()]:
        raise ValueError("the nets are not of the program of the report, or are of another age")
    found: dict[tuple[str, str], set[int]] = {}
    for read in nets.reads:
        found.setdefault((read.reader, read.name), set()).add(_age(report, read))
    return {pair: frozenset(ages) for pair, ages in found.items()}


def _age(report: Report, read: NetRead) -> int:
    between = report.images[read.reader].delay - report.images[read.name].delay
    if read.age != between - read.dy * report.width - read.dx:
        raise ValueError(f"the age of {read.reader}'s read of {read.name} is not that of the report")
    return read.age


def _rows(report: Report, ages: Ages, across: float) -> list[Row]:
    """The rows from top to bottom. `across` is the pixels of a clock."""
    a_bit = min(2.0, 26 / max(image.width for image in report.images.values()))
    colours = _colours(report, ages)
    rows: list[Row] = []
    for image in report.images.values():
        top = rows[-1].next if rows else TOP
        high = max(image.width * a_bit, 2)
        x = LEFT + image.delay * across
        reads = [line for source in report.images if (image.name, source) in ages
                 for line in _read_lines(source, ages[image.name, source])]
        of_it = frozenset(age for (_, source), several in ages.items() if source == image.name for age in several)
        buffer = f"{_many(image.depth, 'word')}, {_many(image.bits, 'bit')}" if image.depth else "no buffer"
        rows.append(Row(image.name, f"{_many(image.width, 'bit')}, delay {image.delay:,}", buffer, tuple(reads),
                        tuple(_age_labels(x, of_it, across)), COLOURS[colours[image.name]] if image.name in colours else INK,
                        _point(top), _point(x), _point(top + 16 - high / 2), _point(image.depth * across), _point(high)))
    return rows


def _colours(report: Report, ages: Ages) -> dict[str, int]:
    """The place in `COLOURS` of each image that reads one."""
    readers = [name for name in report.images if any(reader == name for reader, _ in ages)]
    return {name: at % len(COLOURS) for at, name in enumerate(readers)}


def _arrows(rows: list[Row], ages: Ages, across: float) -> list[Arrow]:
    place = {row.name: at for at, row in enumerate(rows)}
    arrows: list[Arrow] = []
    for (reader, source), several in sorted(ages.items()):
        goal, begin = rows[place[reader]], rows[place[source]]
        # an arrow past other rows is bent to the left, so that arrows at one clock do not cover one another
        bend = 9 * (place[reader] - place[source] - 1)
        for age in sorted(several):
            x, y = begin.x + age * across, begin.y + begin.high
            arrows.append(Arrow(_point(x), _point(y), _point((x + goal.x) / 2 - bend), _point((y + goal.middle) / 2),
                                goal.x, _point(goal.middle - 2), COLOURS.index(goal.colour)))
    return arrows


def _read_lines(source: str, ages: frozenset[int]) -> list[str]:
    return wrap(f"reads {source} at age {', '.join(_range_text(*part) for part in ranges(ages))}", 50)


def _age_labels(x: float, ages: frozenset[int], across: float) -> Iterable[Label]:
    """The ages below a bar that begins at x, as far as there is room."""
    free = 0.0
    for first, last in ranges(ages):
        text = _range_text(first, last)
        at = x + (first + last) / 2 * across
        if at - 3 * len(text) > free:
            yield Label(_point(at), text)
            free = at + 3 * len(text) + 4


def ranges(numbers: Iterable[int]) -> list[tuple[int, int]]:
    """The numbers as ranges of consecutive ones, each as its first and its last number."""
    found: list[tuple[int, int]] = []
    for number in sorted(set(numbers)):
        if found and found[-1][1] == number - 1:
            found[-1] = (found[-1][0], number)
        else:
            found.append((number, number))
    return found


def _range_text(first: int, last: int) -> str:
    return f"{first:,}" if first == last else f"{first:,}-{last:,}"


def _marks(report: Report, end: int) -> Iterable[int]:
    """Clocks on the scale: multiples of the frame's width, or of the width by a power of two."""
    step = report.width
    while step * (RIGHT - LEFT) < 36 * end:
        step *= 2
    return range(0, end + 1, step) if step <= end else sorted({0, end})


def _head(report: Report, nets: Nets) -> str:
    latency = ", ".join(f"{each:,}" for each in report.latencies)
    return (f"Frames of {report.width} by {report.height}, age {report.age}: {_many(report.bits, 'buffer bit')}, "
            f"latency {latency}, {_many(len(nets.reads), 'live read')}")


def _many(count: int, thing: str) -> str:
    return f"{count:,} {thing}{'' if count == 1 else 's'}"


def _point(number: float) -> float:
    return round(number, 1)
