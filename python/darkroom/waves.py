"""Traces of a program's circuit (docs/COMMANDS.md, "The trace of trace"), and waves for WaveDrom.

Time 0 is the reset clock, and time k the clock k - 1. A value is the one before the edge.
"""
from __future__ import annotations

from dataclasses import dataclass
from typing import Iterator, Mapping, Sequence, Union

from . import compiler
from .pictures import Pictures, encode_rounds, gather
from .report import Nets

Wave = Mapping[str, Union[str, list[str]]]


class TraceError(ValueError):
    """A text that is not a value change dump that this module reads. The text is one line."""


@dataclass(frozen=True)
class Trace:
    """The values of a trace: `values` has for each variable one number for each time, `widths` its bits."""

    widths: Mapping[str, int]
    values: Mapping[str, tuple[int, ...]]

    @property
    def times(self) -> int:
        """The number of times, the reset clock among them."""
        return len(next(iter(self.values.values()), ()))

    def named(self, nets: Nets) -> Trace:
        """The ports, and each kept image under its own name."""
        ports = [name for name in self.widths if not _is_net(name)]
        pairs = [(name, name) for name in ports] + [(image.name, image.net) for image in nets.images if image.name not in ports]
        return Trace({name: self.widths[net] for name, net in pairs}, {name: self.values[net] for name, net in pairs})

    def wavedrom(self, names: Sequence[str], first: int = 0, last: int | None = None) -> dict[str, object]:
        """The object of WaveJSON with these variables at the times `first` to `last`, from top to bottom.

        Its ticks are clocks, so the reset clock is -1. Raises ValueError for an unknown variable or times that are not there.
        """
        end = self.times - 1 if last is None else last
        if not 0 <= first <= end < self.times:
            raise ValueError(f"the times {first} to {end} are not in a trace of the times 0 to {self.times - 1}")
        for name in names:
            if name not in self.values:
                raise ValueError(f"there is no variable {name!r}: there are {', '.join(self.values)}")
        signal = [_wave(name, self.widths[name], self.values[name][first:end + 1]) for name in names]
        return {"signal": signal, "head": {"tick": first - 1}}


def _is_net(name: str) -> bool:
    """Whether it is a wire or register of the text that `compile` writes, and no port."""
    return name[:1] in ("n", "r") and name[1:].isdigit()


def _wave(name: str, width: int, values: Sequence[int]) -> Wave:
    """A lane of WaveJSON. A point means that the value stays."""
    wave, data = "", []
    for at, value in enumerate(values):
        if at and values[at - 1] == value:
            wave += "."
        elif width == 1:
            wave += str(value)
        else:
            wave += "="
            data.append(str(value))
    return {"name": name, "wave": wave, "data": data} if width > 1 else {"name": name, "wave": wave}


def parse(text: str) -> Trace:
    """Reads a value change dump with numbers of 0 and 1, as `trace` writes it.

    Blanks and line ends are of any number, and the changes of a time in any order. Raises `TraceError`.
    """
    words = iter(text.split())
    try:
        widths, codes = _declared(words)
        return _changes(words, widths, codes)
    except StopIteration:
        raise TraceError("the trace ends early") from None


def _declared(words: Iterator[str]) -> tuple[dict[str, int], dict[str, str]]:
    """The widths of the variables, and the names by their codes."""
    widths: dict[str, int] = {}
    codes: dict[str, str] = {}
    for word in words:
        if not word.startswith("$"):
            raise TraceError(f"{word[:40]!r} where a declaration must be")
        part = list(_until_end(words))
        if word == "$enddefinitions":
            return widths, codes
        if word == "$var":
            if len(part) < 4 or not (part[1].isascii() and part[1].isdigit()):
                raise TraceError("a declaration `$var` without its width, code and name")
            widths[part[3]] = int(part[1])
            codes[part[2]] = part[3]
    raise TraceError("the trace ends in its declarations")


def _until_end(words: Iterator[str]) -> Iterator[str]:
    for word in words:
        if word == "$end":
            return
        yield word
    raise TraceError("the trace ends in a declaration")


def _changes(words: Iterator[str], widths: Mapping[str, int], codes: Mapping[str, str]) -> Trace:
    """The values at each time. The last time of a trace only shows where it ends."""
    now: dict[str, int] = {}
    values: dict[str, list[int]] = {name: [] for name in widths}
    time: int | None = None
    for word in words:
        if word.startswith("#"):
            after = _whole(word[1:], 10)
            if time is not None:
                if after <= time or len(now) != len(widths):
                    raise TraceError(f"time {after} does not follow time {time} with all values")
                for name, several in values.items():
                    several.extend([now[name]] * (after - time))
            elif after:
                raise TraceError("the first time is not 0")
            time = after
        elif word not in ("$dumpvars", "$end"):
            digits, code = (word[1:], next(words)) if word[0] in "bB" else (word[0], word[1:])
            if code not in codes or time is None:
                raise TraceError(f"a change of {code[:40]!r}, which is no variable, or before the first time")
            now[codes[code]] = _whole(digits, 2)
    if not time:
        raise TraceError("the trace has no clock")
    return Trace(dict(widths), {name: tuple(several) for name, several in values.items()})


def _whole(digits: str, base: int) -> int:
    if not digits or not set(digits) <= set("0123456789"[:base]):
        raise TraceError(f"{digits[:40]!r} is not a number")
    return int(digits, base)


def trace(program: compiler.Program, given: Pictures, clocks: int | None = None, enable: bool = False, age: int = 0,
          block: int | None = None) -> Trace:
    """The trace of the circuit that `compile` writes with these options, with the images by their names.

    `given` are pictures as for `eval`. `clocks` is the number of clocks after the reset, by default those of the rounds and
    of the latency. Raises what `eval` and `compile` raise.
    """
    ports = [(port.name, port.type.bits) for port in program.inputs]
    arrays, _ = gather(ports, (program.height, program.width), given)
    nets = compiler.nets(program, enable, age, block)
    if clocks is None:
        outputs = {output.name for output in nets.outputs}
        latency = max(image.delay for image in nets.images if image.name in outputs)
        clocks = len(arrays[0]) * program.width * program.height + latency
    verilog = compiler.compile(program, enable=enable, age=age, block=block)
    text = compiler.trace(verilog, clocks, encode_rounds(arrays, [bits for _, bits in ports]))
    return parse(text).named(nets)
