"""The commands of the package: python3 -m darkroom COMMAND ..

Each failure is a text on standard error and a status: that of `dk` if `dk` failed, 2 for a wrong call, 4 for a file of
pictures, 130 for an interrupt, else 1. An output is never one of the inputs, and is written as a whole or not at all.
"""
from __future__ import annotations

import argparse
import json
import os
import sys
from typing import Callable, Mapping, NoReturn, Sequence

from . import compiler, page, pictures, synthesis, waves
from .compiler import Failure, Fault, Text
from .failures import MissingTool
from .pictures import Array, PgmError, PictureError


class _Parser(argparse.ArgumentParser):
    """A parser whose refusals are one line. An option is written whole."""

    def error(self, message: str) -> NoReturn:
        self.exit(2, _line(f"{self.prog}: {message} (see --help)"))


def _draw(words: argparse.Namespace) -> None:
    compiler.load(words.prog).draw(words.svg, age=words.age)


def _look(words: argparse.Namespace) -> None:
    program = compiler.load(words.prog)
    given = _first_round(program, words.pictures)
    cells = synthesis.cells(compiler.compile(program, age=words.age), words.cells) if words.cells else None
    text = page.page(program, given, os.path.basename(words.prog), words.age, cells)
    compiler.written(program, words.page, text, words.pictures)


def _place(words: argparse.Namespace) -> None:
    program = compiler.load(words.prog)
    verilog = compiler.compile(program, enable=words.enable, age=words.age, block=words.block)
    counted = synthesis.cells(verilog, words.device)
    print(f"{counted.device}: {counted.luts} look-up tables, {counted.flip_flops} flip-flops, {counted.carries} carries, "
          f"{counted.memories} block memories, {counted.multipliers} multipliers ({counted.tool})", flush=True)
    if words.seeds:
        placed = synthesis.place(verilog, words.device, words.seeds)
        print(f"{placed.device}: {', '.join(f'{rate:.1f}' for rate in placed.rates)} MHz ({placed.tool})", flush=True)


def _waves(words: argparse.Namespace) -> None:
    program = compiler.load(words.prog)
    given = _first_round(program, words.pictures)
    found = waves.trace(program, given, words.clocks, words.enable, words.age, words.block)
    shown = found.wavedrom(words.show.split(",") if words.show else list(found.values), words.first, words.last)
    compiler.written(program, words.json, json.dumps(shown, indent=1) + "\n", words.pictures)


def _first_round(program: Text, files: Sequence[str]) -> Mapping[str, Array]:
    """The pictures of the first round: each input's from a file of its own, or all from one PGM file."""
    names = [port.name for port in program.inputs]
    read = [array for file in files for array in _each(pictures.read(file))]
    if len(files) not in (1, len(names)):
        raise ValueError(f"there are {len(files)} files of pictures: give one with all inputs, or one for each of {', '.join(names)}")
    if len(files) > 1:
        read = [_each(pictures.read(file))[0] for file in files]
    if len(read) < len(names):
        raise ValueError(f"the pictures are of {len(read)} inputs, and the program has {len(names)}: {', '.join(names)}")
    return dict(zip(names, read))


def _each(array: Array) -> list[Array]:
    return [array] if array.ndim == 2 else list(array)


def _count(word: str) -> int:
    if not (word.isascii() and word.isdigit() and len(word) < 10):
        raise argparse.ArgumentTypeError(f"{word!r} is not a number")
    return int(word)


def _parser() -> argparse.ArgumentParser:
    parser = _Parser(prog="python3 -m darkroom", description="Figures of Darkroom programs.", allow_abbrev=False)
    commands = parser.add_subparsers(title="commands", metavar="COMMAND", required=True)

    def command(run: Callable[[argparse.Namespace], None], name: str, about: str) -> argparse.ArgumentParser:
        added = commands.add_parser(name, help=about, description=about, allow_abbrev=False)
        added.set_defaults(run=run)
        added.add_argument("--age", type=_count, default=0, metavar="K", help="0 to 64 clocks")
        return added

    look = command(_look, "look", "writes one HTML page: text, the picture of each image, plan, cells")
    look.add_argument("--cells", choices=list(synthesis.DEVICES), help="adds the cells of the circuit, by Yosys")
    look.add_argument("prog", metavar="PROG")
    look.add_argument("pictures", metavar="IN", nargs="+", help="one PGM file for all inputs, or a file for each input")
    look.add_argument("page", metavar="PAGE")
    draw = command(_draw, "draw", "draws the plan as SVG")
    draw.add_argument("prog", metavar="PROG")
    draw.add_argument("svg", metavar="SVG")
    place = command(_place, "place", "counts the cells of the circuit by Yosys, and finds clock rates by nextpnr")
    _add_circuit(place)
    place.add_argument("--device", choices=list(synthesis.DEVICES), default="HX8K")
    place.add_argument("--seeds", type=_count, default=1, metavar="N", help="seeds of nextpnr, by default 1; 0: cells only")
    place.add_argument("prog", metavar="PROG")
    shown = command(_waves, "waves", "writes the values of ports and images clock by clock, for WaveDrom")
    _add_circuit(shown)
    shown.add_argument("--clocks", type=_count, metavar="C", help="clocks after the reset, by default those of one round")
    shown.add_argument("--first", type=_count, default=0, metavar="T", help="the first time; 0 is the reset clock")
    shown.add_argument("--last", type=_count, metavar="T", help="the last time")
    shown.add_argument("--show", metavar="NAME,..", help="these ports and images only, from top to bottom")
    shown.add_argument("prog", metavar="PROG")
    shown.add_argument("pictures", metavar="IN", nargs="+", help="one PGM file for all inputs, or a file for each input")
    shown.add_argument("json", metavar="JSON")
    return parser


def _add_circuit(command: argparse.ArgumentParser) -> None:
    """The options of `compile`."""
    command.add_argument("--enable", action="store_true", help="with the port en")
    command.add_argument("--block", type=_count, metavar="N", help="fits arrays of N words or more to block memory")


def _line(text: str) -> str:
    """The text as one line that a terminal shows as it is."""
    return "".join(sign if sign.isprintable() else "?" for sign in text) + "\n"


def _shown(error: Exception) -> str:
    """What is said of a failure: one line, or for a fault of the program the lines of its messages."""
    if isinstance(error, Fault):
        return "".join(map(_line, str(error).split("\n")))
    if isinstance(error, OSError) and error.strerror:
        where = f": {os.fsdecode(error.filename)}" if isinstance(error.filename, (str, bytes)) else ""
        return _line(f"darkroom: {error.strerror}{where}")
    return _line(f"darkroom: {error}")


def _status(error: Exception) -> int:
    if isinstance(error, Failure):
        return error.status if 0 < error.status < 127 else 1
    return 4 if isinstance(error, (PictureError, PgmError)) else 1


def main(words: Sequence[str] | None = None) -> int:
    """Runs a command, and gives its status."""
    parsed = _parser().parse_args(words)
    try:
        parsed.run(parsed)
        return 0
    except KeyboardInterrupt:
        return 130
    except BrokenPipeError as error:
        # (what is left in the buffer of standard output would be written at the end, and fail again)
        os.dup2(os.open(os.devnull, os.O_WRONLY), 1)
        sys.stderr.write(_shown(error))
        return 1
    except (Failure, MissingTool, synthesis.ToolError, OSError, ValueError, TypeError) as error:
        sys.stderr.write(_shown(error))
        return _status(error)


if __name__ == "__main__":
    sys.exit(main())
