"""Darkroom programs: expressions, images, and the program text that they make (docs/LANGUAGE.md).

Each expression holds its text. So what is written is what was built, and a deep expression needs no recursion.
"""
from __future__ import annotations

import builtins
import operator
import os
import re
import sys
from dataclasses import dataclass
from enum import IntEnum
from itertools import count
from typing import Callable, Iterator, NoReturn, Sequence, SupportsIndex, Union

from .commands import Commands
from .value_types import (Type, check_type, common_type, type_of_difference, type_of_number, type_of_product,
                          type_of_sum)

MAX_OFFSET = 64
MAX_NUMBER = 2**64 - 1
MAX_SIZE = 4096
MAX_NAME = 64
MAX_TEXT = 1_048_576
COLUMNS = 100

RESERVED = frozenset("size input let inline im end output as select min max abs sat x y edge clamp".split())
_NAME = re.compile("[A-Za-z_][A-Za-z0-9_]*")
_TYPE_WORD = re.compile("[us](?:[1-9]|[1-5][0-9]|6[0-4])")
_BREAK = re.compile(r" (?=(?:<<|>>|[-+&|^]|[<>]=?|[=!]=) )|(?<=,) ")


# Reads

@dataclass(frozen=True)
class Coordinate:
    """`x` or `y`, plus a constant offset in pixels. It occurs only in a read: `a(x-1, y)`."""

    axis: str
    offset: int = 0

    __array_ufunc__ = None

    def __add__(self, other: SupportsIndex) -> Coordinate:
        return Coordinate(self.axis, self.offset + self._constant(other))

    __radd__ = __add__

    def __sub__(self, other: SupportsIndex) -> Coordinate:
        return Coordinate(self.axis, self.offset - self._constant(other))

    def _refuse(self, other: object = None) -> NoReturn:
        raise TypeError(f"{self.axis} has only a constant offset, as in a(x-1, y) or a(x, y+2)")

    __rsub__ = __mul__ = __rmul__ = __truediv__ = __floordiv__ = __mod__ = __neg__ = _refuse

    def _constant(self, other: object) -> int:
        whole = _whole(other)
        if whole is None:
            self._refuse()
        return whole

    def __str__(self) -> str:
        return f"{self.axis}{self.offset:+}" if self.offset else self.axis


x = Coordinate("x")
y = Coordinate("y")


class Image:
    """An input or a definition. `name` is its name in the text, `type` the type of its values.

    A call is a read: `a(x-1, y)` is the pixel to the left. Outside the frame it is 0, or the nearest pixel of the frame
    with `.clamp`.
    """

    __array_ufunc__ = None

    def __init__(self, program: Program, name: str, type: Type) -> None:
        self.program = program
        self.name = name
        self.type = type

    def __call__(self, at_x: Coordinate, at_y: Coordinate) -> Expression:
        """The value at a constant offset of -64 to 64 pixels.

        Raises TypeError if the coordinates are not x and y, ValueError for an offset above 64.
        """
        for axis, at in (("x", at_x), ("y", at_y)):
            if not isinstance(at, Coordinate) or at.axis != axis:
                raise TypeError(f"a read has x first and y second: write {self.name}(x, y) or {self.name}(x-1, y+1)")
            if builtins.abs(at.offset) > MAX_OFFSET:
                raise ValueError(f"{self.name}({at_x}, {at_y}): an offset is at most {MAX_OFFSET}; "
                                 "for a greater one read an image that reads this one")
        return Expression(f"{self.name}({at_x},{at_y})", Level.PRIMARY, self.type, self.program, is_read=True)

    def _refuse(self, other: object = None) -> NoReturn:
        raise TypeError(f"{self.name} is an image: read it, as in {self.name}(x, y)")

    __add__ = __radd__ = __sub__ = __rsub__ = __mul__ = __rmul__ = __truediv__ = __rtruediv__ = _refuse
    __floordiv__ = __rfloordiv__ = __lshift__ = __rshift__ = __and__ = __rand__ = __or__ = __ror__ = _refuse
    __xor__ = __rxor__ = __neg__ = __invert__ = __abs__ = __lt__ = __le__ = __gt__ = __ge__ = _refuse

    def __repr__(self) -> str:
        return f"<image {self.name} : {self.type}>"


class Input(Image):
    """An input of a program."""


# Expressions

class Level(IntEnum):
    """The precedence levels of the grammar, from the lowest."""

    COMPARISON = 0
    OR = 1
    XOR = 2
    AND = 3
    SHIFT = 4
    SUM = 5
    PRODUCT = 6
    CAST = 7
    UNARY = 8
    PRIMARY = 9


@dataclass(frozen=True, eq=False, repr=False)
class Expression:
    """An expression of the language, as text. `type` is its type by docs/LANGUAGE.md, "Types".

    It has no subclasses: Python would reverse a comparison with an instance of one. `is_read` is for a read that is not
    clamped.

    The operators are those of the language with Python's symbols: `//` is its division, which rounds toward zero, and `~`
    its `!`. An operand is an expression or a whole number. TypeError is raised for another operand, and ValueError for
    an image of another program, a number out of range, or a text longer than `dk` reads.
    """

    text: str
    level: Level
    type: Type
    program: Program | None = None
    is_read: bool = False

    __array_ufunc__ = None
    __hash__ = object.__hash__

    def __post_init__(self) -> None:
        if len(self.text) > MAX_TEXT:
            raise ValueError(f"the text of this expression is longer than the {MAX_TEXT:,} bytes that dk reads: "
                             "give parts of it names with let")

    # Sums, differences and products

    def __add__(self, other: Operand) -> Expression:
        return _binary(self, "+", other, Level.SUM, type_of_sum)

    def __radd__(self, other: Operand) -> Expression:
        if _is_number(other, 0):
            return self
        return _binary(other, "+", self, Level.SUM, type_of_sum)

    def __sub__(self, other: Operand) -> Expression:
        return _binary(self, "-", other, Level.SUM, type_of_difference)

    def __rsub__(self, other: Operand) -> Expression:
        return _binary(other, "-", self, Level.SUM, type_of_difference)

    def __mul__(self, other: Operand) -> Expression:
        return _binary(self, "*", other, Level.PRODUCT, type_of_product)

    def __rmul__(self, other: Operand) -> Expression:
        if _is_number(other, 1):
            return self
        return _binary(other, "*", self, Level.PRODUCT, type_of_product)

    def __neg__(self) -> Expression:
        return Expression(f"-{_within(self, Level.PRIMARY)}", Level.UNARY, Type(self.type.bits + 1, True), self.program)

    def __abs__(self) -> Expression:
        return _function("abs", [self], Type(self.type.bits, False))

    # Division and shifts by numbers

    def __floordiv__(self, number: SupportsIndex) -> Expression:
        return _by_number(self, "/", number, Level.PRODUCT, self.type)

    def __lshift__(self, number: SupportsIndex) -> Expression:
        places = _number_after("<<", number)
        return _by_number(self, "<<", places, Level.SHIFT, Type(self.type.bits + places, self.type.signed))

    def __rshift__(self, number: SupportsIndex) -> Expression:
        return _by_number(self, ">>", number, Level.SHIFT, self.type)

    # Bits

    def __and__(self, other: Operand) -> Expression:
        return _binary(self, "&", other, Level.AND, _type_of_bits)

    def __rand__(self, other: Operand) -> Expression:
        return _binary(other, "&", self, Level.AND, _type_of_bits)

    def __xor__(self, other: Operand) -> Expression:
        return _binary(self, "^", other, Level.XOR, _type_of_bits)

    def __rxor__(self, other: Operand) -> Expression:
        return _binary(other, "^", self, Level.XOR, _type_of_bits)

    def __or__(self, other: Operand) -> Expression:
        return _binary(self, "|", other, Level.OR, _type_of_bits)

    def __ror__(self, other: Operand) -> Expression:
        return _binary(other, "|", self, Level.OR, _type_of_bits)

    def __invert__(self) -> Expression:
        """`!`, of an expression of `u1`."""
        return Expression(f"!{_within(self, Level.PRIMARY)}", Level.UNARY, Type(1, False), self.program)

    # Comparisons, of type u1

    def __lt__(self, other: Operand) -> Expression:
        return _binary(self, "<", other, Level.COMPARISON, _type_of_comparison)

    def __le__(self, other: Operand) -> Expression:
        return _binary(self, "<=", other, Level.COMPARISON, _type_of_comparison)

    def __gt__(self, other: Operand) -> Expression:
        return _binary(self, ">", other, Level.COMPARISON, _type_of_comparison)

    def __ge__(self, other: Operand) -> Expression:
        return _binary(self, ">=", other, Level.COMPARISON, _type_of_comparison)

    def __eq__(self, other: Operand) -> Expression:  # type: ignore[override]
        return _binary(self, "==", other, Level.COMPARISON, _type_of_comparison)

    def __ne__(self, other: Operand) -> Expression:  # type: ignore[override]
        return _binary(self, "!=", other, Level.COMPARISON, _type_of_comparison)

    # Types and edges

    def as_(self, type: Type) -> Expression:
        """`as`: the number of the type's range that is equal modulo 2^N. It wraps; `sat` saturates."""
        text = f"{_within(self, Level.CAST)} as {check_type(type)}"
        return Expression(text, Level.CAST, type, self.program)

    @property
    def clamp(self) -> Expression:
        """A read with `edge clamp`: outside the frame it has the value of the nearest pixel of the frame.

        Raises AttributeError if the expression is not a read, or is clamped.
        """
        if not self.is_read:
            raise AttributeError("edge clamp belongs to a read without it: write a(x-1, y).clamp")
        return Expression(f"{self.text} edge clamp", Level.PRIMARY, self.type, self.program)

    # What is not in the language

    def __bool__(self) -> NoReturn:
        raise TypeError("an expression has no truth value in Python: write select(c, a, b) for if, "
                        "(p < q) & (q < r) for p < q < r, & | ~ for and, or, not, "
                        "and darkroom.min or darkroom.max for min or max")

    def __truediv__(self, other: object) -> NoReturn:
        raise TypeError("the language has whole numbers only: write e // 3, which rounds toward zero")

    __rtruediv__ = __truediv__

    def _refuse_operand(self, other: object) -> NoReturn:
        raise TypeError("the right operand of // << >> is a whole number: choose among numbers with select")

    __rfloordiv__ = __rlshift__ = __rrshift__ = _refuse_operand

    def __mod__(self, other: object) -> NoReturn:
        raise TypeError("the language has no remainder: write e & (2**n - 1), or e - e // n * n")

    __rmod__ = __mod__

    def __pow__(self, other: object) -> NoReturn:
        raise TypeError("the language has no power: write e * e")

    __rpow__ = __pow__

    def __str__(self) -> str:
        return self.text

    def __repr__(self) -> str:
        return f"<expression {self.text} : {self.type}>"


Operand = Union[Expression, SupportsIndex]
TypeRule = Callable[[Type, Type], Type]


def number(value: SupportsIndex) -> Expression:
    """A literal, -(2^64 - 1) to 2^64 - 1. It is needed only where both operands are numbers: `number(1) << 4`."""
    whole = _whole(value)
    if whole is None:
        _refuse_operand(value)
    if builtins.abs(whole) > MAX_NUMBER:
        raise ValueError(f"{whole} is out of range: a number has at most 64 bits")
    if whole < 0:
        return -number(-whole)
    return Expression(str(whole), Level.PRIMARY, type_of_number(whole))


def select(condition: Operand, if_one: Operand, if_zero: Operand) -> Expression:
    """`if_one` where the condition, of `u1`, is 1, else `if_zero`. The type is their common type."""
    operands = [_expression(operand) for operand in (condition, if_one, if_zero)]
    return _function("select", operands, common_type(operands[1].type, operands[2].type))


def min(left: Operand, right: Operand) -> Expression:
    """The smaller operand, in their common type."""
    operands = [_expression(left), _expression(right)]
    return _function("min", operands, common_type(operands[0].type, operands[1].type))


def max(left: Operand, right: Operand) -> Expression:
    """The greater operand, in their common type."""
    operands = [_expression(left), _expression(right)]
    return _function("max", operands, common_type(operands[0].type, operands[1].type))


def abs(value: Operand) -> Expression:
    """The absolute value. Its type is unsigned, of the operand's width."""
    return _expression(value).__abs__()


def sat(value: Operand, type: Type) -> Expression:
    """The number of the type's range that is nearest to the value. It saturates; `as_` wraps."""
    return _function("sat", [_expression(value)], check_type(type), f", {type}")



def _whole(value: object) -> int | None:
    """The whole number that the value is, also one of NumPy, or None."""
    if not isinstance(value, SupportsIndex):
        return None
    try:
        return operator.index(value)
    except TypeError:  # an array has __index__ too
        return None


def _is_number(value: object, number: int) -> bool:
    return _whole(value) == number


def _expression(value: object) -> Expression:
    """An operand: an expression itself, or a whole number as a literal."""
    if isinstance(value, Expression):
        return value
    whole = _whole(value)
    if whole is None:
        _refuse_operand(value)
    return number(whole)


def _refuse_operand(value: object) -> NoReturn:
    if isinstance(value, Image):
        raise TypeError(f"{value.name} is an image: read it, as in {value.name}(x, y)")
    if isinstance(value, Coordinate):
        raise TypeError("x and y occur only in reads, as in a(x-1, y)")
    if isinstance(value, float):
        raise TypeError(f"{value!r} is not a whole number: scale it, and divide the result by // or >>")
    raise TypeError(f"an operand is an expression or a whole number, not {type(value).__name__}")


def _program_of(operands: Sequence[Expression]) -> Program | None:
    """The program whose images the operands read. Raises ValueError if there are two."""
    programs = [operand.program for operand in operands if operand.program is not None]
    if any(program is not programs[0] for program in programs):
        raise ValueError("the expression reads images of two programs: declare all of them in one Program")
    return programs[0] if programs else None


def _within(operand: Expression, level: Level) -> str:
    """The operand's text where the grammar has this level, in brackets if it needs them."""
    return operand.text if operand.level >= level else f"({operand.text})"


def _binary(left: Operand, symbol: str, right: Operand, level: Level, type_of: TypeRule) -> Expression:
    """An operator between expressions. It associates to the left; a comparison does not chain."""
    first, second = _expression(left), _expression(right)
    above = Level(level + 1)
    space = "" if level == Level.PRODUCT else " "
    left_text = _within(first, above if level == Level.COMPARISON else level)
    text = f"{left_text}{space}{symbol}{space}{_within(second, above)}"
    return Expression(text, level, type_of(first.type, second.type), _program_of([first, second]))


def _by_number(left: Expression, symbol: str, number: object, level: Level, type: Type) -> Expression:
    """A division or shift by a number, which is not an expression."""
    space = "" if level == Level.PRODUCT else " "
    text = f"{_within(left, level)}{space}{symbol}{space}{_number_after(symbol, number)}"
    return Expression(text, level, type, left.program)


def _number_after(symbol: str, value: object) -> int:
    """The right operand of a division or shift."""
    written = "//" if symbol == "/" else symbol
    whole = _whole(value)
    if whole is None:
        raise TypeError(f"the right operand of {written} is a whole number: choose among numbers with select")
    if not 0 <= whole <= MAX_NUMBER:
        instead = "-(e // 3) for e // -3" if symbol == "/" else "the other shift for a negative one"
        raise ValueError(f"the right operand of {written} is not negative and has at most 64 bits: write {instead}")
    return whole


def _function(name: str, operands: Sequence[Expression], type: Type, rest: str = "") -> Expression:
    arguments = ", ".join(operand.text for operand in operands)
    return Expression(f"{name}({arguments}{rest})", Level.PRIMARY, type, _program_of(operands))


def _type_of_bits(left: Type, right: Type) -> Type:
    return Type(builtins.max(left.bits, right.bits), False)


def _type_of_comparison(left: Type, right: Type) -> Type:
    return Type(1, False)


# Programs

@dataclass(frozen=True)
class Source:
    """The file and the line, from 1, of a Python call."""

    file: str
    line: int


@dataclass(frozen=True)
class _Statement:
    """Lines of the text, and the call that wrote them."""

    lines: tuple[str, ...]
    source: Source


class Program(Commands):
    """A program on frames of `width` by `height` pixels, 1 to 4,096 each, that is built by calls.

    `text()` is the program text. `inputs` and `outputs` are images in the order of the text. `sources` has for each line
    of the text, from 1, the file and the line of the Python call that wrote it. TypeError or ValueError is raised for
    what cannot be written; `dk` judges the text.
    """

    def __init__(self, width: SupportsIndex, height: SupportsIndex) -> None:
        self._width = _size(width)
        self._height = _size(height)
        self._inputs: list[Input] = []
        self._outputs: list[Image] = []
        self._names: set[str] = set()
        self._head = [_Statement((f"size {self._width} {self._height}",), _caller())]
        self._body: list[_Statement] = []
        self._tail: list[_Statement] = []

    @property
    def width(self) -> int:
        return self._width

    @property
    def height(self) -> int:
        return self._height

    @property
    def inputs(self) -> list[Input]:
        return list(self._inputs)

    @property
    def outputs(self) -> list[Image]:
        return list(self._outputs)

    def input(self, name: str, type: Type) -> Input:
        """Declares an input, of a type u1 to u16. Raises ValueError if the name is not one, or is in use."""
        if _check_name(name) in self._names:
            raise ValueError(f"the name {name} is in use: an input is called by its name, so it needs one of its own")
        self._head.append(_Statement((f"input {name} : {check_type(type)}",), _caller()))
        self._names.add(name)
        image = Input(self, name, type)
        self._inputs.append(image)
        return image

    def let(self, body: Operand, type: Type | None = None, name: str | None = None, *,
            declared: Type | None = None) -> Image:
        """Defines an image whose value at each point is that of the body.

        With `type` the body is cast to it, which wraps: `body as type`. `declared` is the declared type, `let f : type`:
        it does not change a value, and `dk` refuses a body that may not fit. Without a name the image is `t1`, `t2` ..; a
        name in use gets `_2`, `_3` ... Raises ValueError if the name is not one, or if the body reads another program.
        """
        return self._define("let", body, type, name, declared)

    def inline(self, body: Operand, type: Type | None = None, name: str | None = None, *,
               declared: Type | None = None) -> Image:
        """Defines an image without a line buffer: its body is substituted at each use. Else as `let`."""
        return self._define("inline let", body, type, name, declared)

    def output(self, image: Image) -> None:
        """Makes an image an output. Its type is u1 to u16."""
        if isinstance(image, Expression):
            raise TypeError("an output is an image: write p.output(p.let(..))")
        if not isinstance(image, Image):
            raise TypeError(f"an output is an image, not {builtins.type(image).__name__}")
        if image.program is not self:
            raise ValueError(f"{image.name} is an image of another program")
        self._tail.append(_Statement((f"output {image.name}",), _caller()))
        self._outputs.append(image)

    def text(self) -> str:
        """The program text. It ends with a line end."""
        return "".join(f"{line}\n" for line, _ in self._lines())

    @property
    def sources(self) -> dict[int, Source]:
        """The Python call of each line of the text, from 1. An empty line has none."""
        return {at: source for at, (_, source) in enumerate(self._lines(), start=1) if source is not None}

    def __str__(self) -> str:
        return self.text()

    def __repr__(self) -> str:
        names = ", ".join(image.name for image in self._outputs)
        return f"<program {self._width} by {self._height}: {names or 'no output yet'}>"

    def _repr_html_(self) -> str:
        from .page import notebook
        return notebook(self)

    def _define(self, word: str, body: Operand, type: Type | None, name: str | None, declared: Type | None) -> Image:
        expression = _expression(body)
        if expression.program not in (None, self):
            raise ValueError("the body reads an image of another program")
        if type is not None:
            expression = expression.as_(type)
        colon = "" if declared is None else f" : {check_type(declared)}"
        free = self._free_name(name)
        head = f"{word} {free}{colon} = im(x,y)"
        self._body.append(_Statement(_layout(head, expression.text), _caller()))
        self._names.add(free)
        return Image(self, free, declared or expression.type)

    def _free_name(self, name: str | None) -> str:
        """The first free one of `name`, `name_2`, `name_3` .., or of `t1`, `t2` .. without a name."""
        if name is None:
            return next(free for at in count(1) if (free := f"t{at}") not in self._names)
        if _check_name(name) not in self._names:
            return name
        tails = (f"_{at}" for at in count(2))
        return next(free for tail in tails if (free := name[:MAX_NAME - len(tail)] + tail) not in self._names)

    def _lines(self) -> Iterator[tuple[str, Source | None]]:
        for at, part in enumerate(part for part in (self._head, self._body, self._tail) if part):
            if at:
                yield "", None
            for statement in part:
                for line in statement.lines:
                    yield line, statement.source


def _size(value: SupportsIndex) -> int:
    whole = _whole(value)
    if whole is None:
        raise TypeError(f"a width or height is a whole number of pixels, not {value!r}")
    if not 1 <= whole <= MAX_SIZE:
        raise ValueError(f"a width or height is 1 to {MAX_SIZE:,} pixels, not {whole}")
    return whole


def _check_name(name: str) -> str:
    """The name itself. Raises ValueError if it is not a Darkroom name."""
    if not isinstance(name, str):
        raise TypeError(f"a name is a text, not {type(name).__name__}")
    if not _NAME.fullmatch(name):
        raise ValueError(f"{name!r} is not a Darkroom name: write an ASCII letter or _, then letters, digits or _")
    if len(name) > MAX_NAME:
        raise ValueError(f"{name!r} is not a Darkroom name: it has more than {MAX_NAME} characters")
    if name in RESERVED:
        raise ValueError(f"{name} is not a Darkroom name: it is a word of the language")
    if _TYPE_WORD.fullmatch(name):
        raise ValueError(f"{name} is not a Darkroom name: it is a type")
    return name


def _layout(head: str, body: str) -> tuple[str, ...]:
    """The lines of a definition: one, or the body in lines of its own. White space means nothing in a body."""
    whole = f"{head} {body} end"
    if len(whole) <= COLUMNS:
        return (whole,)
    first, *pieces = _BREAK.split(body)
    lines = [f"    {first}"]
    for piece in pieces:
        if len(lines[-1]) + 1 + len(piece) <= COLUMNS:
            lines[-1] += f" {piece}"
        else:
            lines.append(f"      {piece}")
    return (head, *lines, "end")


def _caller() -> Source:
    """The nearest call outside this package."""
    frame = sys._getframe()
    folder = os.path.dirname(os.path.abspath(__file__))
    while frame.f_back is not None and os.path.dirname(os.path.abspath(frame.f_code.co_filename)) == folder:
        frame = frame.f_back
    return Source(frame.f_code.co_filename, frame.f_lineno)
