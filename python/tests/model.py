"""The language by docs/LANGUAGE.md, for tests only: trees, types, values, and a reader of bodies. It imports no darkroom."""
from __future__ import annotations

import operator
import re
from dataclasses import dataclass
from typing import Callable, Mapping, NamedTuple

BINARY: dict[str, int] = {"<": 0, "<=": 0, ">": 0, ">=": 0, "==": 0, "!=": 0, "|": 1, "^": 2, "&": 3, "+": 5, "-": 5, "*": 6}
BY_NUMBER: dict[str, int] = {"<<": 4, ">>": 4, "/": 6}
COMPARISONS = {"<": operator.lt, "<=": operator.le, ">": operator.gt, ">=": operator.ge, "==": operator.eq, "!=": operator.ne}
EXACT: dict[str, Callable[[int, int], int]] = {
    "+": operator.add, "-": operator.sub, "*": operator.mul, "&": operator.and_, "|": operator.or_, "^": operator.xor,
    "min": min, "max": max}


class Kind(NamedTuple):
    bits: int
    signed: bool

    def word(self) -> str:
        return ("s" if self.signed else "u") + str(self.bits)

    def wrap(self, value: int) -> int:
        value %= 1 << self.bits
        return value - (1 << self.bits) if self.signed and value >= 1 << (self.bits - 1) else value

    def nearest(self, value: int) -> int:
        least = -(1 << (self.bits - 1)) if self.signed else 0
        return max(least, min(value, least + (1 << self.bits) - 1))

    def accepts(self, body: Kind) -> bool:
        if self.signed and not body.signed:
            return body.bits < self.bits
        return self.signed == body.signed and body.bits <= self.bits


@dataclass(frozen=True)
class Tree:
    """`form` is an operator, a function's word, `number` or `read`. `rest` is what is not an operand."""

    form: str
    operands: tuple[Tree, ...] = ()
    rest: tuple[object, ...] = ()


class TooWide(Exception):
    pass


def common(a: Kind, b: Kind) -> Kind:
    if a.signed == b.signed:
        return Kind(max(a.bits, b.bits), a.signed)
    return Kind(max(a.bits, b.bits + 1) if a.signed else max(a.bits + 1, b.bits), True)


def kind_of(tree: Tree, images: Mapping[str, Kind]) -> Kind:
    """The type of a tree by the table of "Types". Raises TooWide above 64 bits."""
    kind = _kind(tree.form, [kind_of(operand, images) for operand in tree.operands], tree.rest, images)
    if kind.bits > 64:
        raise TooWide
    return kind


def _kind(form: str, kinds: list[Kind], rest: tuple[object, ...], images: Mapping[str, Kind]) -> Kind:
    if form == "number":
        return Kind(max(1, len(bin(int(str(rest[0])))) - 2), False)
    if form == "read":
        return images[str(rest[0])]
    if form in ("as", "sat"):
        assert isinstance(rest[0], Kind)
        return rest[0]
    if form in ("select", "min", "max") or form in COMPARISONS:
        shared = common(kinds[-2], kinds[-1])
        if shared.bits > 64:
            raise TooWide
        return Kind(1, False) if form in COMPARISONS else shared
    return _operator(form, kinds, rest)


def _operator(form: str, kinds: list[Kind], rest: tuple[object, ...]) -> Kind:
    first, last = kinds[0], kinds[-1]
    if form == "+":
        return Kind(common(first, last).bits + 1, first.signed or last.signed)
    if form == "-":
        return Kind(common(first, last).bits + 1, True)
    if form == "*":
        return Kind(first.bits + last.bits, first.signed or last.signed)
    if form in ("/", ">>"):
        return first
    if form == "<<":
        return Kind(first.bits + int(str(rest[0])), first.signed)
    if form == "neg":
        return Kind(first.bits + 1, True)
    if form == "not":
        return Kind(1, False)
    return Kind(max(first.bits, last.bits), False)  # abs, & | ^


Frame = list[list[int]]


def value_of(tree: Tree, images: Mapping[str, Frame], at_x: int, at_y: int) -> int:
    """The value of a tree at a point."""
    if tree.form == "number":
        return int(str(tree.rest[0]))
    if tree.form == "read":
        return _read(tree, images, at_x, at_y)
    values = [value_of(operand, images, at_x, at_y) for operand in tree.operands]
    first = values[0]
    if tree.form in EXACT:
        return EXACT[tree.form](first, values[1])
    if tree.form in COMPARISONS:
        return int(COMPARISONS[tree.form](first, values[1]))
    if tree.form in BY_NUMBER:
        return _by_number(tree.form, first, int(str(tree.rest[0])))
    if tree.form in ("as", "sat"):
        kind = tree.rest[0]
        assert isinstance(kind, Kind)
        return kind.wrap(first) if tree.form == "as" else kind.nearest(first)
    if tree.form == "select":
        return values[1] if first == 1 else values[2]
    return {"neg": -first, "not": 1 - first, "abs": abs(first)}[tree.form]


def _by_number(form: str, value: int, number: int) -> int:
    if form == "/":
        return abs(value) // number if value >= 0 else -(abs(value) // number)
    power = 1 << number
    return value * power if form == "<<" else value // power


def _read(tree: Tree, images: Mapping[str, Frame], at_x: int, at_y: int) -> int:
    name, dx, dy, is_clamped = tree.rest
    frame = images[str(name)]
    height, width = len(frame), len(frame[0])
    column, line = at_x + int(str(dx)), at_y + int(str(dy))
    if is_clamped:
        column, line = min(max(column, 0), width - 1), min(max(line, 0), height - 1)
    return frame[line][column] if 0 <= column < width and 0 <= line < height else 0


TOKEN = re.compile(r"\s*([A-Za-z_][A-Za-z0-9_]*|[0-9]+|<<|<=|>>|>=|==|!=|[-<>=!|^&+*/(),:])")
BODY = re.compile(r"(inline )?let (\w+)(?: : (\w+))? = im\(x,y\)\s+(.*?)\s+end\n", re.DOTALL)


def tokens_of(text: str) -> list[str]:
    text = text.strip()
    tokens, at = [], 0
    while at < len(text):
        found = TOKEN.match(text, at)
        if not found:
            raise SyntaxError(text[at:])
        tokens.append(found[1])
        at = found.end()
    return tokens


def parse(tokens: list[str]) -> Tree:
    """The tree of a body. Raises SyntaxError if it is not an expression."""
    reader = Reader(tokens)
    tree = reader.level(0)
    if reader.at < len(tokens):
        raise SyntaxError(reader.next())
    return tree


class Reader:
    """A reader of expressions by the grammar."""

    def __init__(self, tokens: list[str]) -> None:
        self.tokens = tokens
        self.at = 0

    def next(self) -> str:
        return self.tokens[self.at] if self.at < len(self.tokens) else ""

    def take(self, *words: str) -> str:
        token = self.next()
        if words and token not in words:
            raise SyntaxError(f"{token} where {words} is expected")
        self.at += 1
        return token

    def level(self, level: int) -> Tree:
        if level == 7:
            return self.cast()
        tree = self.level(level + 1)
        while True:
            form = self.next()
            if BINARY.get(form) == level:
                tree = Tree(self.take(), (tree, self.level(level + 1)))
                if level == 0:
                    return tree
            elif BY_NUMBER.get(form) == level:
                tree = Tree(self.take(), (tree,), (self.number(),))
            else:
                return tree

    def number(self) -> int:
        if not self.next().isdigit():
            raise SyntaxError(self.next())
        return int(self.take())

    def kind(self) -> Kind:
        word = self.take()
        if not re.fullmatch("[us]([1-9][0-9]?)", word):
            raise SyntaxError(word)
        return Kind(int(word[1:]), word[0] == "s")

    def cast(self) -> Tree:
        tree = self.unary()
        while self.next() == "as":
            self.take()
            tree = Tree("as", (tree,), (self.kind(),))
        return tree

    def unary(self) -> Tree:
        if self.next() in ("-", "!"):
            form = "neg" if self.take() == "-" else "not"
            return Tree(form, (self.primary(),))
        return self.primary()

    def primary(self) -> Tree:
        if self.next().isdigit():
            return Tree("number", (), (self.number(),))
        word = self.take()
        if word == "(":
            tree = self.level(0)
            self.take(")")
            return tree
        if not re.fullmatch("[A-Za-z_][A-Za-z0-9_]*", word):
            raise SyntaxError(word)
        self.take("(")
        arity = {"select": 3, "min": 2, "max": 2, "abs": 1, "sat": 1}.get(word)
        return self.read(word) if arity is None else self.call(word, arity)

    def call(self, word: str, arity: int) -> Tree:
        operands = [self.level(0)]
        while len(operands) < arity:
            self.take(",")
            operands.append(self.level(0))
        rest: tuple[object, ...] = ()
        if word == "sat":
            self.take(",")
            rest = (self.kind(),)
        self.take(")")
        return Tree(word, tuple(operands), rest)

    def read(self, name: str) -> Tree:
        self.take("x")
        dx = self.offset()
        self.take(",")
        self.take("y")
        dy = self.offset()
        self.take(")")
        is_clamped = self.next() == "edge"
        if is_clamped:
            self.take("edge")
            self.take("clamp")
        return Tree("read", (), (name, dx, dy, is_clamped))

    def offset(self) -> int:
        if self.next() in ("+", "-"):
            return self.number() if self.take() == "+" else -self.number()
        return 0
