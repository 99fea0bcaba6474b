#!/usr/bin/env python3
"""Compares the types that `narrow` writes for the definitions of small random programs with all values that these have, by brute force.

A program has two inputs of 1 to 3 bits and all operators. The values of a definition are computed from its body by the rules of docs/LANGUAGE.md, at each
point of the frame and for each combination of the pixels that are read. A definition that reads pixels of more than 12 bits is not counted. The script
counts the definitions, those whose type is the least one that holds their values, and those that became narrower. Ends with status 1 if a type does not
hold a value or is wider than before, if a narrowed text has another form, if the pictures that `eval` writes are other ones, or if a call failed.

usage: tests/intervals.py PROGRAM [COUNT [SEED]]
"""

import itertools
import random
import re
import sys
import tempfile

from cuts import Calls

MOST_BITS = 12

# A type is whether it is signed, and its width.
WORDS = re.compile(r"([us])(\d+)")
LINE = re.compile(r"(?:inline )?let (\w+)(?: ?: ?(\w+))? = im\(x,y\) (.*) end")


def name_of(ty):
    return f"{'s' if ty[0] else 'u'}{ty[1]}"


def type_of(word):
    kind, width = WORDS.fullmatch(word).groups()
    return kind == "s", int(width)


def ends(ty):
    """The least and the greatest number of a type."""
    return (-(1 << ty[1] - 1), (1 << ty[1] - 1) - 1) if ty[0] else (0, (1 << ty[1]) - 1)


def holds(ty, value):
    return ends(ty)[0] <= value <= ends(ty)[1]


def least_width(values):
    """The fewest bits of a type that holds the values."""
    return next(width for width in range(1, 65) for signed in (False, True) if all(holds((signed, width), value) for value in values))


def common(left, right):
    if left[0] == right[0]:
        return left[0], max(left[1], right[1])
    return True, max(ty[1] + (not ty[0]) for ty in (left, right))


# the operators' values

def quotient(a, k):
    return a // k if a >= 0 else -(-a // k)


def wrapped(a, signed, width):
    a %= 1 << width
    return a - (1 << width) if signed and a >> width - 1 else a


def saturated(a, signed, width):
    least, greatest = ends((signed, width))
    return min(max(a, least), greatest)


NAMES = {"quotient": quotient, "wrapped": wrapped, "saturated": saturated, "abs": abs, "min": min, "max": max}
COMPARISONS = ("<", "<=", ">", ">=", "==", "!=")
SIMPLE = ("+", "-", "*", *COMPARISONS, "&", "|", "^")


class Node:
    """An expression: its form, its operands, and what else it has."""

    def __init__(self, form, *parts, **has):
        self.form, self.parts, self.has = form, parts, has

    def type(self, types):
        """Its type, where the images have these types."""
        own = [part.type(types) for part in self.parts]
        form, has = self.form, self.has
        if form == "number":
            return False, max(1, has["value"].bit_length())
        if form == "read":
            return types[has["image"]]
        if form in ("as", "sat"):
            return has["to"]
        if form in COMPARISONS or form == "!":
            return False, 1
        if form in ("/", ">>"):
            return own[0]
        if form == "<<":
            return own[0][0], own[0][1] + has["by"]
        if form == "neg":
            return True, own[0][1] + 1
        if form == "abs":
            return False, own[0][1]
        if form in ("min", "max", "select"):
            return common(own[-2], own[-1])
        if form == "*":
            return own[0][0] or own[1][0], own[0][1] + own[1][1]
        signed, width = common(*own)
        if form in ("&", "|", "^"):
            return signed, width
        return signed or form == "-", width + 1

    def operand(self, others=()):
        """Its text as an operand of other forms than these."""
        text = self.text()
        return text if self.form in ("number", "read", "select", "min", "max", "abs", "sat", *others) else f"({text})"

    def text(self):
        own = [part.operand() for part in self.parts]
        form, has = self.form, self.has
        if form == "number":
            return str(has["value"])
        if form == "read":
            at = ",".join(letter + (f"{move:+d}" if move else "") for letter, move in zip("xy", has["by"]))
            return f"{has['image']}({at})" + (" edge clamp" if has["clamp"] else "")
        if form in SIMPLE:
            return f"{own[0]} {form} {own[1]}"
        if form in ("/", "<<", ">>"):
            return f"{own[0]} {form} {has['by']}"
        if form == "as":
            return f"{own[0]} as {name_of(has['to'])}"
        if form == "sat":
            return f"sat({own[0]}, {name_of(has['to'])})"
        if form in ("neg", "!"):
            return f"{'-' if form == 'neg' else '!'}{own[0]}"
        return f"{form}({', '.join(own)})"

    def formula(self, program, x, y, pixels):
        """Its value at a point, as a formula of Python over pixels of inputs, which are added to a set."""
        own = [] if self.form == "read" else [part.formula(program, x, y, pixels) for part in self.parts]
        form, has = self.form, self.has
        if form == "number":
            return str(has["value"])
        if form == "read":
            at = (x + has["by"][0], y + has["by"][1])
            if has["clamp"]:
                at = tuple(min(max(place, 0), side - 1) for place, side in zip(at, program.size))
            return program.formula(has["image"], *at, pixels)
        if form in COMPARISONS:
            return f"int({own[0]} {form} {own[1]})"
        if form in SIMPLE or form in ("<<", ">>"):
            return f"({own[0]} {form} {own[1] if form in SIMPLE else has['by']})"
        if form == "/":
            return f"quotient({own[0]}, {has['by']})"
        if form in ("as", "sat"):
            return f"{'wrapped' if form == 'as' else 'saturated'}({own[0]}, {has['to'][0]}, {has['to'][1]})"
        if form == "neg":
            return f"(-{own[0]})"
        if form == "!":
            return f"(1 - {own[0]})"
        if form == "select":
            return f"({own[1]} if {own[0]} else {own[2]})"
        return f"{form}({', '.join(own)})"


class Program:
    """Inputs with types, and definitions: whether each is inline, its declared type or None, and its body."""

    def __init__(self, draw):
        self.size = draw.randint(1, 3), draw.randint(1, 2)
        self.inputs = {name: (False, draw.randint(1, 3)) for name in "ab"}
        self.types, self.definitions = dict(self.inputs), {}
        for number in range(draw.randint(1, 4)):
            body = self.expression(draw, draw.randint(1, 3))
            own = body.type(self.types)
            declared = (own[0] or draw.random() < 0.5, own[1] + 1 + draw.randint(0, 3)) if draw.random() < 0.4 else None
            self.add(f"f{number}", draw.random() < 0.3, declared, body)
        self.outputs = [self.output(name) for name in list(self.definitions)]

    def add(self, name, inline, declared, body):
        self.definitions[name] = inline, declared, body
        self.types[name] = declared or body.type(self.types)

    def output(self, name):
        """Adds an output that shows a definition, by its lowest 16 bits."""
        own = f"o{name[1:]}"
        self.add(own, False, None, Node("as", Node("read", image=name, by=(0, 0), clamp=False), to=(False, 16)))
        return own

    def read(self, draw):
        moves = [draw.choice((0, 0, -1, 1)) for _ in "xy"] if draw.random() < 0.5 else (0, 0)
        images = list(self.types)
        image = draw.choice(images[2:] if len(images) > 2 and draw.random() < 0.6 else images)
        return Node("read", image=image, by=moves, clamp=draw.random() < 0.3)

    def converted(self, draw, node, signed=None):
        to = draw.random() < 0.4 if signed is None else signed, draw.randint(1, 6)
        return Node(draw.choice(("as", "sat")), node, to=to)

    def unsigned(self, draw, node):
        """The expression, or a conversion of it, without a sign."""
        if not node.type(self.types)[0]:
            return node
        return Node("abs", node) if draw.random() < 0.3 else self.converted(draw, node, False)

    def condition(self, draw, node):
        """The expression, or one made of it, of one bit."""
        if node.type(self.types) == (False, 1):
            return node
        return Node(draw.choice(COMPARISONS), node, Node("number", value=draw.randint(0, 4)))

    def expression(self, draw, depth):
        if depth == 0 or draw.random() < 0.1:
            return Node("number", value=draw.randint(0, 9)) if draw.random() < 0.2 else self.read(draw)
        node = self.form(draw, draw.choice((*SIMPLE, "+", "-", "*", "/", ">>", "<<", "neg", "!", "abs", "min", "max", "select", "as", "sat")), depth - 1)
        return node if node.type(self.types)[1] <= 20 else self.converted(draw, node)

    def form(self, draw, form, depth):
        first = self.expression(draw, depth)
        if form in ("/", ">>", "<<"):
            return Node(form, first, by=draw.randint(1, 9) if form == "/" else draw.randint(0, 3))
        if form in ("neg", "abs"):
            return Node(form, first)
        if form == "!":
            return Node(form, self.condition(draw, first))
        if form in ("as", "sat"):
            return self.converted(draw, first)
        second = self.expression(draw, depth)
        if form in ("&", "|", "^"):
            return Node(form, self.unsigned(draw, first), self.unsigned(draw, second))
        if form == "select":
            return Node(form, self.condition(draw, self.expression(draw, depth)), first, second)
        return Node(form, first, second)

    def text(self):
        lines = ["size %d %d" % self.size, *(f"input {name} : {name_of(ty)}" for name, ty in self.inputs.items())]
        for name, (inline, declared, body) in self.definitions.items():
            lines.append(f"{'inline ' * inline}let {name}{f' : {name_of(declared)}' if declared else ''} = im(x,y) {body.text()} end")
        return "\n".join([*lines, *(f"output {name}" for name in self.outputs), ""])

    def points(self):
        return [(x, y) for y in range(self.size[1]) for x in range(self.size[0])]

    def formula(self, image, x, y, pixels):
        """The value of an image at a point, which may lie outside, as a formula over pixels of inputs."""
        if not (0 <= x < self.size[0] and 0 <= y < self.size[1]):
            return "0"
        if image in self.inputs:
            pixels.add((image, x, y))
            return f"{image}_{x}_{y}"
        return self.definitions[image][2].formula(self, x, y, pixels)

    def function(self, image, x, y):
        """The value of an image at a point as a function of pixels, and these pixels in order."""
        pixels = set()
        formula = self.formula(image, x, y, pixels)
        pixels = sorted(pixels)
        return eval(f"lambda {', '.join('%s_%d_%d' % pixel for pixel in pixels)}: {formula}", NAMES), pixels

    def values(self, image):
        """All values of an image in the frame, or None if it reads pixels of too many bits."""
        found = set()
        for x, y in self.points():
            function, pixels = self.function(image, x, y)
            if sum(self.inputs[name][1] for name, _, _ in pixels) > MOST_BITS:
                return None
            found.update(function(*samples) for samples in itertools.product(*(range(1 << self.inputs[name][1]) for name, _, _ in pixels)))
        return found

    def picture(self, image, frames):
        """The samples of an image on frames, by input and point."""
        shown = []
        for x, y in self.points():
            function, pixels = self.function(image, x, y)
            shown.append(function(*(frames[name][x, y] for name, x, y in pixels)))
        return shown

    def narrowed_types(self, text):
        """The types of the images of a narrowed text, or None if it has another form than the program with conversions and declared types."""
        types, definitions = dict(self.inputs), iter(self.definitions.items())
        for line in text.splitlines():
            if "let" not in line.split():
                continue
            name, (_, _, body) = next(definitions)
            said = LINE.fullmatch(line)
            if said is None or said[1] != name:
                return None
            own, last = body.type(types), said[3].rsplit(" as ", 1)
            if last == [body.operand(("as", "neg", "!")), last[-1]]:
                own = type_of(last[1])
            elif said[3] != body.text():
                return None
            types[name] = type_of(said[2]) if said[2] else own
        return types if len(types) == len(self.types) else None


def fault(program, types, name, values):
    """What is wrong with the type of a definition that has these values; None if nothing is."""
    ty, declared = types[name], program.types[name]
    missing = [value for value in values if not holds(ty, value)]
    if missing:
        return f"{name} has the value {min(missing)}, and {name_of(ty)} does not"
    return f"{name} is wider: {name_of(ty)} from {name_of(declared)}" if ty[1] > declared[1] else None


def shows(calls, program, draw):
    """Whether `eval` writes the outputs' pictures of random frames."""
    frames = {name: {point: draw.randrange(1 << ty[1]) for point in program.points()} for name, ty in program.inputs.items()}
    with open(f"{calls.folder}/in.pgm", "wb") as file:
        for name, ty in program.inputs.items():
            file.write(b"P5\n%d %d\n%d\n" % (*program.size, (1 << ty[1]) - 1) + bytes(frames[name][point] for point in program.points()))
    rasters = [b"".join(value.to_bytes(2, "big") for value in program.picture(name, frames)) for name in program.outputs]
    return calls.pictures("p.dk") == b"".join(b"P5\n%d %d\n65535\n" % program.size + raster for raster in rasters)


def main():
    count = int(sys.argv[2]) if len(sys.argv) > 2 else 1000
    seed = int(sys.argv[3]) if len(sys.argv) > 3 else 1
    tried = definitions = least = narrower = wrong = 0
    with tempfile.TemporaryDirectory() as folder:
        calls = Calls(sys.argv[1], folder)
        for number in range(seed, seed + count):
            draw = random.Random(number)
            program = Program(draw)
            with open(f"{folder}/p.dk", "w") as file:
                file.write(program.text())
            if calls.call("narrow", "p.dk", "narrow.dk").returncode:
                print(f"wrong: program {number}: it is not narrowed")
                wrong += 1
                continue
            tried += 1
            types = program.narrowed_types(calls.text("narrow.dk"))
            if types is None or not shows(calls, program, draw):
                print(f"wrong: program {number}: {'its narrowed text has another form' if types is None else 'its pictures are other ones'}")
                wrong += 1
                continue
            for name in program.definitions:
                values = None if name in program.outputs else program.values(name)
                if values is None:
                    continue
                said = fault(program, types, name, values)
                if said:
                    print(f"wrong: program {number}: {said}")
                    wrong += 1
                definitions += 1
                least += types[name][1] <= least_width(values | {0})
                narrower += types[name][1] < program.types[name][1]
    print(f"{tried} programs: {definitions} definitions, {narrower} are narrower, {least} have the least type, {wrong} are wrong")
    return 1 if wrong else 0


if __name__ == "__main__":
    sys.exit(main())
