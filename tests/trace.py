#!/usr/bin/env python3
"""The trace of a Verilog text of the subset, a second time: docs/VERILOG.md, and docs/COMMANDS.md, "The trace of trace".

It takes sound texts alone: it judges nothing but an index past its array, where it ends with status 6 and the clocks before.

usage: tests/trace.py VERILOG CLOCKS IN VCD
"""
import re
import sys

WORD = r"[A-Za-z_]\w*"


def images(content):
    """The images of a PGM file without comments: lists of samples."""
    while content:
        head = re.match(rb"P5\s+(\d+)\s+(\d+)\s+(\d+)\s", content)
        width, height, greatest = map(int, head.groups())
        size = 1 if greatest < 256 else 2
        end = head.end() + width * height * size
        raster, content = content[head.end():end], content[end:]
        yield [int.from_bytes(raster[k:k + size], "big") for k in range(0, len(raster), size)]


class Module:
    """A text, taken apart line by line of its statements."""

    def __init__(self, text):
        text = re.sub(r"/\*.*?\*/|//[^\n]*", " ", text, flags=re.S)
        head, rest = text.split(";", 1)
        self.name = re.match(rf"\s*module\s+({WORD})", head).group(1)
        self.widths, self.depths, self.inputs, self.outputs, self.wires, self.regs = {}, {}, [], [], [], []
        for side, high, name in re.findall(rf"(input|output)\s*(?:wire\s*)?(?:\[\s*(\d+)\s*:\s*0\s*\])?\s*({WORD})", head):
            self.widths[name] = int(high or 0) + 1
            if name != "clk":
                (self.inputs if side == "input" else self.outputs).append(name)
        self.assigns, self.updates = [], []
        for statement in rest.split(";"):
            self.take(re.sub(r"^\s*always\s*@\s*\(\s*posedge\s+clk\s*\)\s*begin", "", statement.strip()).strip())
        self.order()

    def take(self, statement):
        declared = re.match(rf"(wire|reg)\s*(?:\[\s*(\d+)\s*:\s*0\s*\])?\s*({WORD})\s*(?:\[\s*0\s*:\s*(\d+)\s*\])?$", statement)
        assigned = re.match(rf"assign\s+({WORD})\s*=\s*(.*)$", statement, re.S)
        updated = re.match(rf"({WORD})\s*(?:\[(.*)\])?\s*<=\s*(.*)$", statement, re.S)
        if declared:
            kind, high, name, last = declared.groups()
            self.widths[name] = int(high or 0) + 1
            if last:
                self.depths[name] = int(last) + 1
            else:
                (self.wires if kind == "wire" else self.regs).append(name)
        elif assigned:
            self.assigns.append(assigned.groups())
        elif updated:
            self.updates.append(updated.groups())

    def order(self):
        """Assigns behind those that they read, each as a function of the nets, the contents and the index that is past."""
        sources = {target: [word for word in re.findall(rf"(?<!['\w])({WORD})", right)] for target, right in self.assigns}
        done, self.steps = set(), []
        rights = dict(self.assigns)
        for first, _ in self.assigns:
            stack = [first]
            while stack:
                target = stack[-1]
                wanted = [s for s in sources[target] if s in sources and s not in done and target not in done]
                if wanted:
                    stack += wanted
                    continue
                stack.pop()
                if target not in done:
                    done.add(target)
                    self.steps.append((target, self.right(target, rights[target].strip())))

    def atom(self, text):
        text = text.strip()
        if "'" not in text:
            return f"n[{text!r}]"
        base, digits = text.split("'")[1][0].lower(), text.split("'")[1][1:].replace("_", "")
        return str(int(digits, {"d": 10, "h": 16, "b": 2}[base]))

    def width(self, text):
        text = text.strip()
        return int(text.split("'")[0].replace("_", "")) if "'" in text else self.widths[text]

    def right(self, target, text):
        mask = (1 << self.widths[target]) - 1
        repeated = re.match(r"\{\s*([\d_]+)\s*\{(.*)\}\s*\}$", text, re.S)
        joined = re.match(r"\{(.*),(.*)\}$", text, re.S)
        indexed = re.match(rf"({WORD})\s*\[(.*)\]$", text, re.S)
        chosen = re.match(r"(.*)\?(.*):(.*)$", text, re.S)
        binary = re.match(r"([^-+*/<=&|^]+)(==|[-+*/<&|^])([^-+*/<=&|^]+)$", text)
        if repeated:
            w = self.width(repeated.group(2))
            code = f"{self.atom(repeated.group(2))} * {sum(1 << (w * k) for k in range(int(repeated.group(1))))}"
        elif joined:
            code = f"{self.atom(joined.group(1))} << {self.width(joined.group(2))} | {self.atom(joined.group(2))}"
        elif indexed and indexed.group(1) in self.depths:
            code = f"word(m[{indexed.group(1)!r}], {self.atom(indexed.group(2))})"
        elif indexed:
            least = indexed.group(2).split(":")[-1]
            code = f"{self.atom(indexed.group(1))} >> {int(least)} & {mask}"
        elif chosen:
            code = f"{self.atom(chosen.group(2))} if {self.atom(chosen.group(1))} else {self.atom(chosen.group(3))}"
        elif text.startswith("~"):
            code = f"{mask} - {self.atom(text[1:])}"
        elif binary:
            a, op, b = self.atom(binary.group(1)), binary.group(2), self.atom(binary.group(3))
            code = f"int({a} {op} {b})" if op in ("<", "==") else f"({a} {'//' if op == '/' else op} {b}) & {mask}"
        else:
            code = self.atom(text)
        return eval(f"lambda n, m: {code}", {"word": lambda m, i: m[i] if i < len(m) else 0})

    def variables(self):
        return self.inputs + self.outputs + self.wires + self.regs

    def places(self):
        """Each index of an array in the text, as a function, with the array's depth."""
        indexed = [re.match(rf"({WORD})\s*\[(.*)\]$", right.strip(), re.S) for _, right in self.assigns]
        pairs = [found.groups() for found in indexed if found and found.group(1) in self.depths]
        pairs += [(name, index) for name, index, _ in self.updates if index]
        return [(eval(f"lambda n: {self.atom(index)}"), self.depths[name]) for name, index in pairs]

    def run(self, clocks):
        """The values of the variables before each edge, for inputs clock by clock; it ends before a clock that stops."""
        contents = {name: 0 for name in self.regs}
        words = {name: [0] * depth for name, depth in self.depths.items()}
        updates = [(name, index and eval(f"lambda n: {self.atom(index)}"), eval(f"lambda n: {self.atom(right)}"))
                   for name, index, right in self.updates]
        places = self.places()
        for given in clocks:
            nets = {**contents, **given}
            for target, step in self.steps:
                nets[target] = step(nets, words)
            if any(index(nets) >= depth for index, depth in places):
                return
            yield [nets[name] for name in self.variables()]
            taken = [(name, index and index(nets), value(nets)) for name, index, value in updates]
            for name, index, value in taken:
                if name in self.depths:
                    words[name][index] = value
                else:
                    contents[name] = value


def identifier(number):
    letters = ""
    while True:
        letters += chr(33 + number % 94)
        number //= 94
        if number == 0:
            return letters


def dump(module, rows, whole):
    """The lines of a trace."""
    names = module.variables()
    yield "$timescale 1 ns $end"
    yield f"$scope module {module.name} $end"
    for place, name in enumerate(names):
        kind = "reg" if name in module.regs else "wire"
        yield f"$var {kind} {module.widths[name]} {identifier(place)} {name} $end"
    yield "$upscope $end"
    yield "$enddefinitions $end"
    before = [None] * len(names)
    time = 0
    for row in rows:
        yield f"#{time}"
        for place, (old, new) in enumerate(zip(before, row)):
            if old != new:
                one = module.widths[names[place]] == 1
                yield f"{new}{identifier(place)}" if one else f"b{new:b} {identifier(place)}"
        before, time = row, time + 1
    if time == whole:
        yield f"#{time}"


def main(verilog, count, image, target):
    with open(verilog, encoding="latin-1") as file:
        module = Module(file.read())
    with open(image, "rb") as file:
        pictures = list(images(file.read()))
    dins = [name for name in module.inputs if name.startswith("din")]
    pixels = [sum(pictures[k::len(dins)], []) for k in range(len(dins))]

    def clocks():
        yield {"rst": 1, "en": 1, **{name: 0 for name in dins}}
        for k in range(int(count)):
            yield {"rst": 0, "en": 1, **{name: p[k] if k < len(p) else 0 for name, p in zip(dins, pixels)}}

    rows = list(module.run(clocks()))
    with open(target, "w") as file:
        file.writelines(line + "\n" for line in dump(module, rows, int(count) + 1))
    sys.exit(0 if len(rows) == int(count) + 1 else 6)


if __name__ == "__main__":
    main(*sys.argv[1:])
