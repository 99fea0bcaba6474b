"""What tools/look, tools/waves and tools/names.py share: calls of dk, the kept images of a program and their types, and the lines of `nets`."""
import hashlib
import html
import os
import re
import shutil
import subprocess
import sys

HERE = os.path.dirname(os.path.realpath(__file__))
TOOL = os.path.basename(sys.argv[0])
sys.path.insert(0, HERE)
import png

SHOWN_BITS = 16
# the options that `compile` and `nets` share, and whether each has a value
OPTIONS = {"--enable": False, "--age": True, "--block": True}


class Dk:
    """Calls of the program dk in a folder of its own."""

    def __init__(self, program, folder):
        self.program, self.folder = program, folder

    def call(self, *words):
        return subprocess.run([self.program, *words], capture_output=True, text=True, cwd=self.folder, env={**os.environ, "DK_EXPLAIN": "never"})

    def need(self, *words):
        done = self.call(*words)
        if done.returncode:
            sys.exit(f"{TOOL}: dk {' '.join(words)}: {done.stderr.strip()}")
        return done.stdout

    def write(self, name, content):
        with open(f"{self.folder}/{name}", "wb") as file:
            file.write(content)

    def read(self, name):
        with open(f"{self.folder}/{name}", "rb") as file:
            return file.read()


def first_round(content, count):
    """The bytes of the first `count` images of a file."""
    at = 0
    for _ in range(count):
        header = png.HEADER.match(content[at:])
        if not header:
            sys.exit(f"{TOOL}: IN has fewer images than the program has inputs")
        width, height, greatest = map(int, header.groups())
        at += header.end() + width * height * (1 if greatest < 256 else 2)
    return content[:at]


def samples(content):
    """The images of a file, each as lines of samples as they are."""
    at = 0
    while at < len(content):
        header = png.HEADER.match(content[at:])
        width, height, greatest = map(int, header.groups())
        each = 1 if greatest < 256 else 2
        at += header.end()
        row = width * each
        yield [[int.from_bytes(content[at + y * row + k:at + y * row + k + each], "big") for k in range(0, row, each)] for y in range(height)]
        at += row * height


class Shown:
    """A kept image, and how its values become samples of at most 16 bits."""

    def __init__(self, name, width, signed):
        self.name, self.width, self.signed = name, width, signed
        self.dropped = max(0, width - SHOWN_BITS)
        self.bits = width - self.dropped

    def body(self):
        value = f"{self.name}(x,y)"
        if self.dropped:
            value = f"({value} >> {self.dropped})"
        if self.signed:
            value = f"({value} + {1 << (self.bits - 1)})"
        return f"{value} as u{self.bits}" if self.signed or self.dropped else value

    def value(self, sample):
        """The value that a sample stands for; of a wide image the least of those that it stands for."""
        return (sample - (1 << (self.bits - 1) if self.signed else 0)) << self.dropped

    def caption(self, least, greatest):
        kind = f"{'s' if self.signed else 'u'}{self.width}"
        note = f", without its {self.dropped} lowest bits" if self.dropped else ""
        return f"<b>{html.escape(self.name)}</b>: {kind}, from {self.value(least):,} to {self.value(greatest):,}{note}"


def unused_names(text, count):
    taken = set(re.findall(r"\w+", text))
    names = (f"look{k}" for k in range(len(taken) + count))
    return [name for name in names if name not in taken][:count]


def front_of(text):
    """The text before its outputs, without comments."""
    bare = re.sub(r"--[^\n]*", "", text)
    return bare[:re.search(r"\boutput\b", bare).start()]


def signs(dk, front, images, inputs):
    """Which images are signed: those that do not fit an unsigned type of their width."""
    shown = []
    for name, width, *_ in images:
        probe = unused_names(front, 1)[0]
        dk.write("probe.dk", f"{front} let {probe} : u{width} = im(x,y) {name}(x,y) end output {inputs[0]}".encode())
        shown.append(Shown(name, width, dk.call("narrow", "probe.dk", "/dev/null").returncode == 3))
    return shown


def find_dk():
    beside = os.path.join(os.path.dirname(HERE), "dk")
    found = beside if os.access(beside, os.X_OK) else shutil.which("dk")
    return found or sys.exit(f"{TOOL}: there is no program dk; name it by --dk")


def words_of(words):
    """The program dk, the options of `compile`, and the other words of a call of a script."""
    program, options, rest = None, [], []
    words = iter(words)
    for word in words:
        if word == "--dk":
            program = os.path.abspath(next(words, ""))
        elif word in OPTIONS:
            options += [word, next(words, "")] if OPTIONS[word] else [word]
        elif word.split("=")[0] in OPTIONS:
            options.append(word)
        else:
            rest.append(word)
    return program or find_dk(), options, rest


def offset(name, distance):
    """The coordinate of a read."""
    return name if distance == 0 else f"{name}{distance:+d}"


class Read:
    """A live read: who reads which image where, and how many clocks ago its pixel came."""

    def __init__(self, reader, name, dx, dy, age):
        self.reader, self.name, self.dx, self.dy, self.age = reader, name, int(dx), int(dy), int(age)

    def clocks(self):
        return f"{self.age} clock{'' if self.age == 1 else 's'}"

    def __str__(self):
        return f"{self.name}({offset('x', self.dx)},{offset('y', self.dy)})"


class Nets:
    """The lines of `nets`: the SHA-256 of the Verilog text, for each kept image its net, width and delay, for each live read its net, for each output its ports."""

    def __init__(self, text):
        self.digest, self.images, self.reads, self.outputs = None, [], [], []
        for line in text.splitlines():
            kind, *fields = line.split()
            if kind == "text":
                self.digest = fields[1]
            elif kind == "image":
                name, net, width, delay = fields
                self.images.append((name, net, int(width), int(delay)))
            elif kind == "read":
                reader, name, dx, dy, net, age = fields
                self.reads.append((Read(reader, name, dx, dy, age), net))
            else:
                self.outputs.append(tuple(fields))

    def need_text(self, verilog):
        """Ends the call unless the nets are those of this Verilog text."""
        if hashlib.sha256(verilog).hexdigest() != self.digest:
            sys.exit(f"{TOOL}: the nets are not those of the text that compile wrote")
