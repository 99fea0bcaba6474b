#!/usr/bin/env python3
"""Widens the examples, random programs, and programs near the limits, and compares the joined pictures of the phases with those of the source.

Each program is widened at 2, 4 and 8 phases where these divide its width and it then has at most 8 inputs and outputs, as it is and after `cut 1`.
Each text is tried by `eval`, `run` and `run --age 1`. The line of `widen` is compared with `plan` of the source and of the text, and the number of
definitions with that of the phases and columns that the reads of the source need.

- An example as it is needs no buffer bit more or less than before.
- Random programs have clamped reads, inline images, offsets up to 64, long names, and phases of one column. Some have 3, 5, 6 or 7 phases.
- Programs near a limit are at it when they are widened, or one above it and then refused: definitions, live reads, nodes, depth, bytes, buffer bits.
- Each fault is tried once. `Limits` must not occur but for programs that are over a limit when they are widened.

Ends with status 1 if something is wrong. It takes about a minute.

usage: tests/wide.py PROGRAM [COUNT [SEED]]      COUNT random programs, 200 by default
"""
import os
import random
import re
import subprocess
import sys
import tempfile

TOP = os.path.dirname(os.path.dirname(os.path.abspath(__file__)))
sys.dont_write_bytecode = True
sys.path.append(f"{TOP}/tools")
import phases as files  # noqa: E402

PHASES = (2, 4, 8)
COMMANDS = (("eval",), ("run",), ("run", "--age", "1"))
FAULTY, UNABLE = 3, 11
MOST_DEFINITIONS, MOST_NODES, MOST_BYTES = 256, 65_536, 1_048_576
READ = re.compile(r"([A-Za-z_]\w*)\(x([+-]\d+)?,y([+-]\d+)?\)( edge clamp)?")
FORMS = ("{} + {}", "{} + {}", "{} - {}", "({} as u8) * ({} as u4)", "min({}, {})", "max({} as s9, {} as s9)", "select({} < {}, {}, {})", "({} as u9) & ({} as u9)")
SINGLE = ("abs({} as s12)", "{} / 3", "({} as u9)", "sat({}, u6)", "({} as u8) << 2", "-{}", "{} >> 1")


def offset(draw, letter):
    by = draw.choice((0, 0, -1, 1, 2, -2, 3, -5, 7, draw.randint(-64, 64)))
    return letter if by == 0 else f"{letter}{by:+d}"


def read(draw, images):
    """A read of one of the images, moved or not, and clamped or not."""
    at = ",".join(offset(draw, letter) for letter in "xy") if draw.random() < 0.7 else "x,y"
    return f"{draw.choice(images)}({at})" + (" edge clamp" if draw.random() < 0.6 else "")


def expression(draw, images, depth):
    if depth == 0 or draw.random() < 0.15:
        return str(draw.choice((0, 1, 2, 3, 5, 8))) if draw.random() < 0.1 else read(draw, images)
    form = draw.choice(FORMS) if draw.random() < 0.8 else draw.choice(SINGLE)
    operands = [f"({expression(draw, images, depth - 1)})" for _ in range(form.count("{}"))]
    return form.format(*operands)


def name_of(draw, number, names):
    """A new name: short, one that a widened program has too, or one that is too long to be lengthened."""
    stem = draw.choice(("f", "f", "f", "frame", "f_0", "f_l1", "long" * 15 + "er"))
    name = stem if stem not in names else f"{stem[:60]}{number}"
    return name if name not in names else f"g{number}"


def program(draw, phases):
    """A program that has at most 8 inputs and outputs when it is widened, and its frame's sides."""
    width, height = phases * draw.choice((1, 1, 2, 3, draw.randint(1, 20))), draw.choice((1, 2, draw.randint(1, 8)))
    inputs = [f"a{k}" for k in range(draw.randint(1, 8 // phases))]
    images, lines = list(inputs), [f"-- made\nsize {width} {height}", *(f"input {name} : u8" for name in inputs)]
    for number in range(draw.randint(1, 6)):
        name = name_of(draw, number, images)
        inline = "inline " if draw.random() < 0.4 else ""
        declared = f" : s{draw.randint(20, 40)}" if draw.random() < 0.5 else ""
        lines.append(f"{inline}let {name}{declared} = im(x,y) -- a body\n  {expression(draw, images, draw.randint(1, 3))} end")
        images.append(name)
    outputs = [f"o{k}" for k in range(draw.randint(1, 8 // phases))]
    for name in outputs:
        lines.append(f"let {name} = im(x,y) (({read(draw, images)} as s40) + {read(draw, images)} as s40) as u8 end")
    lines += [f"output {name}" for name in outputs]
    return width, height, len(inputs), "\n".join([*lines, ""])


def ports(text):
    return max(len(re.findall(r"(?m)^input ", text)), len(re.findall(r"(?m)^output ", text)))


def bare(text):
    """A program without its comments."""
    return re.sub(r"--[^\n]*", "", text)


def columns(text, phases):
    """The columns that the clamped reads of a program need when it is widened: an image, and how far from the first column of the point."""
    found = set()
    for name, across, _, clamp in READ.findall(bare(text)):
        for phase in range(phases):
            column = phase + int(across or 0)
            moved, source = divmod(column, phases)
            outermost = source == (0 if moved < 0 else phases - 1)
            if clamp and moved != 0 and not outermost:
                found.add((name, column))
    return found


def definitions(text, phases):
    """The definitions of the widened program: the phases, the columns, and the test of the frame."""
    needed = columns(text, phases)
    return phases * len(re.findall(r"(?m)^(?:inline )?let ", text)) + len(needed) + (len(needed) > 0)


def nodes(text):
    """The nodes of a program after inlining: each operator, number and read. No two definitions are in one line."""
    inlined, total = {}, 0
    for inline, name, body in re.findall(r"(?s)(inline )?let (\w+)[^=]*= im\(x,y\)(.*?) end\n", bare(text)):
        count = sum(1 + inlined.get(read[0], 0) for read in READ.findall(body))
        count += len(re.findall(r"\b(?:select|min|max|abs|sat|as|\d+)\b|<<|>>|[<>=!]=|[-+*/<>&|^!]", READ.sub("", body)))
        if inline:
            inlined[name] = count
        else:
            total += count
    return total


def may_be_over(text, phases):
    """Whether a program may be over a limit when it is widened. A read of a column has up to six nodes more than the read that it replaces."""
    return definitions(text, phases) > MOST_DEFINITIONS or 7 * phases * nodes(text) > MOST_NODES


class Calls:
    """Calls of the program in a folder of its own, and what was wrong."""

    def __init__(self, path, folder):
        self.path, self.folder, self.wrong = os.path.abspath(path), folder, 0

    def call(self, *words):
        return subprocess.run([self.path, *words], cwd=self.folder, capture_output=True, text=True, check=False)

    def read(self, name):
        with open(f"{self.folder}/{name}", "rb") as file:
            return file.read()

    def write(self, name, content):
        with open(f"{self.folder}/{name}", "wb") as file:
            file.write(content if isinstance(content, bytes) else content.encode())

    def refuse(self, what):
        print(f"wrong: {what}", flush=True)
        self.wrong += 1

    def bits(self, name):
        """The buffer bits of `plan` at age 0, as text."""
        return re.search(r"^bits (\d+)$", self.call("plan", name).stdout, re.M).group(1)

    def pictures(self, name):
        """What `eval` writes for in.pgm, or None if it does not accept the program."""
        return None if self.call("eval", name, "in.pgm", "out.pgm").returncode else self.read("out.pgm")

    def widen(self, phases, name, what):
        """Widens a program to wide.dk and checks the line. Whether there is a text; without one the fault must be that of a limit."""
        done = self.call("widen", str(phases), name, "wide.dk")
        if done.returncode:
            if (done.returncode, done.stdout, done.stderr) != (UNABLE, "", "widen: Limits\n"):
                self.refuse(f"{what}: status {done.returncode} and {done.stderr!r}")
            return False
        counts = {definitions(self.read(name).decode(), phases), len(re.findall(r"(?m)^(?:inline )?let ", self.read("wide.dk").decode()))}
        line = f"widen: definitions {max(counts)} bits {self.bits('wide.dk')} from {self.bits(name)}\n"
        if done.stdout != line or len(counts) > 1:
            self.refuse(f"{what}: the line {done.stdout!r} for {line!r}, and the definitions are {sorted(counts)}")
        return True

    def compare(self, phases, wanted, what):
        """Compares what each command shows of wide.dk with the wanted pictures of in.pgm."""
        self.write("parts.pgm", files.file_of(files.split(files.images(self.read("in.pgm")), phases)))
        for command in COMMANDS:
            if self.call(*command, "wide.dk", "parts.pgm", "shown.pgm").returncode:
                self.refuse(f"{what} by {' '.join(command)}: it fails")
            elif files.file_of(files.join(files.images(self.read("shown.pgm")), phases)) != wanted:
                self.refuse(f"{what} by {' '.join(command)}: another picture")


class Counts:
    """How many texts were tried, and how many programs are over a limit when they are widened."""

    def __init__(self):
        self.texts = self.over = 0

    def try_source(self, calls, source, text, what):
        """Tries p.dk or cut.dk, which must show p.dk's pictures of in.pgm, at each number of phases that its frame and its ports allow."""
        wanted = calls.pictures(source)
        if wanted is None or wanted != calls.pictures("p.dk"):
            calls.refuse(f"{what}, {source}: it does not show the pictures of its source")
            return
        width = int(re.search(r"(?m)^size (\d+)", text).group(1))
        for phases in range(2, 9):
            if width % phases or phases * ports(text) > 8 or (phases not in PHASES and width > 20 * phases):
                continue
            name = f"{what}, {source}, at {phases}"
            if calls.widen(phases, source, name):
                self.texts += 1
                calls.compare(phases, wanted, name)
            elif may_be_over(calls.read(source).decode(), phases):
                self.over += 1
            else:
                calls.refuse(f"{name} has no text, and is over no limit")


def examples(calls):
    """Tries the examples. What was counted."""
    counts = Counts()
    with open(f"{TOP}/examples/programs/pictures.txt", encoding="utf-8") as file:
        pairs = [line.split() for line in file]
    for name, picture in pairs:
        with open(f"{TOP}/examples/programs/{name}.dk", encoding="utf-8") as file:
            text = file.read()
        with open(f"{TOP}/examples/programs/{picture}.pgm", "rb") as file:
            calls.write("in.pgm", file.read())
        calls.write("p.dk", text)
        calls.call("cut", "1", "p.dk", "cut.dk")
        for source in ("p.dk", "cut.dk"):
            counts.try_source(calls, source, text, name)
        for phases in PHASES:
            if phases * ports(text) <= 8 and calls.widen(phases, "p.dk", name) and calls.bits("wide.dk") != calls.bits("p.dk"):
                calls.refuse(f"{name} at {phases}: {calls.bits('wide.dk')} buffer bits")
    return counts


def frames(draw, width, height, count):
    """A PGM file of random images."""
    return b"".join(b"P5\n%d %d\n255\n" % (width, height) + draw.randbytes(width * height) for _ in range(count))


def randoms(calls, count, seed):
    """Tries random programs, until so many were accepted. What was counted."""
    counts, tried, number = Counts(), 0, seed
    while tried < count:
        draw = random.Random(number)
        width, height, inputs, text = program(draw, draw.choice((2, 2, 3, 4, 4, 5, 6, 7, 8, 8)))
        calls.write("p.dk", text)
        calls.write("in.pgm", frames(draw, width, height, 2 * inputs))
        if calls.pictures("p.dk") is not None:
            tried += 1
            calls.call("cut", "1", "p.dk", "cut.dk")
            for source in ("p.dk", "cut.dk"):
                counts.try_source(calls, source, text, f"program {number}")
        number += 1
    return counts


# Programs near the limits

def of(size, body, before=""):
    """A program of one input and one output, which has this body."""
    return f"size {size}\ninput a : u8\n{before}let f = im(x,y) {body} end\noutput f\n"


def chain(length, first):
    """A program of so many definitions, the first with this body. A line has eight pixels."""
    others = "".join(f"let f{k} = im(x,y) f{k - 1}(x,y) ^ a(x,y) end\n" for k in range(1, length - 1))
    return of("8 2", f"f{length - 2}(x,y)", f"let f0 = im(x,y) {first} end\n{others}")


def tree(reads):
    """The exclusive or of these, with few open brackets: one node less than twice their number."""
    half = len(reads) // 2
    return f"({tree(reads[:half])} ^ {tree(reads[half:])})" if half else reads[0]


def apart(count):
    """Reads of so many different pixels, all of them in a frame of 128 by 33 at some point."""
    moved = lambda letter, by: f"{letter}{by:+d}" if by else letter
    return [f"a({moved('x', k % 64 - 32)},{moved('y', k // 64)})" for k in range(count)]


def deep(read, depth):
    """A program whose output has this read at a depth, after two images are substituted."""
    more = " ^ 1" * 500
    return of("4 2", "j(x,y)" + " ^ 1" * (depth - 1003), f"inline let i = im(x,y) {read}{more} end\ninline let j = im(x,y) i(x,y){more} end\n")


def commented(calls, size):
    """A program whose text has so many bytes when it is widened at 2, since the comment before `size` is kept."""
    calls.write("p.dk", "--\n" + of("4 2", "a(x-1,y) edge clamp"))
    calls.call("widen", "2", "p.dk", "wide.dk")
    return "--" + "c" * (size - len(calls.read("wide.dk"))) + "\n" + of("4 2", "a(x-1,y) edge clamp")


def bits(words):
    """A program of 64 times 2^20 buffer bits, and 64 times `words` more: each of four images of 64 bits is read at two pixels, 64 lines apart."""
    images = "".join(f"let f{k + 1} : u64 = im(x,y) f{k}(x,y) ^ f{k}(x,y-64) end\n" for k in range(3))
    last = f"x-{words}" if words else "x"
    return of("4096 65", f"(f3(x,y) ^ f3({last},y-64)) as u8", f"let f0 : u64 = im(x,y) a(x,y) end\n{images}")


def near_limits(calls):
    """Each limit: what it is of, a text, the phases, and whether there is a text of so many phases."""
    left, right = "a(x-1,y) edge clamp", "a(x+1,y) edge clamp"
    for phases in PHASES:
        most = MOST_DEFINITIONS // phases
        yield "definitions", chain(most, "a(x,y)"), phases, True
        yield "definitions", chain(most + 1, "a(x,y)"), phases, False
        # each of them has as many definitions less, two or three: a column or two, and the test of the frame
        yield "definitions and a column", chain(most - 1, left), phases, True
        yield "definitions and two columns", chain(most - 1, f"{left} ^ {right}"), phases, phases > 2
        yield "live reads", of("128 33", tree(apart(4096 // phases))), phases, True
        yield "live reads", of("128 33", tree(apart(4096 // phases + 1))), phases, False
        yield "nodes", of("8 2", tree(["a(x,y)"] * (MOST_NODES // phases // 2))), phases, True
        yield "nodes", of("8 2", tree(["a(x,y)"] * (MOST_NODES // phases // 2 + 1))), phases, False
    # a read of the column on the left has 6 nodes, and one of phase 0 in phase 1 has 1: 9 times the number of reads, less 2
    yield "nodes of columns", of("4 2", tree([left] * 7282)), 2, True
    yield "nodes of columns", of("4 2", tree([left] * 7283)), 2, False
    # the read of a column, `select`, the read of the test and its number are 3 levels more than a read
    yield "depth", deep("a(x,y)", 1024), 2, True
    yield "depth of a column", deep(left, 1021), 2, True
    yield "depth of a column", deep(left, 1022), 2, False
    yield "depth of a body", of("4 2", left + " ^ 1" * 511), 2, True
    yield "brackets", of("4 2", "(" * 127 + left + ")" * 127), 2, True
    yield "bytes", commented(calls, MOST_BYTES), 2, True
    yield "bytes", commented(calls, MOST_BYTES + 1), 2, False
    yield "buffer bits", bits(0), 2, True


def limits(calls):
    """Tries programs near the limits: those of small frames by their pictures too. How many were tried."""
    draw, tried = random.Random(1), 0
    for what, text, phases, accepted in near_limits(calls):
        tried += 1
        name = f"{what}, {len(text)} bytes, at {phases}"
        width, height = map(int, re.search(r"(?m)^size (\d+) (\d+)", text).groups())
        calls.write("p.dk", text)
        if calls.call("plan", "p.dk").returncode:
            calls.refuse(f"{name}: the source is not accepted")
        elif calls.widen(phases, "p.dk", name) != accepted:
            calls.refuse(f"{name}: {'it has no text' if accepted else 'it has a text'}")
        elif accepted and width * height < 10_000:
            calls.write("in.pgm", frames(draw, width, height, 1))
            calls.compare(phases, calls.pictures("p.dk"), name)
    return tried


def faults(calls):
    """Each fault of `widen` with its line, which is found by hand, and which of two faults is first."""
    copy = "let f = im(x,y) a(x,y) end\n"
    many = "".join(f"input a{k} : u8\n" for k in range(5))
    outs = "".join(f"let f{k} = im(x,y) a(x,y) end\n" for k in range(3)) + "".join(f"output f{k}\n" for k in range(3))
    full = "".join(f"let f{k} = im(x,y) a(x,y) end\n" for k in range(200))
    for text, phases, line in (
            (f"size 5 1\ninput a : u8\n{copy}output f\n", 2, "widen: Width 5"),
            (f"size 4 1\n{many}let f = im(x,y) a0(x,y) end\noutput f\n", 2, "widen: Inputs 10"),
            (f"size 5 1\n{many}let f = im(x,y) a0(x,y) end\noutput f\n", 2, "widen: Width 5"),
            (f"size 4 1\ninput a : u8\n{outs}", 4, "widen: Outputs 12"),
            (f"size 6 1\n{many}{outs.replace('a(', 'a0(')}", 3, "widen: Inputs 15"),
            (f"size 9 1\ninput a : u8\n{outs}", 3, "widen: Outputs 9"),
            (f"size 8 1\ninput a : u8\n{outs}", 3, "widen: Width 8"),
            (f"size 4 1\ninput a : u8\n{full}output f0\n", 2, "widen: Limits"),
            (f"size 5 1\ninput a : u8\n{copy}output g\n", 2, "program 56-57: UnknownImage"),
            (bits(0).replace("size 4096", "size 4095"), 2, "widen: Width 4095"),
            (bits(1), 2, "program: Bits 67108928")):
        calls.write("p.dk", text)
        done = calls.call("widen", str(phases), "p.dk", "none.dk")
        status = UNABLE if line.startswith("widen") else FAULTY
        if (done.returncode, done.stderr) != (status, line + "\n") or os.path.exists(f"{calls.folder}/none.dk"):
            calls.refuse(f"status {done.returncode} and {done.stderr!r} for {line!r}")


def main():
    count = int(sys.argv[2]) if len(sys.argv) > 2 else 200
    seed = int(sys.argv[3]) if len(sys.argv) > 3 else 1
    with tempfile.TemporaryDirectory() as folder:
        calls = Calls(sys.argv[1], folder)
        faults(calls)
        near = limits(calls)
        ours, made = examples(calls), randoms(calls, count, seed)
    print(f"{ours.texts} texts of examples, {made.texts} of {count} random programs, and {near} programs near a limit: {calls.wrong} wrong")
    print(f"{ours.over} and {made.over} texts were over a limit")
    return 1 if calls.wrong else 0


sys.exit(main())
