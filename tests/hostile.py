#!/usr/bin/env python3
"""The calls of hostile.sh, in the folder where it is started.

usage: hostile.py PROGRAM SECONDS SEED
"""
import collections
import glob
import os
import random
import re
import subprocess
import sys
import time

EXAMPLES = os.path.join(os.path.dirname(os.path.abspath(__file__)), "..", "examples")
SECONDS_EACH = 20

# The lines of docs/COMMANDS.md, by status.
LINES = {
    0: r"",
    2: r"usage: .*\n",
    3: r"program(: TooLong 1048576| \d+-\d+: [A-Z]\w+|: (Nodes|Reads|Bits|Latency) \d+)\n",
    4: r"image: (TooLong 268435456|LongHeader 65536|Count 65536|(Magic|Number|Range|Maxval|SampleTooGreat) \d+|(Size|Short|Round) \d+ \d+)\n",
    5: r"verilog(: TooLong 268435456| \d+-\d+: [A-Z]\w+)\n",
    6: r"stopped: (clock -?\d+ array \d+ index \d+|count \d+ of \d+)\n",
    7: r"cannot read\n",
    8: r"cannot write\n",
    9: r"out of memory\n",
    10: r"report: (TooLong 4194304|line \d+)\n",
    11: r"widen: (Limits|(Width|Inputs|Outputs) \d+)\n",
}

# Texts that are refused, and their lines.
PROGRAMS = [
    (b"", "program 0-0: Syntax"),
    (b"(" * 129, "program 128-129: Nest"),
    (b"18446744073709551616", "program 0-20: NumberTooGreat"),
    (b"q" * 65, "program 0-65: NameTooLong"),
    (b"size 0 1\ninput a : u8\noutput a\n", "program 5-6: SizeRange"),
]
TEXTS = [
    (b"", "verilog 0-0: Syntax"),
    (b"module m(input clk); initial", "verilog 21-28: NotInSubset"),
    (b"/* open", "verilog 0-1: BadByte"),
    (b"8'd256", "verilog 0-6: BadConstant"),
]
IMAGES = [
    (b"", "image: Magic 0"),
    (b"P5", "image: Number 2"),
    (b"P5 3 x", "image: Number 5"),
    (b"P5 3 1 0\n", "image: Range 7"),
    (b"P5" + b" " * 65534, "image: LongHeader 65536"),
]
COPY = b"size 3 1\ninput a : u8\nlet f = im(x,y) a(x,y) end\noutput f\n"
ROW = b"P5\n3 1\n255\n\x01\x02\x03"

Answer = collections.namedtuple("Answer", "status line said file")


class Calls:
    def __init__(self, program):
        self.program = program
        self.counts = collections.Counter()
        self.failed = False

    def wrong(self, words, files, why):
        self.failed = True
        kept = []
        for place, (name, content) in enumerate(files.items()):
            kept.append(os.path.join(os.environ.get("KEEP", "/tmp"), f"hostile-{os.getpid()}-{sum(self.counts.values())}-{place}"))
            with open(kept[-1], "wb") as file:
                file.write(content)
        print("hostile:", *words, why, "with", *kept, file=sys.stderr)

    def call(self, words, files):
        """What the program answers to these words, with these files; OUT is `out`."""
        for name, content in files.items():
            with open(name, "wb") as file:
                file.write(content)
        if os.path.exists("out"):
            os.remove("out")
        try:
            done = subprocess.run([self.program, *words], capture_output=True, timeout=SECONDS_EACH)
        except subprocess.TimeoutExpired:
            self.wrong(words, files, "hangs")
            return None
        made = None
        if os.path.exists("out"):
            with open("out", "rb") as file:
                made = file.read()
        answer = Answer(done.returncode, done.stderr.decode("latin-1"), done.stdout, made)
        self.counts[words[0], answer.status] += 1
        self.judge(words, files, answer)
        return answer

    def judge(self, words, files, answer):
        command, status = words[0], answer.status
        writes = command in ("run", "eval", "compile", "cut", "narrow", "widen", "sim", "trace")
        if status not in LINES:
            return self.wrong(words, files, f"ends with status {status}: {answer.line[:200]}")
        if not re.fullmatch(LINES[status], answer.line):
            return self.wrong(words, files, f"has status {status} and the line {answer.line[:200]!r}")
        if command == "explain" and bool(answer.said) != (status == 3):
            return self.wrong(words, files, f"has status {status} and writes {answer.said[:80]!r}")
        if status != 0 and answer.said and command != "explain":
            return self.wrong(words, files, f"has status {status} and writes {answer.said[:80]!r}")
        if status == 0 and (answer.file is None) == writes:
            return self.wrong(words, files, "is done and creates " + ("nothing" if writes else "something"))
        # `run` may end in a later image, and `trace` at a clock, with what came before
        begun = (command, status) in (("run", 4), ("trace", 6))
        if status != 0 and answer.file is not None and not (begun and answer.file[:3] in (b"P5\n", b"$ti")):
            return self.wrong(words, files, f"has status {status} and creates something")

    def agree(self, words, other, files):
        """Two commands that answer the same."""
        first, second = self.call(words, files), self.call(other, files)
        if first and second and (first[:2] != second[:2] or (first.status == 0 and first.file != second.file)):
            self.wrong(other, files, f"does not agree with {words[0]}: {second.status} {second.line!r}, and {first.status} {first.line!r}")
        return first

    def ends(self, words, files, status, line):
        answer = self.call(words, files)
        if answer and (answer.status, answer.line) != (status, line):
            self.wrong(words, files, f"has {answer.status} {answer.line!r} where {status} {line!r} is wanted")

    # what is done with an input of each kind

    def program_text(self, text, image):
        files = {"p.dk": text, "i.pgm": image}
        answer = self.agree(["eval", "p.dk", "i.pgm", "out"], ["run", "p.dk", "i.pgm", "out"], files)
        made = self.call(["compile", "p.dk", "out"], files)
        for words in (["cut", "1", "p.dk", "out"], ["narrow", "p.dk", "out"]):
            other = self.call(words, files)
            if other and made and (other.status, other.line) != (made.status, made.line):
                self.wrong(words, files, "does not agree with compile")
            if other and other.status == 0 and answer and answer.status == 0:
                shown = self.call(["eval", "c.dk", "i.pgm", "out"], {"c.dk": other.file, "i.pgm": image})
                if shown and (shown.status, shown.file) != (0, answer.file):
                    self.wrong(words, files, "shows another picture")
        wide = self.call(["widen", "2", "p.dk", "out"], files)
        if wide and made and (wide.status == 3) != (made.status == 3):
            self.wrong(["widen", "2", "p.dk", "out"], files, "does not agree with compile")
        said = self.call(["explain", "p.dk"], files)
        if said and made and (said[:2] != made[:2] or not explains(text, said)):
            self.wrong(["explain", "p.dk"], files, f"does not explain what compile says: {said.said[:200]!r}")
        plan = self.call(["plan", "p.dk"], files)
        if answer and made and plan and (answer.status == 3) != (made.status == 3) or plan and made and plan[:2] != made[:2]:
            self.wrong(["plan", "p.dk"], files, "does not agree with compile or eval")
        if plan and plan.status == 0:
            self.ends(["check", "p.dk", "r.txt"], {**files, "r.txt": plan.said}, 0, "")
            if answer and answer.status == 0:
                lines = dict(line.split(b" ", 1) for line in plan.said.splitlines() if b" " in line)
                width, height = map(int, lines[b"size"].split())
                inputs = len(re.findall(rb"\binput\b", text))
                if image.count(b"P5") == inputs and int(lines[b"clocks"]) < 100000:
                    self.call(["sim", "v.v", lines[b"clocks"].decode(), "i.pgm", "out"], {**files, "v.v": made.file})

    def image_file(self, text, image):
        self.agree(["eval", "p.dk", "i.pgm", "out"], ["run", "p.dk", "i.pgm", "out"], {"p.dk": text, "i.pgm": image})

    def verilog_text(self, text, image):
        files = {"v.v": text, "i.pgm": image}
        for words in (["trace", "v.v", "20", "i.pgm", "out"], ["sim", "v.v", "20", "i.pgm", "out", "--fill", "ones", "--hold", "3"]):
            self.call(words, files)

    def report(self, text, report):
        self.call(["check", "p.dk", "r.txt"], {"p.dk": text, "r.txt": report})


def explains(text, answer):
    """Whether these are messages of a fault: the place and the kind of the line, plain bytes, at most 20 messages, and each of bounded length."""
    if answer.status != 3:
        return True
    start, kind = re.match(r"program(?: (\d+)-\d+)?: (\w+)", answer.line).groups()
    before = text[:int(start or 0)]
    line = before[before.rfind(b"\n") + 1:]
    column = sum(1 for byte in line if not 128 <= byte < 192) + 1
    head = f"p.dk:{before.count(10) + 1}:{column}: error: {kind}: ".encode()
    messages = re.split(rb"(?m)^(?=p\.dk:)", answer.said)[1:]
    plain = all(byte == 10 or 32 <= byte < 127 for byte in answer.said)
    return answer.said.startswith(head) and plain and len(messages) <= 20 and all(len(message) <= 2048 + 60 for message in messages)


def read(name):
    with open(os.path.join(EXAMPLES, name), "rb") as file:
        return file.read()


def changed(chance, content, others):
    """A file with some bytes changed."""
    content = bytearray(content)
    for _ in range(chance.choice((1, 1, 1, 2, 4))):
        place = chance.randrange(len(content) + 1)
        until = min(len(content), place + chance.choice((1, 1, 2, 5, 20)))
        way = chance.randrange(8)
        if way <= 2 and place < len(content):
            content[place] ^= 1 << chance.randrange(8)
        elif way == 3 and place < len(content):
            content[place] = chance.choice(b"\x00\xff0123456789 \n()[]{}+-*/<=&|^~,;:?'#")
        elif way == 4:
            del content[place:until]
        elif way == 5:
            content[place:place] = content[place:until]
        elif way == 6:
            content[place:place] = chance.choice((b"0", b"4096", b"4097", b"65536", b"4294967296", b"18446744073709551615", b"99999999999999999999"))
        else:
            other = chance.choice(others)
            start = chance.randrange(len(other))
            content[place:until] = other[start:start + chance.choice((1, 3, 10, 40))]
    return bytes(content)


def small(text):
    """An example for frames of 8 by 6, with an image file for it."""
    text = re.sub(rb"(?m)^size .*", b"size 8 6", text)
    images = b"".join(b"P5\n8 6\n%d\n" % (2 ** int(bits) - 1) + bytes(int(bits) > 8 for k in range(48 if int(bits) <= 8 else 96))
                      for bits in re.findall(rb"(?m)^input \w+ *: *u(\d+)", text))
    return text, images


def main(program, seconds, seed):
    calls = Calls(program)
    for text, line in PROGRAMS:
        for command in ("eval", "run"):
            calls.ends([command, "p.dk", "i.pgm", "out"], {"p.dk": text, "i.pgm": ROW}, 3, line + "\n")
        calls.ends(["compile", "p.dk", "out"], {"p.dk": text}, 3, line + "\n")
        calls.ends(["plan", "p.dk"], {"p.dk": text}, 3, line + "\n")
        calls.ends(["check", "p.dk", "r.txt"], {"p.dk": text, "r.txt": b""}, 3, line + "\n")
    for text, line in TEXTS:
        for command in ("sim", "trace"):
            calls.ends([command, "v.v", "4", "i.pgm", "out"], {"v.v": text, "i.pgm": ROW}, 5, line + "\n")
    for image, line in IMAGES:
        for command in ("eval", "run"):
            calls.ends([command, "p.dk", "i.pgm", "out"], {"p.dk": COPY, "i.pgm": image}, 4, line + "\n")
        calls.ends(["trace", "v.v", "4", "i.pgm", "out"], {"v.v": read("verilog/copy.v"), "i.pgm": image}, 4, line + "\n")

    programs = [small(read(name)) for name in sorted(glob.glob("programs/*.dk", root_dir=EXAMPLES))]
    programs.append((COPY, ROW))
    texts = [read(name) for name in sorted(glob.glob("sim/*.v", root_dir=EXAMPLES) + glob.glob("verilog/*.v", root_dir=EXAMPLES))]
    reports = [(read(f"../tests/reports/{name}.dk"), read(f"../tests/reports/{report}.txt")) for name, report in (("square", "square"), ("skip", "skip"), ("mean", "mean_plan"))]

    for length in range(len(ROW) + 1):
        answer = calls.agree(["eval", "p.dk", "i.pgm", "out"], ["run", "p.dk", "i.pgm", "out"], {"p.dk": COPY, "i.pgm": ROW[:length]})
        if answer and answer.status != (0 if length == len(ROW) else 4):
            calls.wrong(["eval"], {"i.pgm": ROW[:length]}, f"has status {answer.status}")
    for text, image in [program for program in programs if b"contour" in program[0].lower() or program[0] == COPY]:
        for length in range(len(text) + 1):
            calls.program_text(text[:length], image)
    for text in texts[:1]:
        for length in range(len(text) + 1):
            calls.verilog_text(text[:length], ROW)
    for text, report in reports[:1]:
        for length in range(len(report) + 1):
            calls.report(text, report[:length])

    chance = random.Random(int(seed))
    end = time.monotonic() + float(seconds)
    while time.monotonic() < end:
        text, image = chance.choice(programs)
        calls.program_text(changed(chance, text, [other for other, _ in programs]), image)
        calls.image_file(text, changed(chance, image, [b"P5 8 6 255\n", b"#\n", image]))
        calls.verilog_text(changed(chance, chance.choice(texts), texts), ROW)
        text, report = chance.choice(reports)
        calls.report(text, changed(chance, report, [other for _, other in reports]))
    for (command, status), count in sorted(calls.counts.items()):
        print(f"{command}: status {status}: {count}")
    sys.exit(1 if calls.failed else 0)


main(*sys.argv[1:])
