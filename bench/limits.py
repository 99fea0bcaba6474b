"""Makes one of the largest inputs and tells how long a command takes on it, and in how much memory.

usage: python3 bench/limits.py PROGRAM [WORD..]      all cases, or those whose name has one of the words, in a folder of its own

Each call has 8 GB of memory (ulimit -v), 8 MiB of stack and 600 s of processor time; one that takes more ends with status -24.
"""
import os
import resource
import subprocess
import sys
import tempfile
import time

MEMORY = 8 * 1000 ** 3
MIB = 1 << 20

COPY = "size {} {}\ninput a : u8\nlet f = im(x,y) a(x,y) end\noutput f\n"
HEAD = "module m(input clk, input rst, input [7:0] din, output valid, output [7:0] dout);\n"


def filled(unit, size, before=b"", after=b""):
    """Bytes of so many in all, the middle being this unit again and again."""
    count = (size - len(before) - len(after)) // len(unit)
    return before + unit * count + b" " * (size - len(before) - len(after) - count * len(unit)) + after


def pgm(width, height, count):
    return (b"P5 %d %d 255\n" % (width, height) + bytes(k % 251 for k in range(width * height))) * count


def wires(size, source):
    """A module of so many bytes: one assign for each wire, with its driver."""
    lines, assigns, count, used = [], [], 0, len(HEAD) + 120
    while used < size:
        line, assign = f"  wire [7:0] n{count};\n", f"  assign n{count} = {source(count)};\n"
        used += len(line) + len(assign)
        lines.append(line)
        assigns.append(assign)
        count += 1
    return lines, assigns, count


def module(size, source, last):
    lines, assigns, count = wires(size, source)
    assigns[-1] = f"  assign n{count - 1} = {last};\n"
    return HEAD + "".join(lines) + "".join(assigns) + "  assign valid = ~rst;\n  assign dout = n0;\nendmodule\n"


def deep():
    return module(64 * MIB, lambda k: f"n{k + 1}", "din")


def wide():
    return module(64 * MIB, lambda k: "din", "din")


def rings():
    """As wide, with a register for each wire."""
    text = [HEAD]
    count = 64 * MIB // 76
    text += [f"  wire [7:0] n{k};\n" for k in range(count)] + [f"  reg [7:0] r{k};\n" for k in range(count)]
    text += [f"  assign n{k} = r{k};\n" for k in range(count)] + ["  assign valid = ~rst;\n  assign dout = n0;\n", "  always @(posedge clk) begin\n"]
    text += [f"    r{k} <= n{(k + 1) % count};\n" for k in range(count)] + ["  end\nendmodule\n"]
    return "".join(text)


def verilog():
    row = {"i.pgm": b"P5 4 1 255\n\x01\x02\x03\x04"}
    words = ["sim", "v.v", "4", "i.pgm", "out"]
    for name, text in [
        ("deep: each wire is driven by the next one", deep),
        ("wide: each wire is driven by din", wide),
        ("one line: wide, with blanks in place of line ends", lambda: wide().replace("\n", " ")),
        ("registers in a ring", rings),
        ("a cycle: deep, and the last wire is driven by the first", lambda: module(64 * MIB, lambda k: f"n{k + 1}", "n0")),
        ("blanks", lambda: filled(b" ", 64 * MIB)),
        ("open comment", lambda: filled(b"a", 64 * MIB, b"/*")),
        ("one comment, and a module", lambda: filled(b"*", 64 * MIB, b"/*", b"*/" + HEAD.encode() + b"assign valid = ~rst; assign dout = din; endmodule")),
        ("one name", lambda: filled(b"n", 64 * MIB)),
        ("one number", lambda: filled(b"9", 64 * MIB)),
        ("one constant", lambda: filled(b"0", 64 * MIB, b"8'h")),
        ("brackets", lambda: filled(b"(", 64 * MIB, b"module m")),
        ("one wire again and again", lambda: filled(b"wire n0;", 64 * MIB, HEAD.encode(), b"endmodule")),
        ("names of 64 bytes that differ at the end", long_names),
    ]:
        yield "verilog, " + name, words, {"v.v": text, **row}


def long_names():
    stem = "q" * 56
    count = 64 * MIB // 160
    text = [HEAD] + [f"  wire [7:0] {stem}{k:08};\n" for k in range(count)] + [f"  assign {stem}{k:08} = din;\n" for k in range(count)]
    return "".join(text) + "  assign valid = ~rst;\n  assign dout = din;\nendmodule\n"


def images():
    for name, width, height, count in [("16 of the largest, less one", 4096, 4096, 15), ("65,536, of 268,435,456 bytes in all", 2041, 2, 65536), ("65,536 of a pixel", 1, 1, 65536)]:
        files = {"p.dk": COPY.format(width, height), "i.pgm": lambda width=width, height=height, count=count: pgm(width, height, count), "v.v": HEAD + "assign valid = ~rst; assign dout = din; endmodule"}
        yield f"images, {name}: eval", ["eval", "p.dk", "i.pgm", "out"], files
        yield f"images, {name}: run", ["run", "p.dk", "i.pgm", "out"], files
        yield f"images, {name}: sim", ["sim", "v.v", str(min(width * height * count, 100000000)), "i.pgm", "out"], files
    for name, content in [
        ("blanks after P5", lambda: filled(b" ", 256 * MIB, b"P5")),
        ("a comment", lambda: filled(b"#", 256 * MIB, b"P5 ")),
        ("short by a byte", lambda: pgm(4096, 4096, 15)[:-1]),
        ("a byte past the limit", lambda: bytes(256 * MIB + 1)),
    ]:
        yield f"images, {name}: eval", ["eval", "p.dk", "i.pgm", "out"], {"p.dk": COPY.format(4096, 4096), "i.pgm": content}


def programs():
    reads = "+".join(f"a(x-{k % 65},y-{k // 65})" for k in range(4000))
    begin = b"size 4 4 input a : u8 let f = im(x,y) "
    for name, text in [
        ("blanks", lambda: filled(b" ", MIB)),
        ("one comment", lambda: filled(b"-", MIB)),
        ("one name", lambda: filled(b"q", MIB)),
        ("one number", lambda: filled(b"0", MIB)),
        ("brackets", lambda: filled(b"(", MIB)),
        ("brackets in a body", lambda: filled(b"(", MIB, begin)),
        ("closed brackets", lambda: filled(b"(1)+", MIB, begin, b"1 end output f")),
        ("minus signs", lambda: filled(b"- ", MIB, begin, b"1 end output f")),
        ("negations", lambda: filled(b"!", MIB, begin, b"1 end output f")),
        ("a long sum", lambda: filled(b"1+", MIB, begin, b"1 end output f")),
        ("a long conversion", lambda: filled(b" as u8", MIB, begin + b"1", b" end output f")),
        ("a long shift", lambda: filled(b">>1", MIB, begin + b"1", b" end output f")),
        ("comparisons", lambda: filled(b"1<", MIB, begin, b"1 end output f")),
        ("functions", lambda: filled(b"abs(", MIB, begin)),
        ("choices", lambda: filled(b"select(1,1,", MIB, begin)),
        ("definitions of one name", lambda: filled(b"let f = im(x,y) 1 end ", MIB, b"size 4 4 input a : u8 ", b"output f")),
        ("definitions", lambda: "size 4 4 input a : u8 " + "".join(f"let f{k} = im(x,y) a(x,y) end " for k in range(30000)) + "output f0"),
        ("inputs", lambda: "size 4 4 " + "".join(f"input a{k} : u8 " for k in range(54000)) + "output a0"),
        ("outputs", lambda: filled(b"output a ", MIB, b"size 4 4 input a : u8 ")),
        ("256 definitions of 4,000 bytes", lambda: "size 4 4 input a : u8 " + "".join(f"let f{k} = im(x,y) ({'+'.join(['a(x,y)'] * 250)}) as u8 end{' ' * 2200}" for k in range(256)) + "output f255"),
        ("an inline image of 32,768 nodes, read by one that is read", lambda: "size 4 4 input a : u8 inline let g = im(x,y) " + tree(14) + " end let f = im(x,y) (g(x,y)+g(x+1,y)) as u8 end output f"),
        ("15 inline images that double", lambda: "size 4 4 input a : u8 inline let f0 = im(x,y) a(x,y) end " + "".join(f"inline let f{k} = im(x,y) (f{k - 1}(x,y)+f{k - 1}(x,y)) as u8 end " for k in range(1, 255)) + "let f = im(x,y) f254(x,y) end output f"),
        ("4,000 reads", lambda: f"size 4096 4096 input a : u8 let f = im(x,y) {balanced(reads.split('+'))} as u8 end output f"),
        ("a clamped read of 4,096 places, 4,096 times", lambda: "size 64 64 input a : u8 inline let g = im(x,y) a(x+63,y+63) edge clamp end let f = im(x,y) " + balanced(["g(x,y)"] * 4000) + " as u8 end output f"),
    ]:
        for command in (["plan", "p.dk"], ["compile", "p.dk", "out"]):
            yield f"program, {name}: {command[0]}", command, {"p.dk": text}


def balanced(parts):
    if len(parts) == 1:
        return parts[0]
    half = len(parts) // 2
    return f"({balanced(parts[:half])}+{balanced(parts[half:])})"


def tree(levels):
    return balanced(["a(x,y)"] * (1 << levels))


def reports():
    size = 4 * MIB
    program = "size 4 1\ninput a : u8\nlet f = im(x,y) ((a(x-1,y)+a(x,y)+a(x+1,y))/3) as u8 end\noutput f\n"
    head = b"plan 2\nlimits 67108864 67108864\nage 0\nsize 4 1\n"
    stem = "q" * 60
    for name, text in [
        ("line ends", lambda: filled(b"\n", size)),
        ("blanks", lambda: filled(b" ", size)),
        ("one line", lambda: filled(b"q", size)),
        ("one number", lambda: filled(b"1", size, b"plan ")),
        ("image lines of one name", lambda: filled(b"image a 8 0 2\n", size, head)),
        ("image lines", lambda: head + "".join(f"image f{k} 8 0 0\n" for k in range(230000)).encode()[:size - len(head)]),
        ("264 image lines, and the same flow line", lambda: filled(b"flow hold f263 1\n", size, head + "".join(f"image f{k} 8 0 0\n" for k in range(257)).encode() + b"latency 0\nclocks 4\nbits 0\nreads 4096\n")),
        ("long names, flow lines of reads", lambda: flows(head, stem, size)),
        ("latency lines", lambda: filled(b"latency 1\n", size, head + b"image a 8 0 2\nimage f 8 1 0\n")),
    ]:
        yield f"report, {name}", ["check", "p.dk", "r.txt"], {"p.dk": program, "r.txt": text}


def flows(head, stem, size):
    names = [f"{stem}{k:03}" for k in range(257)]
    text = head + "".join(f"image {name} 8 0 0\n" for name in names).encode() + b"latency 0\nclocks 4\nbits 0\nreads 4096\n"
    lines = []
    used = len(text)
    for f in names:
        for g in names:
            line = f"flow read {f} {g} 0 0 1\n"
            used += len(line)
            if used > size:
                return text + "".join(lines).encode()
            lines.append(line)
    return text + "".join(lines).encode()


def limit():
    resource.setrlimit(resource.RLIMIT_AS, (MEMORY, MEMORY))
    resource.setrlimit(resource.RLIMIT_CPU, (600, 600))


def main(program, *chosen):
    program = os.path.abspath(program)
    os.chdir(tempfile.mkdtemp())
    for name, words, files in [*programs(), *reports(), *verilog(), *images()]:
        if chosen and not any(word in name for word in chosen):
            continue
        sizes = []
        for target, content in files.items():
            content = content() if callable(content) else content
            content = content.encode() if isinstance(content, str) else content
            with open(target, "wb") as file:
                file.write(content)
            sizes.append(len(content))
        start = time.monotonic()
        done = subprocess.Popen([program, *words], stdout=subprocess.DEVNULL, stderr=subprocess.PIPE, preexec_fn=limit)
        said = done.stderr.read().decode("latin-1").strip()[:60]
        _, status, used = os.wait4(done.pid, 0)
        taken = f"{used.ru_utime + used.ru_stime:.2f} s | {used.ru_maxrss / 1000:.0f} MB"
        print(f"| {name} | {max(sizes)} | {os.waitstatus_to_exitcode(status)} | {said} | {taken} | {time.monotonic() - start:.1f} s by the clock |", flush=True)


main(*sys.argv[1:])
