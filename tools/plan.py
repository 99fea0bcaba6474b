#!/usr/bin/env python3
"""Draws a report of `plan` as SVG (docs/REPORT.md has the form of a report).

usage: tools/plan.py [REPORT [PROG]] >SVG      REPORT is a file; `-` or no word is standard input

    ./dk plan p.dk | tools/plan.py - p.dk >p.svg

Each image has a row, in the order of the text. Its bar begins at its delay, is as long as its line buffer and as high
as a pixel has bits, so its area is the buffer's bits. An arrow is a live read: it leaves the bar of the image that is
read at the age of the read, and ends at the delay of the reader. With PROG all live reads are drawn; their number, the
images and the depths are then compared with the report, and a report of another program is refused. Without PROG only
the reads of the flow lines are known, and the picture states how many of all it shows.
"""
import re
import sys

WIDE, LEFT, RIGHT, TOP = 900, 300, 740, 62
INK, PALE, FAINT, FILL = "#1a1a1a", "#555555", "#dddddd", "#dbe8f2"
READERS = ["#1b4f8a", "#9a3412", "#2c6e2f", "#6a3d9a", "#7a5c00", "#00696b", "#a01a58", "#4a4a4a"]
READ = re.compile(r"(\w+)\s*\(\s*x\s*(?:([+-])\s*(\d+)\s*)?,\s*y\s*(?:([+-])\s*(\d+)\s*)?\)(\s*edge\s+clamp\b)?")


class Report:
    """The lines of a report: numbers by their word, and images as (name, width, delay, depth)."""

    def __init__(self, text):
        self.numbers, self.images, self.latencies, self.flow_reads = {"age": [0]}, [], [], set()
        for line in text.splitlines():
            word, *rest = line.split()
            if word == "image":
                self.images.append((rest[0], *map(int, rest[1:])))
            elif word == "latency":
                self.latencies.append(int(rest[0]))
            elif word != "flow":
                self.numbers[word] = list(map(int, rest))
            elif rest[0] in ("read", "keep"):
                self.flow_reads.add((rest[1], rest[2], int(rest[3]), int(rest[4])))
        self.width, self.height = self.numbers["size"]
        self.bits = self.numbers["bits"][0]


# The live reads of a program

def moved(place, step, size):
    """Where a step (offset, clamped) leads from a place of one axis, or None if it leaves the frame."""
    if place is None:
        return None
    offset, clamped = step
    if clamped:
        return max(0, min(size - 1, place + offset))
    return place + offset if 0 <= place + offset < size else None


def steps(body):
    """The reads of a body: the image, and the step along each axis."""
    for name, x_sign, x, y_sign, y, clamped in READ.findall(body):
        if name != "im":
            yield name, (int(x_sign + (x or "0")), bool(clamped)), (int(y_sign + (y or "0")), bool(clamped))


class Program:
    def __init__(self, text):
        text = re.sub(r"--[^\n]*", "", text)
        self.width, self.height = map(int, re.search(r"\bsize\s+(\d+)\s+(\d+)", text).groups())
        self.inputs = re.findall(r"\binput\s+(\w+)", text)
        self.outputs = re.findall(r"\boutput\s+(\w+)", text)
        self.bodies, self.inline = {}, set()
        for inline, name, body in re.findall(r"\b(inline\s+)?let\s+(\w+)(?:\s*:\s*\w+)?\s*=\s*im\b(.*?)\bend\b", text, re.S):
            self.bodies[name] = list(steps(body))
            if inline:
                self.inline.add(name)

    def reads_of(self, image):
        """The live reads of an image: (image read, dx, dy). A path is followed from all points of the frame at once."""
        found, done = set(), set()
        paths = [(image, tuple(range(self.width)), tuple(range(self.height)))]
        while paths:
            at, across, down = paths.pop()
            for name, x_step, y_step in self.bodies.get(at, []):
                path = (name, tuple(moved(x, x_step, self.width) for x in across), tuple(moved(y, y_step, self.height) for y in down))
                if path in done:
                    continue
                done.add(path)
                if name in self.inline:
                    paths.append(path)
                else:
                    ways = [{end - start for start, end in enumerate(axis) if end is not None} for axis in path[1:]]
                    found |= {(name, dx, dy) for dx in ways[0] for dy in ways[1]}
        return found

    def kept(self):
        """The kept images, in the order of the text, each with its live reads."""
        reads = {name: set() for name in self.inputs}
        waiting = list(self.outputs)
        while waiting:
            image = waiting.pop()
            if image not in reads:
                reads[image] = self.reads_of(image)
                waiting += [name for name, _, _ in reads[image]]
        return {name: reads[name] for name in [*self.inputs, *self.bodies] if name in reads}


def live_reads(report, program):
    """All live reads as (reader, image read, dx, dy), after a comparison of the program with the report."""
    kept = program.kept()
    reads = {(reader, *read) for reader, of in kept.items() for read in of}
    count = report.numbers.get("reads", [len(reads)])[0]
    if (program.width, program.height) != (report.width, report.height) or list(kept) != [name for name, *_ in report.images] or len(reads) != count:
        sys.exit("plan.py: the report is not of this program")
    ages = ages_of(report, reads)
    for name, _, _, depth in report.images:
        if depth != max((age for (_, source), all_ages in ages.items() if source == name for age in all_ages), default=0):
            sys.exit(f"plan.py: the depth of {name} is not the greatest age of its reads")
    return reads


def ages_of(report, reads):
    """The ages of the reads, by (reader, image read)."""
    delays = {name: delay for name, _, delay, _ in report.images}
    ages = {}
    for reader, source, dx, dy in reads:
        ages.setdefault((reader, source), set()).add(delays[reader] - delays[source] - (dy * report.width + dx))
    return ages


# The picture

def ranges(numbers):
    """Numbers as ranges of consecutive ones."""
    found = []
    for number in sorted(numbers):
        if found and found[-1][1] == number - 1:
            found[-1][1] = number
        else:
            found.append([number, number])
    return found


def shown(first, last):
    return str(first) if first == last else f"{first}-{last}"


def wrapped(text, most):
    lines = [""]
    for word in text.split(" "):
        if lines[-1] and len(lines[-1]) + 1 + len(word) > most:
            lines.append("   " + word)
        else:
            lines[-1] = f"{lines[-1]} {word}" if lines[-1] else word
    return lines


def text(x, y, words, colour=INK, size=12, extra=""):
    """A text with a white rim, so that it is readable over lines."""
    return f'<text x="{x:.1f}" y="{y:.1f}" font-size="{size}" fill="{colour}" stroke="white" stroke-width="3" paint-order="stroke" {extra}>{words}</text>'


def many(count, noun):
    return f"{count:,} {noun}" + ("" if count == 1 else "s")


def marks(report, end):
    """The clocks that the scale names: multiples of the width, or of a power of two."""
    step = report.width
    while step * (RIGHT - LEFT) < 36 * end:
        step *= 2
    return range(0, end + 1, step) if step <= end else sorted({0, end})


def draw(report, reads, is_whole):
    ages = ages_of(report, reads)
    names = [name for name, *_ in report.images]
    colours = {name: READERS[at % len(READERS)] for at, name in enumerate(name for name in names if any(reader == name for reader, _ in ages))}
    end = max(1, *(delay + depth for _, _, delay, depth in report.images))
    across = (RIGHT - LEFT) / end
    a_bit = min(2.0, 26 / max(width for _, width, *_ in report.images))

    under, bars, over, place, top = [], [], [], {}, TOP
    for name, width, delay, depth in report.images:
        lines = [line for source in names if (name, source) in ages
                 for line in wrapped(f"reads {source} at age " + ", ".join(shown(*part) for part in ranges(ages[name, source])), 50)]
        high = max(width * a_bit, 2)
        middle = top + 16
        x = LEFT + delay * across
        place[name] = (x, middle - high / 2, middle + high / 2)
        over.append(text(12, top + 12, f'<tspan font-weight="bold">{name}</tspan>: {many(width, "bit")}, delay {delay:,}'))
        over += [text(12, top + 26 + 13 * at, line.replace("   ", "&#160;&#160;&#160;"), colours[name], 11) for at, line in enumerate(lines)]
        if depth:
            bars.append(f'<rect x="{x:.1f}" y="{middle - high / 2:.1f}" width="{depth * across:.1f}" height="{high:.1f}" fill="{FILL}" stroke="{INK}" stroke-width="0.8"/>')
            over.append(text(x + depth * across + 8, middle + 4, f"{many(depth, 'word')}, {many(width * depth, 'bit')}", size=11))
        else:
            over.append(text(x + 8, middle + 4, "no buffer", PALE, 11))
        bars.append(f'<circle cx="{x:.1f}" cy="{middle:.1f}" r="3.5" fill="{colours.get(name, INK)}"/>')
        free = 0
        for first, last in ranges({age for (_, source), all_ages in ages.items() if source == name for age in all_ages}):
            at = x + (first + last) / 2 * across
            if at - 3 * len(shown(first, last)) > free:
                over.append(text(at, middle + high / 2 + 12, shown(first, last), PALE, 10, 'text-anchor="middle"'))
                free = at + 3 * len(shown(first, last)) + 4
        top += max(16 + high / 2 + 34, 26 + 13 * len(lines) + 12)

    for (reader, source), all_ages in sorted(ages.items()):
        goal, colour = place[reader], colours[reader]
        # An arrow past other rows is bent to the left, so that arrows at one clock do not cover one another.
        bend = 9 * (names.index(reader) - names.index(source) - 1)
        for age in sorted(all_ages):
            x, y = place[source][0] + age * across, place[source][2]
            under.append(f'<path d="M{x:.1f},{y:.1f}Q{(x + goal[0]) / 2 - bend:.1f},{(y + goal[1]) / 2:.1f} {goal[0]:.1f},{goal[1] - 2:.1f}" marker-end="url(#to{READERS.index(colour)})" fill="none" stroke="{colour}" stroke-width="0.9"/>')

    scale = []
    for clock in marks(report, end):
        x = LEFT + clock * across
        scale.append(f'<path d="M{x:.1f},{TOP - 8}V{top - 8:.1f}" stroke="{FAINT}"/>')
        scale.append(text(x, TOP - 13, f"{clock:,}", PALE, 11, 'text-anchor="middle"'))
    latency = ", ".join(f"{late:,}" for late in report.latencies)
    head = f"Frames of {report.width} by {report.height}, age {report.numbers['age'][0]}: {many(report.bits, 'buffer bit')}, latency {latency}, {many(report.numbers.get('reads', [len(reads)])[0], 'live read')}"
    feet = ["A bar begins at the delay of its image. It is as long as the line buffer, and its area is the bits of the buffer.",
            "An arrow is a live read: it leaves the bar at its age (the numbers below the bar) and ends at the delay of the reader."]
    if not is_whole:
        feet.append(f"Only the {many(len(reads), 'read')} of the flow lines are drawn.")
    heads = [f'<marker id="to{at}" viewBox="0 0 8 8" refX="7" refY="4" markerWidth="7" markerHeight="7" orient="auto"><path d="M0,1L8,4L0,7Z" fill="{colour}"/></marker>'
             for at, colour in enumerate(READERS)]
    high = top + 8 + 16 * len(feet)
    return "\n".join([
        f'<svg xmlns="http://www.w3.org/2000/svg" width="{WIDE}" height="{high:.0f}" viewBox="0 0 {WIDE} {high:.0f}" font-family="sans-serif">',
        f'<rect width="{WIDE}" height="{high:.0f}" fill="white"/>', f"<defs>{''.join(heads)}</defs>",
        text(12, 20, head, size=13), text(12, TOP - 13, "image and its reads", PALE, 11), text(RIGHT + 40, TOP - 13, "delay, in clocks", PALE, 11),
        *scale, *under, *bars, *over, *(text(12, top + 12 + 16 * at, line, PALE, 11) for at, line in enumerate(feet)), "</svg>", ""])


def main(words):
    if len(words) > 2:
        sys.exit(__doc__)
    report = Report(sys.stdin.read() if not words or words[0] == "-" else open(words[0], encoding="ascii").read())
    if len(words) == 2:
        # A comment may hold any byte.
        with open(words[1], encoding="latin-1") as file:
            reads = live_reads(report, Program(file.read()))
    else:
        reads = report.flow_reads
    sys.stdout.write(draw(report, reads, len(words) == 2))


if __name__ == "__main__":
    main(sys.argv[1:])
