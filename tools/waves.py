#!/usr/bin/env python3
"""Reads value change dumps, and draws them. It knows nothing of the layout that dk writes: any blanks
and line ends part the words, and the changes of a time may stand in any order.

usage: waves.py draw VCD SVG NAME..      draws these variables from top to bottom
       waves.py values VCD               prints the values at each time, a line a time, in the order of names
"""
import sys

LEFT, TOP, WIDE, HIGH, GAP = 64, 22, 900, 24, 10
INK, PALE, FAINT, FILL = "#1b3a57", "#5b6b78", "#c8d2da", "#dbe8f2"


class Dump:
    """The variables of a dump, and their values at each time from 0 to the last."""

    def __init__(self, text):
        words = iter(text.split())
        self.names, self.widths, changes, ids, time = [], {}, {}, {}, None
        now = None
        for word in words:
            kind = word[0]
            if kind in "bB":
                now[ids[next(words)]] = int(word[1:], 2)
            elif kind in "01":
                now[ids[word[1:]]] = int(kind)
            elif kind == "#":
                time = int(word[1:])
                now = changes.setdefault(time, {})
            elif kind == "$":
                part = []
                if word not in ("$end", "$dumpvars"):
                    part = list(iter(lambda: next(words), "$end"))
                if word == "$var":
                    name = part[3]
                    self.names.append(name)
                    self.widths[name] = int(part[1])
                    ids[part[2]] = name
            else:
                now[ids[word[1:]]] = int(kind)
        self.last = time
        self.rows = []
        values = {}
        for time in range(self.last + 1):
            values = {**values, **changes.get(time, {})}
            self.rows.append(values)


def bit(values, clock, top):
    """A line that is high where the bit is 1."""
    points = []
    for place, value in enumerate(values):
        y = top + (2 if value else HIGH - 2)
        points += [f"{LEFT + place * clock:.1f},{y}", f"{LEFT + (place + 1) * clock:.1f},{y}"]
    yield f'<polyline points="{" ".join(points)}" fill="none" stroke="{INK}"/>'


def runs(values):
    """Where a value begins, how long it stays, and the value."""
    first = 0
    for place in range(1, len(values) + 1):
        if place == len(values) or values[place] != values[first]:
            yield first, place - first, values[first]
            first = place


def boxes(values, clock, top):
    """A box for each value, with its number."""
    for first, count, value in runs(values):
        x, wide = LEFT + first * clock, count * clock
        fill = FILL if value else "none"
        yield f'<rect x="{x:.1f}" y="{top + 2}" width="{wide:.1f}" height="{HIGH - 4}" rx="4" fill="{fill}" stroke="{INK}"/>'
        yield f'<text x="{x + wide / 2:.1f}" y="{top + HIGH - 7}" text-anchor="middle">{value}</text>'


def bars(values, clock, top, greatest):
    """A bar for each value, as high as the value."""
    path = f"M{LEFT},{top + HIGH - 2}"
    for first, count, value in runs(values):
        y = top + HIGH - 2 - value * (2 * HIGH) / greatest
        path += f"V{y:.1f}H{LEFT + (first + count) * clock:.1f}"
    yield f'<path d="{path}V{top + HIGH - 2}Z" fill="{FILL}" stroke="{INK}" stroke-width="0.7"/>'


def draw(dump, names):
    times = dump.last
    clock = WIDE / times
    lines, top = [], TOP
    # a box needs room for its number; where there is none a number is as high as it is great
    narrow = clock < 24
    step = next(s for s in (1, 2, 4, 8, 16, 32, 64, 128, 256, 512) if s * clock >= 24)
    bottom = TOP + sum((2 * HIGH if narrow and dump.widths[name] > 1 else HIGH) + GAP for name in names)
    for time in range(1 if step > 1 else 0, times, step):
        x = LEFT + time * clock
        lines.append(f'<path d="M{x:.1f},{TOP - 6}V{bottom}" stroke="{FAINT}"/>')
        x, anchor = (x, "start") if narrow else (x + clock / 2, "middle")
        lines.append(f'<text x="{x:.1f}" y="{TOP - 10}" text-anchor="{anchor}" fill="{PALE}">{time - 1}</text>')
    for name in names:
        values = [row[name] for row in dump.rows[:times]]
        wide = dump.widths[name]
        if narrow and wide > 1:
            top += HIGH
            lines += bars(values, clock, top, 2 ** wide - 1)
        else:
            lines += bit(values, clock, top) if wide == 1 else boxes(values, clock, top)
        lines.append(f'<text x="{LEFT - 8}" y="{top + HIGH - 7}" text-anchor="end">{name}</text>')
        top += HIGH + GAP
    lines.append(f'<text x="{LEFT - 8}" y="{TOP - 10}" text-anchor="end" fill="{PALE}">clock</text>')
    head = f'<svg xmlns="http://www.w3.org/2000/svg" width="{LEFT + WIDE + 10}" height="{bottom + 4}" font-family="sans-serif" font-size="12">'
    return "\n".join([head, '<rect width="100%" height="100%" fill="white"/>', *lines, "</svg>", ""])


def main(words):
    with open(words[1], encoding="latin-1") as file:
        dump = Dump(file.read())
    if words[0] == "draw":
        with open(words[2], "w") as file:
            file.write(draw(dump, words[3:]))
    else:
        for time, row in enumerate(dump.rows):
            print(time, *sorted(f"{name}={row[name]}" for name in dump.names))


if __name__ == "__main__":
    main(sys.argv[1:])
