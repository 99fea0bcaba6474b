#!/usr/bin/env python3
"""Compares the figures of the documentation that a program dk computes with those that tools/dev/figures.py prints. Names each line that differs,
and ends with status 1 if there is one.

usage: python3 tests/figures.py [--all] PROGRAM      --all also compares what takes a second
"""
import os
import re
import sys

TOP = os.path.join(os.path.dirname(os.path.abspath(__file__)), "..")
sys.dont_write_bytecode = True
# in front, as a script of that folder has the name of this one
sys.path.insert(0, os.path.join(TOP, "tools", "dev"))
import figures  # noqa: E402


def has_form(line, found):
    """Whether a row has these cells, where `..` is any one."""
    wanted, cells = figures.cells_of(line), figures.cells_of(found)
    return len(wanted) == len(cells) and all(cell in (figures.OPEN, other) for cell, other in zip(wanted, cells))


def block(text, start):
    """The lines of a block of code without comments, and without those that stand for others."""
    body = text.split(start, 1)[-1].split("```", 1)[0]
    bare = (re.sub(r"//.*", "", line).rstrip() for line in body.splitlines())
    return [line for line in bare if line.strip() not in ("", figures.OPEN)]


def faults(part, text):
    """What a page has otherwise."""
    if part.excerpt:
        return [f"the text has no line: {line}" for line in block(text, part.excerpt) if line not in part.lines] if part.excerpt in text else [f"no block {part.excerpt}"]
    if not part.head:
        return [f"no text: {line}" for line in part.lines if line not in text]
    lines = text.splitlines()
    rows = [lines[at] for at in figures.table(lines, part.head)]
    if len(rows) != len(part.lines):
        return [f"{len(rows)} rows, not {len(part.lines)}: {part.head}"]
    return [f"{found}, not: {line}" for line, found in zip(part.lines, rows) if not has_form(line, found)]


def main(words):
    whole, words = "--all" in words, [word for word in words if word != "--all"]
    if len(words) != 1 or words[0].startswith("-"):
        sys.exit(__doc__)
    count = 0
    for part in figures.parts(words[0], whole):
        for fault in faults(part, figures.page(part.page)):
            print(f"figures: {part.page}: {fault}")
            count += 1
    sys.exit(count > 0)


if __name__ == "__main__":
    main(sys.argv[1:])
