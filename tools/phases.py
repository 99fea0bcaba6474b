#!/usr/bin/env python3
"""Splits the images of a PGM file into phases, as a widened program reads and writes them (docs/WIDEN.md), or joins them again.

`split` writes P images for each image of IN, in order: phase p has column p of each P columns. `join` writes one image for
each P images of IN. Both keep the greatest sample of each image.

usage: tools/phases.py split P IN OUT
       tools/phases.py join P IN OUT
       tools/phases.py check            tries both on images worked out by hand and on random ones
"""
import array
import os
import random
import re
import sys

# a header, by the rules of docs/PGM.md: a gap begins with white space, and one white space byte ends the header
SPACE = rb"[ \t\r\n](?:[ \t\r\n]|#[^\r\n]*[\r\n])*"
HEADER = re.compile(rb"P5" + SPACE + rb"([0-9]+)" + SPACE + rb"([0-9]+)" + SPACE + rb"([0-9]+)[ \t\r\n]")


def images(content):
    """The images of a PGM file: the greatest sample, and lines of samples in the file's order of bytes."""
    at = 0
    while at < len(content):
        header = HEADER.match(content, at)
        if not header:
            sys.exit("phases: not a PGM file of docs/PGM.md")
        width, height, greatest = map(int, header.groups())
        samples = array.array("B" if greatest < 256 else "H")
        length = width * height * samples.itemsize
        at = header.end() + length
        raster = content[header.end():at]
        if len(raster) < length or 0 in (width, height, greatest):
            sys.exit("phases: not a PGM file of docs/PGM.md")
        samples.frombytes(raster)
        yield greatest, [samples[k:k + width] for k in range(0, width * height, width)]


def file_of(pictures):
    """The PGM file of images."""
    return b"".join(b"P5\n%d %d\n%d\n" % (len(lines[0]), len(lines), greatest) + b"".join(line.tobytes() for line in lines)
                    for greatest, lines in pictures)


def split(pictures, phases):
    for greatest, lines in pictures:
        if len(lines[0]) % phases:
            sys.exit(f"phases: {phases} does not divide the width {len(lines[0])}")
        for phase in range(phases):
            yield greatest, [line[phase::phases] for line in lines]


def joined(parts):
    """The line whose phases these are."""
    line = parts[0] * len(parts)
    for phase, part in enumerate(parts):
        line[phase::len(parts)] = part
    return line


def join(pictures, phases):
    pictures = list(pictures)
    if len(pictures) % phases:
        sys.exit(f"phases: {phases} does not divide the number of images, {len(pictures)}")
    for first in range(0, len(pictures), phases):
        group = pictures[first:first + phases]
        if len({(greatest, len(lines), len(lines[0])) for greatest, lines in group}) > 1:
            sys.exit("phases: the phases of an image have different sizes or greatest samples")
        yield group[0][0], [joined(parts) for parts in zip(*(lines for _, lines in group))]


def check():
    """Both on two images of one line worked out by hand, and on random images."""
    whole = b"P5\n4 1\n255\n" + bytes((1, 2, 3, 4)) + b"P5\n4 1\n256\n" + bytes((0, 5, 0, 6, 1, 0, 0, 8))
    parts = b"".join((b"P5\n2 1\n255\n", bytes((1, 3)), b"P5\n2 1\n255\n", bytes((2, 4)),
                      b"P5\n2 1\n256\n", bytes((0, 5, 1, 0)), b"P5\n2 1\n256\n", bytes((0, 6, 0, 8))))
    assert file_of(split(images(whole), 2)) == parts
    assert file_of(join(images(parts), 2)) == whole
    draw = random.Random(1)
    for phases in range(2, 9):
        for greatest, each in ((255, 1), (65535, 2)):
            width, height = phases * draw.randint(1, 9), draw.randint(1, 9)
            content = b"".join(b"P5\n%d %d\n%d\n" % (width, height, greatest) + draw.randbytes(width * height * each) for _ in range(3))
            assert file_of(join(images(file_of(split(images(content), phases))), phases)) == content
    print("phases: split and join agree")


def main(words):
    if words == ["check"]:
        return check()
    if len(words) != 4 or words[0] not in ("split", "join") or not re.fullmatch("[2-8]", words[1]):
        sys.exit("usage: tools/phases.py split P IN OUT | join P IN OUT | check")
    if os.path.exists(words[3]) and os.path.exists(words[2]) and os.path.samefile(words[2], words[3]):
        sys.exit(f"phases: the output {words[3]} is an input, and would be overwritten")
    with open(words[2], "rb") as file:
        pictures = images(file.read())
    content = file_of((split if words[0] == "split" else join)(pictures, int(words[1])))
    with open(words[3], "wb") as file:
        file.write(content)


if __name__ == "__main__":
    try:
        main(sys.argv[1:])
    except OSError as error:
        sys.exit(f"phases: {error.strerror}: {error.filename}")
