#!/usr/bin/env python3
"""Writes the images of a PGM file as one PNG file of 8 bits, a pixel for each sample.

The images are placed side by side, COLUMNS of them in a row, with a gap between two. Samples are stretched so that the
greatest one that the header allows is white. With `--colour` each three images, red, green and blue, are one picture in
colour, and these are placed so.

usage: tools/png.py [--colour] PGM PNG [COLUMNS]      COLUMNS is 1 by default
"""
import os
import re
import struct
import sys
import zlib

GAP = 2
BETWEEN = 255
# a header, by the rules of docs/PGM.md: a gap begins with white space, and one white space byte ends the header
SPACE = rb"[ \t\r\n](?:[ \t\r\n]|#[^\r\n]*[\r\n])*"
HEADER = re.compile(rb"P5" + SPACE + rb"([0-9]+)" + SPACE + rb"([0-9]+)" + SPACE + rb"([0-9]+)[ \t\r\n]")


def images(content):
    """The images of a PGM file: lines of samples of 8 bits."""
    while content:
        header = HEADER.match(content)
        if not header:
            sys.exit("png: not a PGM file of docs/PGM.md")
        width, height, greatest = map(int, header.groups())
        bytes_each = 1 if greatest < 256 else 2
        length = width * height * bytes_each
        rest = content[header.end():]
        if len(rest) < length or greatest == 0:
            sys.exit("png: not a PGM file of docs/PGM.md")
        samples = [int.from_bytes(rest[k:k + bytes_each], "big") * 255 // greatest
                   for k in range(0, length, bytes_each)]
        content = rest[length:]
        yield [samples[k:k + width] for k in range(0, width * height, width)]


def sheet(pictures, columns):
    """One picture of all, `columns` of them in a row, with a gap between two."""
    lines = []
    for first in range(0, len(pictures), columns):
        row = pictures[first:first + columns]
        if lines:
            lines += [[BETWEEN] * len(lines[0])] * GAP
            row += [[[BETWEEN] * len(row[0][0])] * len(row[0])] * (min(columns, len(pictures)) - len(row))
        for parts in zip(*row):
            line = list(parts[0])
            for part in parts[1:]:
                line += [BETWEEN] * GAP + part
            lines.append(line)
    return lines


def coloured(planes):
    """The pictures of red, green and blue planes, their pixels in place of samples."""
    if len(planes) % 3 or any(len(plane) != len(planes[0]) or len(plane[0]) != len(planes[0][0]) for plane in planes):
        sys.exit("png: the images are not red, green and blue planes of one size")
    return [[list(zip(*lines)) for lines in zip(*planes[k:k + 3])] for k in range(0, len(planes), 3)]


def flat(line, channels):
    """The samples of a line: of pixels in colour one after another."""
    return line if channels == 1 else [sample for pixel in line for sample in (pixel if isinstance(pixel, tuple) else (pixel,) * channels)]


def chunk(kind, content):
    return struct.pack(">I", len(content)) + kind + content + struct.pack(">I", zlib.crc32(kind + content))


def nearest(left, up, corner):
    """The neighbour that is nearest to left + up - corner; of equally near ones the first."""
    guess = left + up - corner
    return min((left, up, corner), key=lambda sample: abs(guess - sample))


def filtered(line, above, channels):
    """A line under each of the five filters of PNG: bytes of differences to neighbours."""
    left = [0] * channels + line[:-channels]
    corner = [0] * channels + above[:-channels]
    guesses = [[0] * len(line), left, above, [(a + b) // 2 for a, b in zip(left, above)], [nearest(*each) for each in zip(left, above, corner)]]
    return [bytes([kind, *((sample - guess) % 256 for sample, guess in zip(line, guess_line))]) for kind, guess_line in enumerate(guesses)]


def cost(stored):
    """How far the differences of a line are from 0 in all."""
    return sum(min(byte, 256 - byte) for byte in stored[1:])


def png(lines, channels=1):
    """A PNG, grey or of three channels: the shortest of six, one for each filter and one that chooses a filter for each line."""
    width, height = len(lines[0]), len(lines)
    lines = [flat(line, channels) for line in lines]
    ways = [filtered(line, above, channels) for line, above in zip(lines, [[0] * width * channels, *lines])]
    streams = [b"".join(way[kind] for way in ways) for kind in range(5)] + [b"".join(min(way, key=cost) for way in ways)]
    return (b"\x89PNG\r\n\x1a\n"
            + chunk(b"IHDR", struct.pack(">IIBBBBB", width, height, 8, 0 if channels == 1 else 2, 0, 0, 0))
            + chunk(b"IDAT", min((zlib.compress(stream, 9) for stream in streams), key=len))
            + chunk(b"IEND", b""))


def show(pgm, target, columns, colour=False):
    with open(pgm, "rb") as file:
        pictures = list(images(file.read()))
    if colour:
        pictures = coloured(pictures)
    with open(target, "wb") as file:
        file.write(png(sheet(pictures, columns), 3 if colour else 1))


def refuse_input(tool, target, *inputs):
    """Ends with one line if the output is one of the inputs, which would be lost."""
    for name in inputs:
        if os.path.exists(target) and os.path.exists(name) and os.path.samefile(name, target):
            sys.exit(f"{tool}: the output {target} is an input, and would be overwritten")


def in_one_line(tool, run, *words):
    """Runs a script. A file that cannot be read or written is named in one line."""
    try:
        run(*words)
        sys.stdout.flush()
    except OSError as error:
        if isinstance(error, BrokenPipeError):
            # (what is left for standard output would be written at the end, and fail again)
            os.dup2(os.open(os.devnull, os.O_WRONLY), 1)
        sys.exit(f"{tool}: {error.strerror}: {error.filename or 'standard output'}")


def main(words):
    colour = words[:1] == ["--colour"]
    words = words[colour:]
    if len(words) not in (2, 3):
        sys.exit(__doc__)
    if not re.fullmatch("[1-9][0-9]{0,5}", words[2] if words[2:] else "1"):
        sys.exit("png: COLUMNS is a number from 1")
    refuse_input("png", words[1], words[0])
    show(words[0], words[1], int(words[2]) if words[2:] else 1, colour)


if __name__ == "__main__":
    in_one_line("png", main, sys.argv[1:])
