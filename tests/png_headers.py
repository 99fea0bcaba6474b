#!/usr/bin/env python3
"""Checks what tools/png.py reads of PGM files, by headers and samples written by hand after docs/PGM.md, and how it places images.

usage: tests/png_headers.py      prints nothing, and ends with status 0, if nothing is wrong
"""
import os
import sys

sys.dont_write_bytecode = True
sys.path.append(os.path.join(os.path.dirname(os.path.abspath(__file__)), "..", "tools"))
import png  # noqa: E402

# a file, and the samples of each of its images, as 8 bits; the second header is that of docs/PGM.md, "The file"
READ = [
    (b"P5\n3 1\n255\n\x01\x02\x03", [[[1, 2, 3]]]),
    (b"P5\n# c\n3 #x\n#y\n1\n255\n\x01\x02\x03", [[[1, 2, 3]]]),
    (b"P5 #\r#5 5\n\t2 2 255\r\n\x01#\x02", [[[10, 1], [35, 2]]]),
    (b"P5 1 1 65535\n\x80\x00P5\n#P5\n001 1 3\n\x03", [[[127]], [[255]]]),
]
# no gap after P5; no white space before a comment; no end of the header; another format; a raster that is too short; maxval 0
REFUSED = [b"P5#c\n1 1 255\n\x00", b"P5\n1 1#c\n255\n\x00", b"P5\n1 1\n255#c\n\x00", b"P2\n1 1\n255\n0", b"P5\n2 1\n255\n\x00", b"P5\n1 1\n0\n\x00"]


def read(content):
    try:
        return list(png.images(content))
    except SystemExit:
        return None


wrong = [f"png: {content!r}: {read(content)}, expected {found}" for content, found in READ if read(content) != found]
wrong += [f"png: {content!r} is not refused" for content in REFUSED if read(content) is not None]
two = png.sheet(read(b"P5\n2 1\n255\n\x01\x02P5\n#\n2 1\n255\n\x03\x04"), 1)
if two != [[1, 2], [255, 255], [255, 255], [3, 4]]:
    wrong.append(f"png: two images become {two}")
uneven = png.sheet([[[1]], [[2]], [[3]]], 2)
if uneven != [[1, 255, 255, 2], [255] * 4, [255] * 4, [3, 255, 255, 255]]:
    wrong.append(f"png: three images in rows of two become {uneven}")
# in colour: a pixel of each three samples, and the samples of a line one after another, with white between two pictures
colour = png.sheet(png.coloured([[[1, 4]], [[2, 5]], [[3, 6]], [[7, 8]], [[7, 8]], [[7, 8]]]), 2)
if png.flat(colour[0], 3) != [1, 2, 3, 4, 5, 6, *[255] * 6, 7, 7, 7, 8, 8, 8]:
    wrong.append(f"png: six planes become {colour}")
if png.png([[(9, 8, 7)]], 3)[16:29] != bytes([0, 0, 0, 1, 0, 0, 0, 1, 8, 2, 0, 0, 0]):
    wrong.append("png: the header of a picture in colour is not that of PNG")
try:
    png.coloured([[[1]], [[2]]])
    wrong.append("png: two planes are not refused")
except SystemExit:
    pass
sys.exit("\n".join(wrong) or 0)
