#!/usr/bin/env python3
"""Makes the pictures that must come out of the Verilog texts of sim/, by plain formulas: it reads no Verilog.
usage: tests/sim.py"""
import os

examples = os.path.join(os.path.dirname(os.path.abspath(__file__)), "..", "examples")


def read(name):
    """The width, height and samples of a picture with samples of one byte, as pictures.py writes them."""
    with open(f"{examples}/programs/{name}.pgm", "rb") as file:
        _, size, _, samples = file.read().split(b"\n", 3)
    width, height = map(int, size.split())
    return width, height, list(samples)


def write(name, width, height, samples):
    with open(f"{examples}/sim/{name}.pgm", "wb") as file:
        file.write(b"P5\n%d %d\n255\n" % (width, height) + bytes(samples))


width, height, scene = read("scene")
above = [0] * width + scene[:-width]
write("line_buffer", width, height, above)
# with ones at power-up the first row is 255, but for the word that the reset clock wrote
write("line_buffer_ones", width, height, [255] * (width - 1) + [0] + scene[:-width])
before = [0, 0] + scene
write("median", width, height, [sorted(before[k : k + 3])[1] for k in range(len(scene))])
write("enabled", width, height, [0] + scene[:-1])
