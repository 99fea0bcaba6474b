#!/usr/bin/env python3
"""Makes the pictures of docs/GALLERY.md by a built program.

usage: tools/dev/gallery.py PROGRAM [FOLDER]      FOLDER is docs/gallery by default
       tools/dev/gallery.py --check PROGRAM       compares only the plans of docs/gallery, which takes seconds

For each line of examples/programs/pictures.txt it writes
    INPUT.png        the input, made here by formulas, with frames of 256 by 192
    NAME.png         what `run` writes for it, the line `size` of the example being changed to these frames
    NAME-plan.svg    the report of `plan` for the example as it is, drawn by tools/plan.py

Each output is compared with the formulas of tests/pictures.py; where one differs, the script stops with status 1.
"""
import math
import os
import re
import subprocess
import sys
import tempfile

TOP = os.path.join(os.path.dirname(os.path.abspath(__file__)), "..", "..")
sys.dont_write_bytecode = True
sys.path += [os.path.join(TOP, "tests"), os.path.join(TOP, "tools")]
import pictures as formulas  # noqa: E402
import plan  # noqa: E402
import png  # noqa: E402

WIDTH, HEIGHT = formulas.WIDTH, formulas.HEIGHT = 256, 192
EXAMPLES = os.path.join(TOP, "examples", "programs")
GALLERY = os.path.join(TOP, "docs", "gallery")


# The inputs

def is_written(words, left, top, scale, x, y):
    """Whether the point is on a stroke of these words, which have a blank letter between two."""
    for word in words.split():
        if formulas.is_ink(word, left, top, scale, x, y):
            return True
        left += 6 * scale * (len(word) + 1)
    return False


def shaded(x, y, centre_x, centre_y, radius):
    """The light of a sphere at a point of its disc, 0 to 200; the lamp is at the upper left."""
    across, down = x - centre_x, y - centre_y
    towards = math.isqrt(radius * radius - across * across - down * down)
    return max(0, 200 * (62 * towards - 50 * across - 60 * down)) // (100 * radius)


# Words by their left and upper end and their scale: strokes of 4, 2 and 1 pixels.
WORDS = [("DARK", 14, 122, 4), ("ROOM MARK", 14, 157, 2), ("ROAD OAK DAM DOOR MOOD", 14, 177, 1)]
# Bars by their left and right end, and how wide each is.
BARS = [(136, 168, 8), (172, 192, 5), (196, 214, 3), (218, 230, 2), (234, 246, 1)]


def plain_scene(x, y):
    """A ramp, a sphere with a letter, a star whose spokes meet, bars that get finer, and words."""
    if formulas.in_disc(x, y, 62, 60, 46):
        light = 40 + shaded(x, y, 62, 60, 46)
        return light // 4 if formulas.is_ink("R", 47, 39, 6, x, y) else min(255, light)
    if formulas.in_disc(x, y, 188, 58, 46):
        return 215 if math.floor(math.atan2(2 * (y - 58) + 1, 2 * (x - 188) + 1) * 18 / math.pi) % 2 == 0 else 35
    if 118 <= y < 168:
        for left, right, bar in BARS:
            if left <= x < right:
                return 35 if (x - left) // bar % 2 == 0 else 190
    if any(is_written(*word, x, y) for word in WORDS):
        return 235
    return 50 + x // 4 + y // 8


def speckled():
    """The scene with one pixel in twelve turned black or white."""
    noise = formulas.Noise(2)

    def value(x, y):
        draw = noise.below(24)
        return {0: 0, 1: 255}.get(draw, plain_scene(x, y))

    return formulas.each(value)


LINES = [("DARK ROOM", 16, 16, 4), ("MARK OAK DOOR", 16, 58, 3), ("ROAD DAM MOOD ROAR", 16, 92, 2), ("ARM ROD MOOR DRAM", 16, 116, 2),
         ("DOOR DARK ROAM MARK", 16, 140, 2), ("ROOM OAK DOOM ROAD DAMAR AROMA MARROR", 16, 166, 1)]


def page():
    """Lines of dark ink on paper; the light falls off toward the lower right."""
    def value(x, y):
        light = 240 - x // 2 - y // 4
        return light * 45 // 100 if any(is_written(*line, x, y) for line in LINES) else light

    return formulas.noisy(value, 3, 3)


def shapes():
    """A rectangle with a hole, a square on its corner, a wedge, a cross and a disc."""
    def value(x, y):
        if 20 <= x < 104 and 18 <= y < 78:
            return 70 if 44 <= x < 80 and 36 <= y < 60 else 190
        if abs(x - 184) + abs(y - 54) <= 46:
            return 160
        if 24 <= x < 132 and 108 <= y < 176 and 3 * (y - 108) > 2 * (x - 24):
            return 200
        if (168 <= x < 184 and 112 <= y < 176) or (144 <= x < 208 and 136 <= y < 152):
            return 180
        if formulas.in_disc(x, y, 228, 156, 20):
            return 150
        return 60

    return formulas.noisy(value, 2, 4)


def blobs():
    """A mask: discs that the frame cuts, rings, a frame of one pixel, and words."""
    def in_ring(x, y, centre_x, centre_y, outer, inner):
        return formulas.in_disc(x, y, centre_x, centre_y, outer) and not formulas.in_disc(x, y, centre_x, centre_y, inner)

    def value(x, y):
        ring = in_ring(x, y, 190, 56, 42, 26) or in_ring(x, y, 190, 56, 14, 6)
        cut = formulas.in_disc(x, y, 10, 24, 48) or formulas.in_disc(x, y, 248, 180, 54)
        square = 84 <= x < 124 and 22 <= y < 62 and not (85 <= x < 123 and 23 <= y < 61)
        ink = is_written("ROOM", 16, 112, 6, x, y) or is_written("DARK", 16, 168, 2, x, y) or is_written("MARK", 80, 168, 2, x, y)
        return 1 if ring or cut or square or ink else 0

    return formulas.each(value)


def exposures():
    """The scene without noise in dim light, and with exactly twice as much and a little stray light."""
    dim = [[sample * 45 // 100 for sample in line] for line in formulas.each(plain_scene)]
    return [dim, [[2 * sample + 15 for sample in line] for line in dim]]


def camera_rounds():
    """Left, right, left, right: both see the scene, and the right one sees a ball that moves."""
    def with_ball(centre_x, centre_y):
        return lambda x, y: 55 + shaded(x, y, centre_x, centre_y, 22) if formulas.in_disc(x, y, centre_x, centre_y, 22) else plain_scene(x, y)

    return [formulas.noisy(plain_scene, 4, 5), formulas.noisy(with_ball(112, 112), 4, 6),
            formulas.noisy(plain_scene, 4, 7), formulas.noisy(with_ball(188, 84), 4, 8)]


def sensor():
    """The raw samples of 10 bits after the mosaic, and the mask of its green filters."""
    noise = formulas.Noise(9)

    def value(x, y):
        share = 90 if formulas.is_green(x, y) else 60 if y % 2 == 0 else 40
        return max(0, min(1023, 4 * plain_scene(x, y) * share // 100 + noise.around(6)))

    return [formulas.each(value), formulas.each(lambda x, y: 1 if formulas.is_green(x, y) else 0)]


def stereo_pair():
    """Random dots; the right picture has those of three nested shapes moved left, a pixel a step. Below is a plain strip."""
    noise = formulas.Noise(10)

    def step(x, y):
        return 3 if is_written("DK", 96, 62, 6, x, y) else 2 if formulas.in_disc(x, y, 128, 83, 58) else 1 if abs(x - 128) <= 108 and abs(y - 83) <= 70 else 0

    left = formulas.each(lambda x, y: 16 * noise.below(16))
    right = formulas.each(lambda x, y: 16 * noise.below(16))
    for disparity in range(4):
        for y in range(HEIGHT):
            for x in range(disparity, WIDTH):
                if step(x, y) == disparity:
                    right[y][x - disparity] = left[y][x]
    for picture in (left, right):
        picture[-20:] = [[128] * WIDTH for _ in range(20)]
    return [left, right]


def inputs():
    """The images of each input file, each with its greatest sample."""
    raw, mask = sensor()
    return {
        "scene": [(formulas.noisy(plain_scene, 6, 1), 255)],
        "speckled": [(speckled(), 255)],
        "page": [(page(), 255)],
        "shapes": [(shapes(), 255)],
        "blobs": [(blobs(), 1)],
        "exposures": [(picture, 255) for picture in exposures()],
        "cameras": [(picture, 255) for picture in camera_rounds()],
        "sensor": [(raw, 1023), (mask, 1)],
        "dots": [(picture, 255) for picture in stereo_pair()],
    }


# The pictures

def ports(text, word):
    """The number of inputs or outputs of a program: those of the examples have a line each."""
    return sum(line.startswith(word + " ") for line in text.splitlines())


def table():
    """Each example of the gallery with the name of its input."""
    with open(os.path.join(EXAMPLES, "pictures.txt"), encoding="ascii") as lines:
        return [line.split() for line in lines]


def plan_of(program, name):
    """The picture of the plan of an example."""
    example = os.path.join(EXAMPLES, name + ".dk")
    report = plan.Report(subprocess.run([program, "plan", example], check=True, capture_output=True, text=True).stdout)
    with open(example, encoding="ascii") as file:
        return plan.draw(report, plan.live_reads(report, plan.Program(file.read())), True)


def check_plans(program):
    for name, _ in table():
        path = os.path.join(GALLERY, name + "-plan.svg")
        if not os.path.exists(path) or open(path, encoding="ascii").read() != plan_of(program, name):
            sys.exit(f"gallery.py: docs/gallery/{name}-plan.svg is not the plan of the program")


def show(program, name, source, folder, aside):
    """The pictures of one example; returns the bytes that `run` wrote."""
    example = os.path.join(EXAMPLES, name + ".dk")
    with open(example, encoding="ascii") as file:
        text = file.read()
    larger = os.path.join(aside, name + ".dk")
    with open(larger, "w", encoding="ascii") as file:
        file.write(re.sub(r"(?m)^size .*$", f"size {WIDTH} {HEIGHT}", text))
    given, made = (os.path.join(aside, word + ".pgm") for word in (source, name))
    subprocess.run([program, "run", larger, given, made], check=True)
    png.show(given, os.path.join(folder, source + ".png"), ports(text, "input"))
    png.show(made, os.path.join(folder, name + ".png"), ports(text, "output"))
    with open(os.path.join(folder, name + "-plan.svg"), "w", encoding="ascii") as file:
        file.write(plan_of(program, name))
    with open(made, "rb") as file:
        return file.read()


def make(program, folder):
    given = inputs()
    expected = {name: formulas.file_of(images) for name, images in formulas.results(given)}
    with tempfile.TemporaryDirectory() as aside:
        for name, images in given.items():
            with open(os.path.join(aside, name + ".pgm"), "wb") as file:
                file.write(formulas.file_of(images))
        for name, source in table():
            if show(program, name, source, folder, aside) != expected[name]:
                sys.exit(f"gallery.py: the picture of {name} is not that of its formula")


def main(words):
    if words[:1] == ["--check"] and len(words) == 2:
        check_plans(os.path.abspath(words[1]))
    elif len(words) in (1, 2):
        make(os.path.abspath(words[0]), words[1] if words[1:] else GALLERY)
    else:
        sys.exit(__doc__)


if __name__ == "__main__":
    main(sys.argv[1:])
