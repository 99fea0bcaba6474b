#!/usr/bin/env python3
"""Makes the input pictures of the examples and the pictures that the programs must give.

It reads no program. Each filter is written here a second time, straight from its textbook formula
and mostly in another way than the program has it (whole windows in place of two passes, sorting in
place of a network), so that the two can be held against each other.

usage: tests/pictures.py [FOLDER]      writes the .pgm files, into examples/programs by default
"""
import os
import sys

WIDTH, HEIGHT = 64, 48

LETTERS = {
    "A": ("01110", "10001", "10001", "11111", "10001", "10001", "10001"),
    "D": ("11110", "10001", "10001", "10001", "10001", "10001", "11110"),
    "K": ("10001", "10010", "10100", "11000", "10100", "10010", "10001"),
    "M": ("10001", "11011", "10101", "10101", "10001", "10001", "10001"),
    "O": ("01110", "10001", "10001", "10001", "10001", "10001", "01110"),
    "R": ("11110", "10001", "10001", "11110", "10100", "10010", "10001"),
}


# Files

def image(picture, greatest):
    """One binary PGM image: a list of lines of samples, each 0 to greatest."""
    size = 1 if greatest < 256 else 2
    header = "P5\n%d %d\n%d\n" % (len(picture[0]), len(picture), greatest)
    return header.encode() + b"".join(sample.to_bytes(size, "big") for line in picture for sample in line)


# Making inputs

class Noise:
    """A linear congruential generator of 31 bits."""

    def __init__(self, seed):
        self.state = seed

    def below(self, count):
        self.state = (1103515245 * self.state + 12345) % 2**31
        return (self.state >> 16) % count

    def around(self, most):
        return self.below(2 * most + 1) - most


def each(value):
    """The picture of a function of x and y."""
    return [[value(x, y) for x in range(WIDTH)] for y in range(HEIGHT)]


def byte(value):
    return max(0, min(255, value))


def is_ink(text, left, top, scale, x, y):
    """Whether the point is on a stroke of the text, whose letters are 5 by 7 times the scale."""
    column, line = (x - left) // scale, (y - top) // scale
    if not (0 <= line < 7 and 0 <= column < 6 * len(text)) or column % 6 == 5:
        return False
    return LETTERS[text[column // 6]][line][column % 6] == "1"


def in_disc(x, y, centre_x, centre_y, radius):
    return (x - centre_x) ** 2 + (y - centre_y) ** 2 <= radius ** 2


def plain_scene(x, y):
    """A ramp, a disc with a letter, bars that get finer, and a word."""
    if in_disc(x, y, 16, 15, 11):
        return 60 if is_ink("R", 12, 9, 2, x, y) else 205
    if 34 <= x < 60 and 5 <= y < 25:
        bar = 5 if x < 44 else 3 if x < 53 else 1
        return 35 if (x - 34) // bar % 2 == 0 else 180
    if is_ink("DARK", 8, 31, 2, x, y):
        return 225
    return 50 + x + y // 2


def noisy(value, most, seed):
    noise = Noise(seed)
    return each(lambda x, y: byte(value(x, y) + noise.around(most)))


def scene():
    return noisy(plain_scene, 6, 1)


def speckled():
    """The scene with one pixel in twelve turned black or white."""
    noise = Noise(2)

    def value(x, y):
        draw = noise.below(24)
        return {0: 0, 1: 255}.get(draw, plain_scene(x, y))

    return each(value)


def page():
    """Two words in dark ink on paper; the light falls off toward the lower right."""
    def value(x, y):
        light = 235 - 2 * x - y
        ink = is_ink("DARK", 8, 7, 2, x, y) or is_ink("ROOM", 8, 28, 2, x, y)
        return light * 45 // 100 if ink else light

    return noisy(value, 3, 3)


def shapes():
    """A rectangle with a hole, a square on its corner and a wedge."""
    def value(x, y):
        if 6 <= x < 26 and 6 <= y < 20:
            return 70 if 12 <= x < 20 and 11 <= y < 16 else 190
        if abs(x - 46) + abs(y - 16) <= 12:
            return 160
        if 8 <= x < 56 and 30 <= y < 44 and 3 * (y - 30) > x - 8:
            return 200
        return 60

    return noisy(value, 2, 4)


def exposures():
    """The scene without noise in dim light, and with exactly twice as much and a little stray light."""
    dim = [[sample * 45 // 100 for sample in line] for line in each(plain_scene)]
    return [dim, [[2 * sample + 15 for sample in line] for line in dim]]


def camera_rounds():
    """Left, right, left, right: both see the scene, and the right one sees a ball that moves."""
    def with_ball(centre_x, centre_y):
        return lambda x, y: 120 if in_disc(x, y, centre_x, centre_y, 5) else plain_scene(x, y)

    return [noisy(plain_scene, 4, 5), noisy(with_ball(20, 30), 4, 6),
            noisy(plain_scene, 4, 7), noisy(with_ball(48, 17), 4, 8)]


def is_green(x, y):
    """Bayer mosaic: G R / B G."""
    return (x + y) % 2 == 0


def sensor():
    """The raw samples of 10 bits behind the mosaic, and the mask of its green filters."""
    noise = Noise(9)

    def value(x, y):
        light = 4 * plain_scene(x, y)
        share = 90 if is_green(x, y) else 60 if y % 2 == 0 else 40
        return max(0, min(1023, light * share // 100 + noise.around(6)))

    return [each(value), each(lambda x, y: 1 if is_green(x, y) else 0)]


def stereo_pair():
    """Random dots; the right picture has those of a pyramid of three steps moved left, a pixel a step.
    Below is a plain strip.
    """
    noise = Noise(10)

    def step(x, y):
        return max(0, min(3, (x - 4) // 8, (59 - x) // 8, (y + 3) // 6, (44 - y) // 6))

    left = each(lambda x, y: noise.below(256))
    right = each(lambda x, y: noise.below(256))
    for disparity in range(4):
        for y in range(HEIGHT):
            for x in range(disparity, WIDTH):
                if step(x, y) == disparity:
                    right[y][x - disparity] = byte(left[y][x] + noise.around(8))
    for picture in (left, right):
        picture[-6:] = [[128] * WIDTH for _ in range(6)]
    return left, right


def blobs():
    """A mask: discs that the frame cuts, a ring and a word."""
    def value(x, y):
        ring = in_disc(x, y, 48, 13, 10) and not in_disc(x, y, 48, 13, 6)
        cut = in_disc(x, y, 3, 6, 12) or in_disc(x, y, 62, 44, 13)
        return 1 if ring or cut or is_ink("ROOM", 4, 30, 2, x, y) else 0

    return each(value)


# Reading a picture

def clamped(picture, x, y):
    return picture[max(0, min(HEIGHT - 1, y))][max(0, min(WIDTH - 1, x))]


def window(picture, x, y, radius):
    """The samples of a square window with clamped edges, in raster order."""
    return [clamped(picture, x + dx, y + dy)
            for dy in range(-radius, radius + 1) for dx in range(-radius, radius + 1)]


def inside_window(picture, x, y, radius):
    """The samples of a square window that are in the frame."""
    return [picture[v][u]
            for v in range(max(0, y - radius), min(HEIGHT, y + radius + 1))
            for u in range(max(0, x - radius), min(WIDTH, x + radius + 1))]


def weighted(picture, x, y, weights):
    """The sum over a square window, each sample times the weight of its column and that of its line."""
    radius = len(weights) // 2
    return sum(weights[dx + radius] * weights[dy + radius] * clamped(picture, x + dx, y + dy)
               for dy in range(-radius, radius + 1) for dx in range(-radius, radius + 1))


# The filters

def toward_zero(value, divisor):
    """The quotient, rounded toward zero."""
    return value // divisor if value >= 0 else -(-value // divisor)


def gaussian3(grey):
    return each(lambda x, y: (weighted(grey, x, y, (1, 2, 1)) + 8) // 16)


def gaussian5(grey):
    return each(lambda x, y: (weighted(grey, x, y, (1, 4, 6, 4, 1)) + 128) // 256)


SOBEL_ACROSS = (-1, 0, 1, -2, 0, 2, -1, 0, 1)
SOBEL_DOWN = (-1, -2, -1, 0, 0, 0, 1, 2, 1)


def gradient(grey, x, y, kernel):
    return sum(weight * sample for weight, sample in zip(kernel, window(grey, x, y, 1)))


def sobel(grey):
    return each(lambda x, y: min(255, abs(gradient(grey, x, y, SOBEL_ACROSS))
                                 + abs(gradient(grey, x, y, SOBEL_DOWN))))


def unsharp(grey):
    blurred = gaussian5(grey)
    return each(lambda x, y: byte(grey[y][x] + toward_zero(3 * (grey[y][x] - blurred[y][x]), 2)))


def erode(grey):
    return each(lambda x, y: min(inside_window(grey, x, y, 1)))


def dilate(grey):
    return each(lambda x, y: max(inside_window(grey, x, y, 1)))


def median(grey):
    return each(lambda x, y: sorted(window(grey, x, y, 1))[4])


def majority(grey):
    return each(lambda x, y: 1 if sum(sample < 100 for sample in inside_window(grey, x, y, 1)) >= 5 else 0)


def contour(mask):
    """A pixel is inside where its four neighbours are in the frame and in the mask."""
    def is_inside(x, y):
        return 0 < x < WIDTH - 1 and 0 < y < HEIGHT - 1 and all(
            (mask[y][x - 1], mask[y][x + 1], mask[y - 1][x], mask[y + 1][x]))

    return each(lambda x, y: 1 if mask[y][x] == 1 and not is_inside(x, y) else 0)


def census(grey):
    def value(x, y):
        samples = window(grey, x, y, 1)
        centre = samples.pop(4)
        return int("".join("1" if sample < centre else "0" for sample in samples), 2)

    return each(value)


def local_threshold(grey):
    def value(x, y):
        samples = window(grey, x, y, 4)
        return 0 if sum(sample - 12 - grey[y][x] for sample in samples) > 0 else 1

    return each(value)


def dog(grey):
    def value(x, y):
        fine = weighted(grey, x, y, (1, 2, 1)) * 256
        wide = weighted(grey, x, y, (1, 6, 15, 20, 15, 6, 1))
        return byte((fine - wide) // 1024 + 128)

    return each(value)


def demosaic(raw, mask):
    def along(x, y, dx, dy):
        """How much the picture changes along a direction, and the green that it gives."""
        before, after = clamped(raw, x - dx, y - dy), clamped(raw, x + dx, y + dy)
        curve = 2 * raw[y][x] - clamped(raw, x - 2 * dx, y - 2 * dy) - clamped(raw, x + 2 * dx, y + 2 * dy)
        green = toward_zero(2 * (before + after) + curve, 4)
        return abs(before - after) + abs(curve), max(0, min(1023, green))

    def value(x, y):
        if mask[y][x] == 1:
            return raw[y][x]
        (change_across, across), (change_down, down) = along(x, y, 1, 0), along(x, y, 0, 1)
        if change_across == change_down:
            return (across + down) // 2
        return across if change_across < change_down else down

    return each(value)


def harris(grey):
    across = each(lambda x, y: gradient(grey, x, y, SOBEL_ACROSS))
    down = each(lambda x, y: gradient(grey, x, y, SOBEL_DOWN))

    def response_at(x, y):
        gradients = list(zip(window(across, x, y, 1), window(down, x, y, 1)))
        xx = sum(gx * gx for gx, _ in gradients)
        xy = sum(gx * gy for gx, gy in gradients)
        yy = sum(gy * gy for _, gy in gradients)
        return xx * yy - xy * xy - (xx + yy) ** 2 // 16

    response = each(response_at)
    strength = each(lambda x, y: max(0, min(65535, response[y][x] // 2**23)))
    corners = each(lambda x, y: 1 if strength[y][x] >= 16000
                   and response[y][x] == max(inside_window(response, x, y, 1)) else 0)
    return strength, corners


def two_cameras(left, right):
    difference = each(lambda x, y: abs(left[y][x] - right[y][x]))
    return difference, each(lambda x, y: 1 if difference[y][x] > 8 else 0)


def stereo(left, right):
    def apart(x, y, disparity):
        seen = right[y][x - disparity] if x >= disparity else 0
        return abs(left[y][x] - seen)

    costs = [each(lambda x, y: apart(x, y, disparity)) for disparity in range(4)]
    return each(lambda x, y: min(range(4), key=lambda disparity: sum(inside_window(costs[disparity], x, y, 2))))


def inputs():
    """The images of each input file, each with its greatest sample."""
    raw, mask = sensor()
    return {
        "scene": [(scene(), 255)],
        "speckled": [(speckled(), 255)],
        "page": [(page(), 255)],
        "shapes": [(shapes(), 255)],
        "blobs": [(blobs(), 1)],
        "exposures": [(picture, 255) for picture in exposures()],
        "cameras": [(picture, 255) for picture in camera_rounds()],
        "sensor": [(raw, 1023), (mask, 1)],
        "dots": [(picture, 255) for picture in stereo_pair()],
    }


def results(given):
    """The images of each output file by the formulas, each with its greatest sample, from such inputs."""
    pictures = {name: [picture for picture, _ in images] for name, images in given.items()}
    grey, print_, spots, mask = (pictures[name][0] for name in ("scene", "page", "speckled", "blobs"))
    for filtered in (gaussian3, gaussian5, sobel, unsharp, dog):
        yield filtered.__name__, [(filtered(grey), 255)]
    for filtered in (erode, dilate):
        yield filtered.__name__, [(filtered(print_), 255)]
    yield "local_threshold", [(local_threshold(print_), 1)]
    yield "median", [(median(spots), 255)]
    yield "majority", [(majority(spots), 1)]
    yield "contour", [(contour(mask), 1)]
    yield "census", [(census(picture), 255) for picture in pictures["exposures"]]
    yield "demosaic", [(demosaic(*pictures["sensor"]), 1023)]
    strength, corners = harris(pictures["shapes"][0])
    yield "harris", [(strength, 65535), (corners, 1)]
    cameras = pictures["cameras"]
    rounds = [two_cameras(*cameras[first:first + 2]) for first in range(0, len(cameras), 2)]
    yield "two_cameras", [part for difference, differs in rounds for part in ((difference, 255), (differs, 1))]
    yield "stereo", [(stereo(*pictures["dots"]), 3)]


def file_of(images):
    """The bytes of a file of images."""
    return b"".join(image(picture, greatest) for picture, greatest in images)


def main():
    folder = sys.argv[1] if len(sys.argv) > 1 else os.path.join(os.path.dirname(os.path.abspath(__file__)), "..", "examples", "programs")
    given = inputs()
    for name, images in [*given.items(), *results(given)]:
        with open(os.path.join(folder, name + ".pgm"), "wb") as file:
            file.write(file_of(images))


if __name__ == "__main__":
    main()
