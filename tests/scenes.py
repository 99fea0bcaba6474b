#!/usr/bin/env python3
"""Makes the inputs of the pipelines: photograph-like pictures of a room, traced by rays.

Three spheres lie on a tiled floor before a wall of bricks with a poster. There are shading, shadows, highlights, textures,
edges, lines that get finer, and noise. Two eyes see the room for stereo, and a camera that moves for flow; the depth of
each pixel is known, and so are its disparity and its motion. All sums are made of + - * / and roots, and all noise is a
function of whole numbers, so that each machine makes the same pictures. It needs NumPy.

usage: tests/scenes.py [FOLDER]      writes the input files of 640 by 480, into the present folder by default
"""
import functools
import os
import sys

import numpy as np

SIDE = 0.9  # the focal length, in widths of the picture
MATRIX = np.array([[410, -115, -39], [-64, 384, -64], [-13, -141, 410]]) / 256  # the colour matrix of isp
GAINS = np.array([117, 69, 97]) / 64  # its white balance
BLACK = 64
LETTERS = {
    "D": ("11110", "10001", "10001", "10001", "10001", "10001", "11110"),
    "K": ("10001", "10010", "10100", "11000", "10100", "10010", "10001"),
}


# Noise

def mixed(*numbers):
    """A whole number of 32 bits that looks random, of some arrays of whole numbers."""
    state = np.uint64(0)
    for number in numbers:
        state = (state ^ np.asarray(number).astype(np.int64).astype(np.uint64)) * np.uint64(0x9E3779B97F4A7C15)
        state = state ^ (state >> np.uint64(29))
    return ((state * np.uint64(0xBF58476D1CE4E5B9)) >> np.uint64(32)).astype(np.int64)


def grain(shape, seed):
    """Noise with a spread of 1 about 0: the sum of three even ones."""
    height, width = shape
    y, x = np.mgrid[0:height, 0:width]
    return sum(mixed(x, y, seed * 3 + k) % 65536 - 32767.5 for k in range(3)) / 32768


def value_noise(x, y, z, seed):
    """Smooth noise of space, 0 to 1: a random number at each whole point, and cubic steps between."""
    whole = [np.floor(part).astype(np.int64) for part in (x, y, z)]
    parts = [part - low for part, low in zip((x, y, z), whole)]
    steps = [part * part * (3 - 2 * part) for part in parts]
    total = 0
    for corner in range(8):
        far = [corner >> axis & 1 for axis in range(3)]
        weight = 1
        for bit, step in zip(far, steps):
            weight = weight * (step if bit else 1 - step)
        total = total + weight * (mixed(*[low + bit for low, bit in zip(whole, far)], seed) % 4096) / 4095
    return total


def octaves(point, scale, seed, count=3):
    """Noise of several scales, each twice as fine and three quarters as strong, 0 to 1."""
    total = sum(value_noise(*(part * scale * 2**k for part in point), seed + k) * 0.75**k for k in range(count))
    return total / (4 - 4 * 0.75**count)


# The room: x to the right, y down, z away from the camera

SPHERES = [((-1.25, 0.15, 4.4), 0.85), ((0.62, 0.52, 3.3), 0.48), ((1.75, 0.05, 5.6), 0.95)]
FLOOR, WALL = 1.0, 8.0
LIGHT = (-0.5, -0.75, -0.4330127)


def near_sphere(origin, ray, sphere):
    """How far along a ray a sphere is hit; infinite where it is not."""
    (x, y, z), radius = sphere
    ox, oy, oz = origin[0] - x, origin[1] - y, origin[2] - z
    a = sum(part * part for part in ray)
    b = ox * ray[0] + oy * ray[1] + oz * ray[2]
    c = ox * ox + oy * oy + oz * oz - radius * radius
    inner = b * b - a * c
    distance = (-b - np.sqrt(np.maximum(inner, 0))) / a
    return np.where((inner > 0) & (distance > 1e-4), distance, np.inf)


def mix(low, high, part):
    """A colour between two, channel by channel."""
    return [a + (b - a) * part for a, b in zip(low, high)]


def tiles(point):
    x, _, z = point
    odd = (np.floor(x * 1.5).astype(int) + np.floor(z * 1.5).astype(int)) % 2
    base = [np.where(odd == 1, light, dark) for light, dark in zip((0.62, 0.55, 0.44), (0.20, 0.15, 0.12))]
    return mix([0.5 * c for c in base], [1.4 * c for c in base], octaves(point, 7, 11, 5))


def bricks(point):
    x, y, _ = point
    row = np.floor(y / 0.28)
    along = x / 0.66 + 0.5 * (row % 2)
    mortar = (along - np.floor(along) < 0.05) | (y / 0.28 - row < 0.11)
    tone = mixed(np.floor(along), row, 5) % 256 / 255
    brick = mix((0.14, 0.05, 0.03), (0.74, 0.36, 0.24), 0.25 * tone + 0.75 * octaves(point, 8, 21, 4))
    return [np.where(mortar, 0.42 + 0.2 * octaves(point, 15, 25), part) for part in brick]


def poster(point, colour):
    """A poster on the wall: two letters, and bars that get finer."""
    x, y, _ = point
    u, v = (x + 0.95) / 1.9, (y + 2.3) / 1.5
    on = (u > 0) & (u < 1) & (v > 0) & (v < 1)
    ink = np.zeros(x.shape, bool)
    for k, letter in enumerate("DK"):
        shape = np.array([[c == "1" for c in line] for line in LETTERS[letter]])
        column, line = np.floor((u - 0.08 - 0.44 * k) / 0.075).astype(int), np.floor((v - 0.1) / 0.075).astype(int)
        inside = (column >= 0) & (column < 5) & (line >= 0) & (line < 7)
        ink |= inside & shape[np.clip(line, 0, 6), np.clip(column, 0, 4)]
    bars = (v > 0.72) & (v < 0.92) & (u > 0.08) & (u < 0.92) & (np.floor(24 / (1.25 - u)).astype(int) % 2 == 0)
    paper = [np.where(ink, dark, light) for dark, light in zip((0.05, 0.12, 0.45), (0.80, 0.78, 0.66))]
    paper = [np.where(bars, 0.06, part) * (0.8 + 0.3 * octaves(point, 12, 61)) for part in paper]
    return [np.where(on, part, old) for part, old in zip(paper, colour)]


def sphere_colour(number, point):
    if number == 0:
        vein = octaves(point, 2.5, 31, 4) * 5 + point[1] * 2
        return mix((0.10, 0.42, 0.22), (0.62, 0.80, 0.50), np.abs(vein - np.floor(vein) - 0.5) * 2)
    if number == 1:
        return mix((0.60, 0.08, 0.05), (0.98, 0.54, 0.14), octaves(point, 6, 41, 5))
    ring = np.floor(point[1] * 7 + octaves(point, 3, 51)).astype(int) % 2
    grey = 0.75 + 0.4 * octaves(point, 8, 55, 4)
    return [np.where(ring == 1, a, b) * grey for a, b in zip((0.12, 0.22, 0.62), (0.76, 0.76, 0.80))]


def hits(eye, ray):
    """The nearest surface of each ray: 0 is the floor, 1 the wall, then the spheres; and how far it is."""
    with np.errstate(divide="ignore"):
        distances = [np.where(ray[1] > 1e-6, (FLOOR - eye[1]) / ray[1], np.inf), np.full(ray[1].shape, WALL - eye[2])]
    distances += [near_sphere(eye, ray, sphere) for sphere in SPHERES]
    nearest = np.argmin(np.stack(distances), axis=0)
    return nearest, np.min(np.stack(distances), axis=0)


@functools.lru_cache(None)
def render(width, height, eye=(0.0, 0.0, 0.0), fine=2):
    """The light of each pixel in three channels, 0 to about 1, and the depth of its centre."""
    shape = (height * fine, width * fine)
    y, x = np.mgrid[0:shape[0], 0:shape[1]]
    scale = SIDE * width * fine
    ray = [(x + 0.5 - shape[1] / 2) / scale, (y + 0.5 - shape[0] / 2) / scale, np.ones(shape)]
    nearest, distance = hits(eye, ray)
    point = [origin + part * distance for origin, part in zip(eye, ray)]
    colour = [np.zeros(shape) for _ in range(3)]
    normal = [np.zeros(shape), np.where(nearest == 0, -1.0, 0.0), np.where(nearest == 1, -1.0, 0.0)]
    shine = np.zeros(shape)

    def paint(where, parts):
        for channel, part in zip(colour, parts):
            channel[where] = part
    for surface in range(2 + len(SPHERES)):
        where = nearest == surface
        place = [part[where] for part in point]
        if surface == 0:
            paint(where, tiles(place))
        elif surface == 1:
            paint(where, poster(place, bricks(place)))
        else:
            centre, radius = SPHERES[surface - 2]
            paint(where, sphere_colour(surface - 2, place))
            for axis in range(3):
                normal[axis][where] = (place[axis] - centre[axis]) / radius
            shine[where] = 0.5
    facing = sum(n * part for n, part in zip(normal, LIGHT))
    above = [p + 1e-3 * n for p, n in zip(point, normal)]
    dark = np.zeros(shape, bool)
    for sphere in SPHERES:
        dark |= np.isfinite(near_sphere(above, [np.full(shape, part) for part in LIGHT], sphere))
    lit = np.where(dark, 0, np.maximum(facing, 0))
    length = np.sqrt(sum(part * part for part in ray))
    half = [light - part / length for light, part in zip(LIGHT, ray)]
    glance = np.maximum(sum(n * h for n, h in zip(normal, half)), 0) / np.sqrt(sum(h * h for h in half))
    for _ in range(5):
        glance = glance * glance
    fade = 1.15 - 0.05 * distance
    light = [(c * (0.22 + 1.0 * lit) * fade + shine * glance * (lit > 0)) for c in colour]
    picture = np.stack([part.reshape(height, fine, width, fine).mean(axis=(1, 3)) for part in light], axis=2)
    rows, columns = np.mgrid[0:height, 0:width]
    ray = [(columns + 0.5 - width / 2) / (SIDE * width), (rows + 0.5 - height / 2) / (SIDE * width), np.ones((height, width))]
    return picture, hits(eye, ray)[1] * 1.0


# Cameras

def stored(picture, greatest):
    return np.clip(np.floor(picture + 0.5), 0, greatest).astype(np.int64)


def display(light):
    """The brightness of a screen: a root, times 255."""
    return 255 * np.sqrt(np.clip(light, 0, 1))


def grey(light, noise, seed):
    """A grey picture of 8 bits, with noise of this spread."""
    brightness = display(0.25 * light[:, :, 0] + 0.5 * light[:, :, 1] + 0.25 * light[:, :, 2])
    return stored(brightness + noise * grain(brightness.shape, seed), 255)


def masks(width, height):
    """The odd columns and the odd lines."""
    y, x = np.mgrid[0:height, 0:width]
    return x % 2, y % 2


def mosaic(planes):
    """The samples that a sensor with the filters R G / G B sees of three planes."""
    height, width, _ = planes.shape
    odd_x, odd_y = masks(width, height)
    return np.where(odd_x != odd_y, planes[:, :, 1], np.where(odd_x == 1, planes[:, :, 2], planes[:, :, 0]))


def filtered(width, height):
    """What the three filters see, 0 to about 1. A thin plate before the sensor softens the light."""
    light = soft(render(width, height)[0], (1, 2, 1))
    return np.clip(np.clip(light, 0, 1.2) @ np.linalg.inv(MATRIX).T, 0, None)


def seen_planes(width, height):
    """The planes of 10 bits that a sensor with all filters at each pixel would see, after the white balance."""
    return np.moveaxis(np.clip(filtered(width, height) * 1023 * 0.98, 0, 1023), 2, 0)


def sensor(width, height):
    """Raw samples of 10 bits with noise and dead pixels, and the two masks."""
    level = mosaic(filtered(width, height) / GAINS) * 1023 * 0.98
    level = level + (1.5 + 0.12 * np.sqrt(np.maximum(level, 0))) * grain(level.shape, 1)
    raw = stored(BLACK + level, 1023)
    odd_x, odd_y = masks(width, height)
    fate = mixed(odd_x.cumsum(axis=1), np.arange(height)[:, None] + 0 * odd_y, np.arange(width)[None, :] + 0 * odd_x, 7) % 4000
    raw = np.where(fate == 0, 1023, np.where(fate == 1, BLACK, raw))
    return raw, odd_x, odd_y


def soft(picture, weights):
    """A picture under a kernel, the product of these weights down and across, with clamped edges."""
    height, width, reach = picture.shape[0], picture.shape[1], len(weights) // 2
    wide = np.pad(picture, ((reach, reach), (reach, reach)) + ((0, 0),) * (picture.ndim - 2), mode="edge")
    down = sum(weight * wide[k:k + height] for k, weight in enumerate(weights)) / sum(weights)
    return sum(weight * down[:, k:k + width] for k, weight in enumerate(weights)) / sum(weights)


def blurred(width, height):
    """A picture out of focus, 5 by 5, with a little noise; and the sharp one."""
    sharp = grey(render(width, height)[0], 0, 2).astype(float)
    return stored(soft(sharp, (1, 4, 6, 4, 1)) + 0.7 * grain(sharp.shape, 3), 255), sharp


def moving(width, height, move=None):
    """Two pictures of a camera that moves, and the motion of each pixel across and down."""
    move = move or (0.007, 0.0025, 0.0)
    before, depth = render(width, height)
    after, _ = render(width, height, move)
    y, x = np.mgrid[0:height, 0:width]
    scale = SIDE * width
    across, down = (x + 0.5 - width / 2) / scale, (y + 0.5 - height / 2) / scale
    left = depth - move[2]
    motion = (scale * ((across * depth - move[0]) / left - across), scale * ((down * depth - move[1]) / left - down))
    return grey(before, 1.0, 4), grey(after, 1.0, 5), motion


def near_step(depth):
    """The pixels near a step of the depth, where a window sees two motions."""
    step = np.zeros(depth.shape, bool)
    for dy in range(-4, 5):
        for dx in range(-4, 5):
            step |= np.abs(np.roll(depth, (dy, dx), (0, 1)) - depth) > 0.1 * depth
    return step


def two_eyes(width, height, most=14.5):
    """A left and a right picture, and the disparity of each pixel of the left one, at most `most` pixels."""
    light, depth = render(width, height)
    apart = most * depth.min() / (SIDE * width)
    right, _ = render(width, height, (apart, 0.0, 0.0))
    return grey(light, 1.0, 6), grey(right, 1.0, 7), SIDE * width * apart / depth


def image(picture, greatest):
    """One binary PGM image."""
    header = "P5\n%d %d\n%d\n" % (picture.shape[1], picture.shape[0], greatest)
    return header.encode() + picture.astype(">u2" if greatest > 255 else "u1").tobytes()


def inputs(width, height):
    """The images of each input file, each with its greatest sample."""
    raw, odd_x, odd_y = sensor(width, height)
    room = grey(render(width, height)[0], 1.5, 8)
    before, after, _ = moving(width, height)
    left, right, _ = two_eyes(width, height, 14.5 if width > 200 else 7.5)
    return {
        "raw": [(raw, 1023), (odd_x, 1), (odd_y, 1)],
        "room": [(room, 255)],
        "soft": [(blurred(width, height)[0], 255)],
        "moving": [(before, 255), (after, 255)],
        "eyes": [(left, 255), (right, 255)],
    }


def main(folder):
    for name, images in inputs(640, 480).items():
        with open(os.path.join(folder, name + ".pgm"), "wb") as file:
            file.write(b"".join(image(*each) for each in images))


if __name__ == "__main__":
    main(sys.argv[1] if len(sys.argv) > 1 else ".")
