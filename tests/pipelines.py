#!/usr/bin/env python3
"""The pipelines of examples/pipelines a second time, in NumPy, and what follows from them.

Each reference is written from the method's formula over whole pictures, and reads no program. It must have the bits of the
program's outputs.

usage: tests/pipelines.py PROGRAM       compares eval, run, and eval of the program after cut 1, in frames of 640 by 480
       tests/pipelines.py --write       writes the small input and output files of examples/pipelines
       tests/pipelines.py --compare     compares the references with OpenCV and scikit-image, and prints a table
       tests/pipelines.py --pictures PROGRAM [FOLDER]   writes pictures of 320 by 240, and of stages, into docs/gallery by default
The last line of the first is `N passed, M failed`. Without NumPy nothing is compared, and it says so.
"""
import os
import re
import subprocess
import sys
import tempfile

TOP = os.path.join(os.path.dirname(os.path.abspath(__file__)), "..")
FOLDER = os.path.join(TOP, "examples", "pipelines")
sys.dont_write_bytecode = True
sys.path += [os.path.join(TOP, "tests"), os.path.join(TOP, "tools")]
import png  # noqa: E402
try:
    import numpy as np
    import scenes
except ImportError:
    print("pipelines: NumPy is not installed, and the pipelines were passed over")
    print("0 passed, 0 failed")
    sys.exit(0)


# Reading a picture

def shifted(picture, dx, dy, mode="constant"):
    """The picture of what each pixel reads at an offset; outside the frame by a mode of numpy.pad."""
    height, width = picture.shape
    reach = max(abs(dx), abs(dy))
    wide = np.pad(picture, reach, mode=mode)
    return wide[reach + dy:reach + dy + height, reach + dx:reach + dx + width]


def mirrored(picture, dx, dy):
    """The same, but what is outside is read as far away on the other side of the pixel."""
    def places(size, step):
        place = np.arange(size)
        return np.where((place + step >= 0) & (place + step < size), place + step, place - step)

    return picture[np.ix_(places(picture.shape[0], dy), places(picture.shape[1], dx))]


def window(picture, down, across, mode):
    """The weighted sum of a window, each pixel times the weight of its line and that of its column."""
    return sum(b * a * shifted(picture, k - len(across) // 2, j - len(down) // 2, mode)
               for j, b in enumerate(down) for k, a in enumerate(across) if a and b)


def box(picture, height, width):
    return window(picture, (1,) * height, (1,) * width, "constant")


FIVE = (1, 4, 6, 4, 1)


def sobel(grey):
    return window(grey, (1, 2, 1), (-1, 0, 1), "edge"), window(grey, (-1, 0, 1), (1, 2, 1), "edge")


def clip(picture, bits):
    return np.clip(picture, 0, 2**bits - 1)


# The pipelines

def malvar(mosaic, odd_x, odd_y):
    """The demosaic of Malvar, He and Cutler by its four kernels of 5 by 5, in 16ths; red, green and blue."""
    green = [[0, 0, -2, 0, 0], [0, 0, 4, 0, 0], [-2, 4, 8, 4, -2], [0, 0, 4, 0, 0], [0, 0, -2, 0, 0]]
    across = [[0, 0, 1, 0, 0], [0, -2, 0, -2, 0], [-2, 8, 10, 8, -2], [0, -2, 0, -2, 0], [0, 0, 1, 0, 0]]
    opposite = [[0, 0, -3, 0, 0], [0, 4, 0, 4, 0], [-3, 0, 12, 0, -3], [0, 4, 0, 4, 0], [0, 0, -3, 0, 0]]

    def under(kernel):
        total = sum(weight * mirrored(mosaic, k - 2, j - 2)
                    for j, line in enumerate(kernel) for k, weight in enumerate(line))
        return clip((total + 8) // 16, 10)

    at_red, at_blue = (odd_x + odd_y) == 0, (odd_x + odd_y) == 2
    red_line = (odd_y == 0) & (odd_x == 1)
    blue_line = (odd_y == 1) & (odd_x == 0)
    beside, above, far = under(across), under(np.array(across).T.tolist()), under(opposite)
    red = np.select([at_red, red_line, blue_line], [mosaic, beside, above], far)
    blue = np.select([at_blue, blue_line, red_line], [mosaic, beside, above], far)
    return red, np.where(at_red | at_blue, under(green), mosaic), blue


SEGMENTS = [(0, 160, 0), (15, 46, 27), (64, 24, 49), (204, 13, 84), (448, 9, 112)]


def tone(plane):
    """The tone curve by its table: the line of the segment that a value is in."""
    lines = [[(slope * v >> 6) + offset for _, slope, offset in SEGMENTS] for v in range(1024)]
    return np.array([min(values) for values in lines])[plane]


def balanced(raw, odd_x, odd_y):
    """Black level, dead pixels and white balance."""
    light = np.maximum(raw - 64, 0)
    nearest = np.stack([mirrored(light, dx, dy) for dx, dy in ((-2, 0), (2, 0), (0, -2), (0, 2))])
    clean = np.clip(light, np.maximum(nearest.min(axis=0) - 32, 0), nearest.max(axis=0) + 32)
    gain = np.choose(odd_x + odd_y, [117, 69, 97])
    return clip((clean * gain + 32) // 64, 10)


def isp(raw, odd_x, odd_y):
    planes = malvar(balanced(raw, odd_x, odd_y), odd_x, odd_y)
    matrix = ((410, -115, -39), (-64, 384, -64), (-13, -141, 410))
    toned = [tone(clip((sum(weight * plane for weight, plane in zip(line, planes)) + 128) // 256, 10)) for line in matrix]
    luma = (toned[0] + 2 * toned[1] + toned[2]) // 4
    detail = luma - (window(luma, (1, 2, 1), (1, 2, 1), "edge") + 8) // 16
    return [clip(plane + detail, 8) for plane in toned]


def ridges(gx, gy):
    """The strength of each pixel's gradient, and whether it is a ridge in the gradient's direction."""
    strength = np.abs(gx) + np.abs(gy)
    flat = 128 * np.abs(gy) < 53 * np.abs(gx)
    steep = 128 * np.abs(gy) > (53 + 256) * np.abs(gx)
    falling = (gx < 0) == (gy < 0)
    ridge = np.zeros(gx.shape, bool)
    for where, (dx, dy) in ((flat, (1, 0)), (steep & ~flat, (0, 1)), (falling & ~flat & ~steep, (1, 1)), (~(falling | flat | steep), (-1, 1))):
        after = shifted(strength, dx, dy)
        later = strength >= after if 0 in (dx, dy) else strength > after
        ridge |= where & (strength > shifted(strength, -dx, -dy)) & later
    return strength, ridge


def canny(grey, steps=8):
    smooth = (window(grey, FIVE, FIVE, "edge") + 128) // 256
    strength, ridge = ridges(*sobel(smooth))
    weak, edge = ridge & (strength > 40), ridge & (strength > 100)
    for _ in range(steps):
        edge = weak & (box(edge.astype(int), 3, 3) > 0)
    return [edge.astype(int)]


def deblur(seen, steps=8):
    height, width = seen.shape
    known = np.zeros(seen.shape, int)
    known[2:height - 2, 2:width - 2] = 1
    sharp = 4 * seen
    for _ in range(steps):
        error = (4 * seen - (window(sharp, FIVE, FIVE, "constant") + 128) // 256) * known
        sharp = np.clip(sharp + (window(error, FIVE, FIVE, "constant") + 128) // 256, 0, 1020)
    return [sharp // 4]


def flow(before, after):
    both, change = before + after, after - before
    ix, iy = ((gradient + 2) // 4 for gradient in sobel(both))
    it = (window(change, (1, 2, 1), (1, 2, 1), "edge") + 2) // 4
    xx, xy, yy, xt, yt = (box(a * b, 5, 5) for a, b in ((ix, ix), (ix, iy), (iy, iy), (ix, it), (iy, it)))
    det = xx * yy - xy * xy
    sure = det > SURE * (xx + yy)

    def quotient(part):
        size = np.minimum(127, 64 * np.abs(part) // np.maximum(det, 1))
        return np.where(sure, 128 + np.sign(part) * size, 128)

    return [quotient(xy * yt - yy * xt), quotient(xy * xt - xx * yt), sure.astype(int)]


SURE = 256  # above the noise


def block(apart):
    """The sum over 9 by 3 pixels: three squares of 3 by 3, each of which counts if its middle is in the frame."""
    square = box(apart, 3, 3)
    return shifted(square, -3, 0) + square + shifted(square, 3, 0)


def stereo(left, right, count=16):
    costs = np.stack([block(np.abs(left - shifted(right, -d, 0))) for d in range(count)])
    none = np.iinfo(costs.dtype).max
    wide = np.pad(costs, ((0, 0), (0, 0), (0, count)), constant_values=none)
    seen = np.stack([wide[d, :, d:d + left.shape[1]] for d in range(count)])
    disparity, other = np.argmin(costs, axis=0), np.argmin(seen, axis=0)
    x = np.arange(left.shape[1])[None, :] - disparity
    matched = np.where(x >= 0, np.take_along_axis(other, np.maximum(x, 0), axis=1), 0)
    return [disparity, (matched == disparity).astype(int)]


def response(grey, size=5):
    gx, gy = sobel(grey)
    xx, xy, yy = box(gx * gx, size, size), box(gx * gy, size, size), box(gy * gy, size, size)
    return xx * yy - xy * xy - (xx + yy) ** 2 // 16


def corners(grey):
    strength = np.clip(response(grey) >> 25, 0, 65535)
    peak = strength >= 2000
    for dy in range(-2, 3):
        for dx in range(-2, 3):
            other = shifted(strength, dx, dy)
            peak &= strength > other if (dy, dx) < (0, 0) else strength >= other
    return [strength, peak.astype(int)]


# Each pipeline with its input file and the greatest samples of its outputs
PIPELINES = [(isp, "raw", (255, 255, 255)), (canny, "room", (1,)), (deblur, "soft", (255,)), (flow, "moving", (255, 255, 1)),
             (stereo, "eyes", (15, 1)), (corners, "room", (65535, 1))]


def file_of(images):
    return b"".join(scenes.image(*each) for each in images)


def results(given):
    """The output file of each pipeline."""
    for pipeline, name, greatest in PIPELINES:
        pictures = pipeline(*(picture for picture, _ in given[name]))
        yield pipeline.__name__, name, file_of(zip(pictures, greatest))


def put(folder, name, content):
    with open(os.path.join(folder, name), "wb") as file:
        file.write(content)


def write():
    given = scenes.inputs(64, 48)
    for name, images in given.items():
        put(FOLDER, name + ".pgm", file_of(images))
    for name, _, content in results(given):
        put(FOLDER, name + ".pgm", content)
    put(FOLDER, "sensor.pgm", file_of(zip(scenes.sensor(320, 240), (1023, 1, 1))))


def compare_program(program, size=(640, 480)):
    given = scenes.inputs(*size)
    passed = failed = 0
    with tempfile.TemporaryDirectory() as work:
        for name, images in given.items():
            put(work, name + ".pgm", file_of(images))
        for name, source, wanted in results(given):
            put(work, name + ".dk", sized(name, size))
            subprocess.run([program, "cut", "1", name + ".dk", "cut.dk"], cwd=work, check=True, capture_output=True)
            for command, tried in (("eval", name + ".dk"), ("run", name + ".dk"), ("eval", "cut.dk")):
                done = subprocess.run([program, command, tried, source + ".pgm", "out.pgm"], cwd=work, check=False, capture_output=True, text=True)
                if done.returncode == 0 and open(os.path.join(work, "out.pgm"), "rb").read() == wanted:
                    passed += 1
                else:
                    failed += 1
                    print(f"pipelines: {command} of {name} ({tried}) is not its reference {done.stderr.strip()}")
    print(f"{passed} passed, {failed} failed")
    return failed != 0


def show(folder, name, planes, columns, colour=False):
    """A PNG of some images of 8 bits."""
    lines = [plane.tolist() for plane in planes]
    pictures = png.coloured(lines) if colour else lines
    put(folder, f"pipeline-{name}.png", png.png(png.sheet(pictures, columns), 3 if colour else 1))


def stretched(planes, greatest):
    return [plane * 255 // most for plane, most in zip(planes, greatest)]


def pictures(program, folder):
    """What `run` writes of each pipeline, beside its input; each is compared with its reference."""
    given = scenes.inputs(320, 240)
    with tempfile.TemporaryDirectory() as work:
        for (pipeline, source, greatest), (name, _, wanted) in zip(PIPELINES, results(given)):
            if ran(program, work, name, source, given, (320, 240)) != wanted:
                sys.exit(f"pipelines: run of {name} is not its reference")
            seen = stretched(*zip(*given[source]))
            made = stretched(pipeline(*(picture for picture, _ in given[source])), greatest)
            if name == "isp":
                show(folder, "isp-raw", seen[:1], 1)
                show(folder, "isp", made, 1, True)
            else:
                show(folder, name, seen[:1] + made, len(made) + 1)
    import pipelines_stages
    pipelines_stages.write(program, folder, file_of, sized, {pipeline.__name__: source for pipeline, source, _ in PIPELINES})


def ran(program, work, name, source, given, size):
    """The output file of a pipeline in frames of this size."""
    put(work, source + ".pgm", file_of(given[source]))
    put(work, name + ".dk", sized(name, size))
    subprocess.run([program, "run", name + ".dk", source + ".pgm", name + ".pgm"], cwd=work, check=True)
    with open(os.path.join(work, name + ".pgm"), "rb") as file:
        return file.read()


def sized(name, size):
    """The text of a pipeline for frames of this size."""
    with open(os.path.join(FOLDER, name + ".dk"), encoding="ascii") as file:
        return re.sub(r"(?m)^size .*$", "size %d %d" % size, file.read()).encode()


def main(words):
    if words == ["--write"]:
        return write()
    if words == ["--compare"]:
        import pipelines_compare
        return pipelines_compare.main()
    if words[:1] == ["--pictures"] and len(words) in (2, 3):
        return pictures(os.path.abspath(words[1]), words[2] if words[2:] else os.path.join(TOP, "docs", "gallery"))
    if len(words) != 1 or words[0].startswith("-"):
        sys.exit(__doc__)
    return compare_program(os.path.abspath(words[0]))


if __name__ == "__main__":
    sys.exit(main(sys.argv[1:]))
