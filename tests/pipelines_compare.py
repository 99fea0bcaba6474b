"""The references of tests/pipelines.py beside OpenCV and scikit-image, on pictures of 640 by 480 whose truth is known.

`tests/pipelines.py --compare` prints the table; a library that is not installed is passed over, and named.
"""
import numpy as np

import pipelines as ours
import scenes

SIZE = 640, 480
INNER = np.s_[8:-8, 24:-8]  # what no border and no lost column of stereo touches


def library(name):
    try:
        return __import__(name)
    except ImportError:
        print(f"pipelines: {name} is not installed, and was passed over")
        return None


def noise_ratio(picture, truth, greatest):
    """The peak signal to noise ratio in dB, inside."""
    error = np.asarray(picture, float)[INNER] - np.asarray(truth, float)[INNER]
    return 10 * np.log10(greatest**2 / np.mean(error**2))


def demosaic(cv2):
    """Three planes by Malvar, by OpenCV's bilinear and by its edge-aware method, against the planes before the mosaic."""
    raw, odd_x, odd_y = scenes.sensor(*SIZE)
    mosaic = ours.balanced(raw, odd_x, odd_y)
    planes = scenes.seen_planes(*SIZE)
    ways = [("isp: Malvar", ours.malvar(mosaic, odd_x, odd_y))]
    if cv2:
        for name, code in (("OpenCV, bilinear", cv2.COLOR_BayerBG2RGB), ("OpenCV, edge-aware", cv2.COLOR_BayerBG2RGB_EA)):
            ways.append((name, np.moveaxis(cv2.demosaicing(mosaic.astype(np.uint16), code), 2, 0)))
    for name, found in ways:
        yield name, ", ".join(f"{noise_ratio(plane, truth, 1023):.1f}" for plane, truth in zip(found, planes)) + " dB in red, green, blue"


def edges(cv2):
    """The edges by OpenCV from the same gradients, whose hysteresis has no last step."""
    (grey, _), = scenes.inputs(*SIZE)["room"]
    smooth = (ours.window(grey, ours.FIVE, ours.FIVE, "edge") + 128) // 256
    gx, gy = (gradient.astype(np.int16) for gradient in ours.sobel(smooth))
    found = ours.canny(grey)[0]
    yield "canny: eight steps", f"{found.sum()} edge pixels"
    if cv2:
        wanted = cv2.Canny(gx, gy, 40, 100) > 0
        missing, more = (wanted & (found == 0)).sum(), (~wanted & (found == 1)).sum()
        yield "OpenCV, Canny of these gradients", f"{wanted.sum()} edge pixels; canny lacks {missing} and has {more} others"
        steps = next((steps for steps in (16, 32, 64, 128, 256) if (ours.canny(grey, steps)[0] == wanted).all()), None)
        last = ours.canny(grey, 256)[0] == 1
        said = f"the same from at most {steps} on" if steps else f"after 256 steps canny lacks {(wanted & ~last).sum()} and has {(last & ~wanted).sum()} others"
        yield "canny with more steps", said


def corner_responses(cv2):
    """The response by OpenCV in floats, with its scale."""
    (grey, _), = scenes.inputs(*SIZE)["room"]
    strength, peaks = ours.corners(grey)
    yield "corners", f"{peaks.sum()} corners"
    if cv2:
        response = ours.response(grey)
        scale = 1 / (4 * 5 * 255)  # of each gradient, by OpenCV's source
        found = cv2.cornerHarris(grey.astype(np.uint8), 5, 3, 1 / 16) / scale**4
        inside = np.s_[4:-4, 4:-4]
        error = np.abs(found[inside] - response[inside])
        yield "OpenCV, cornerHarris", f"differs by at most {error.max() / np.abs(response).max():.1e} of the greatest response, inside"


def motion(cv2):
    """The error of the motion in pixels where flow is sure."""
    before, after, truth = scenes.moving(*SIZE)
    across, down, sure = ours.flow(before, after)
    depth = scenes.render(*SIZE)[1]
    edge = scenes.near_step(depth)
    where = np.zeros(sure.shape, bool)
    where[INNER] = (sure == 1)[INNER] & ~edge[INNER]
    found = [(plane - 128) / 64 for plane in (across, down)]

    def error(planes):
        return np.hypot(planes[0] - truth[0], planes[1] - truth[1])[where]

    size = np.hypot(*truth)[where]
    wrong = error(found)
    yield "flow: one step", f"sure of {100 * sure.mean():.0f} % of the pixels; error {wrong.mean():.3f}, middle {np.median(wrong):.3f} of motions of {size.mean():.2f} pixels"
    if cv2:
        y, x = np.nonzero(where)
        points = np.stack([x, y], axis=1).astype(np.float32)[:, None, :]
        for name, steps in (("OpenCV, calcOpticalFlowPyrLK, one level, one step", 1), ("the same, up to 30 steps", 30)):
            ends, good, _ = cv2.calcOpticalFlowPyrLK(before.astype(np.uint8), after.astype(np.uint8), points, None, winSize=(5, 5), maxLevel=0,
                                                     criteria=(cv2.TERM_CRITERIA_COUNT | cv2.TERM_CRITERIA_EPS, steps, 0.001), minEigThreshold=0)
            moved = (ends - points)[:, 0, :]
            wrong = np.hypot(moved[:, 0] - truth[0][where], moved[:, 1] - truth[1][where])[good[:, 0] == 1]
            yield name, f"error {wrong.mean():.3f}, middle {np.median(wrong):.3f}, of the same pixels"


def disparities(cv2):
    """How many pixels have a disparity that is more than 1 wrong: of all, and of those that the method is sure of."""
    left, right, truth = scenes.two_eyes(*SIZE)
    disparity, sure = ours.stereo(left, right)
    ways = [("stereo: 9 by 3", disparity, sure == 1)]
    if cv2:
        for size in (5, 9):
            matcher = cv2.StereoBM_create(16, size)
            matcher.setUniquenessRatio(0)
            matcher.setTextureThreshold(0)
            matcher.setDisp12MaxDiff(0)
            found = matcher.compute(left.astype(np.uint8), right.astype(np.uint8)) / 16
            ways.append((f"OpenCV, StereoBM {size} by {size}", found, found >= 0))
    for name, found, good in ways:
        good, wrong = good[INNER], (np.abs(found - truth) > 1)[INNER]
        yield name, f"sure of {100 * good.mean():.0f} %, of these {100 * wrong[good].mean():.1f} % are wrong by more than 1"


def sharpened(restoration):
    """The ratio of the sharp picture to the error, before and after."""
    seen, sharp = scenes.blurred(*SIZE)
    found = ours.deblur(seen)[0]
    yield "deblur: seen", f"{noise_ratio(seen, sharp, 255):.2f} dB"
    yield "deblur: eight steps of Landweber", f"{noise_ratio(found, sharp, 255):.2f} dB"
    guess = seen.astype(float)
    for _ in range(8):
        error = seen - ours.window(guess, ours.FIVE, ours.FIVE, "edge") / 256
        guess = np.clip(guess + ours.window(error, ours.FIVE, ours.FIVE, "edge") / 256, 0, 255)
    yield "the same in floats", f"{noise_ratio(guess, sharp, 255):.2f} dB, differs from deblur by at most {np.abs(guess - found)[INNER].max():.1f}"
    if restoration:
        kernel = np.outer(ours.FIVE, ours.FIVE) / 256
        for steps in (8, 16):
            guess = 255 * restoration.richardson_lucy(seen / 255, kernel, num_iter=steps)
            yield f"scikit-image, richardson_lucy, {steps} steps", f"{noise_ratio(guess, sharp, 255):.2f} dB"


def main():
    cv2, skimage = library("cv2"), library("skimage")
    if skimage:
        import skimage.restoration  # noqa: F401
    print("| Method | What it finds |")
    print("|---|---|")
    for rows in (demosaic(cv2), edges(cv2), corner_responses(cv2), motion(cv2), disparities(cv2), sharpened(skimage and skimage.restoration)):
        for name, said in rows:
            print(f"| {name} | {said} |", flush=True)
