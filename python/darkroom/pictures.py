"""Pictures: arrays of samples, files of PGM as docs/PGM.md defines them, files of other formats, and phases.

A picture is an array of shape (height, width) of an unsigned type; several rounds of it are (rounds, height, width).
A sample is a whole number. It is not scaled.
"""
from __future__ import annotations

import io
import os
import re
from dataclasses import dataclass
from typing import Any, Iterable, Mapping, NoReturn, Sequence, Union

import numpy as np
from numpy.typing import NDArray
from PIL import Image as Pillow
from PIL import ImageOps, UnidentifiedImageError

from .files import AnyPath, save

Array = NDArray[np.unsignedinteger[Any]]
Pictures = Union[Array, Mapping[str, Array]]

MOST_IMAGES = 65_536
MOST_HEADER = 65_536
_MOST_NUMBER = 4_294_967_295

# A header, part by part. A gap begins with white space. A comment that does not end is a gap up to the end of the text.
_GAP = re.compile(rb"[ \t\r\n](?:[ \t\r\n]|#[^\r\n]*[\r\n])*(?:#[^\r\n]*\Z)?")
_DIGITS = re.compile(rb"[0-9]+")
_PARTS = (_GAP, _DIGITS, _GAP, _DIGITS, _GAP, _DIGITS, re.compile(rb"[ \t\r\n]"))

_REASONS = {
    "Magic": "there is no `P5` at byte {0}",
    "LongHeader": "the first {0} bytes of an image contain no complete header",
    "Number": "byte {0} cannot continue a header, or the file ends there",
    "Range": "maxval at byte {0} is not 1 to 65535",
    "Size": "the size is {0} by {1}",
    "Maxval": "maxval is {0}, above the greatest number of its input",
    "SampleTooGreat": "sample {0} of the file is above maxval",
    "Short": "the raster has {0} bytes of {1}",
    "Count": "a byte follows image {0}",
    "Round": "the last round has {0} images of {1}",
}
_MAGIC = {
    b"\x89PNG\r\n\x1a\n": "PNG", b"\xff\xd8\xff": "JPEG", b"II*\0": "TIFF", b"MM\0*": "TIFF", b"GIF8": "GIF", b"BM": "BMP",
    b"%PDF": "PDF", b"P1": "plain PBM", b"P2": "plain PGM", b"P3": "plain PPM", b"P4": "PBM", b"P6": "PPM", b"P7": "PAM",
}
_SUFFIXES = {".png": "PNG", ".jpg": "JPEG", ".jpeg": "JPEG", ".tif": "TIFF", ".tiff": "TIFF", ".pgm": "PGM"}


class PgmError(ValueError):
    """A file that is refused by docs/PGM.md. `line` is the line of the page, such as `image: Magic 14`."""

    def __init__(self, kind: str, numbers: Sequence[int], note: str = "") -> None:
        super().__init__(kind, numbers, note)
        self.line = " ".join(["image:", kind, *map(str, numbers)])
        self.kind = kind
        self.numbers = tuple(numbers)
        self.note = note

    def __str__(self) -> str:
        return f"{self.line}: {_REASONS[self.kind].format(*self.numbers)}{self.note}"


class PictureError(ValueError):
    """A file of pictures that cannot be read or written. The text is one line that names the file."""


@dataclass(frozen=True)
class Image:
    """An image of a PGM file: the greatest sample that its header allows, and the samples, of shape (height, width)."""

    maxval: int
    samples: Array


# PGM

def decode(content: bytes, size: tuple[int, int] | None = None, bits: Sequence[int] | None = None) -> list[Image]:
    """The images of a PGM file.

    `size` is the (height, width) that all images must have. Without it the first image has any size but 0. `bits` has the
    bits of each input of a round; without it a round is one image of 16 bits. Raises `PgmError` with the first refusal in
    the order of docs/PGM.md.
    """
    images: list[Image] = []
    at = samples = 0
    inputs = list(bits) if bits is not None else [16]
    while not images or at < len(content):
        if len(images) == MOST_IMAGES:
            raise PgmError("Count", [MOST_IMAGES])
        height, width, maxval, at = _header(content, at)
        if (height, width) != (size or (height, width)) or 0 in (height, width):
            raise PgmError("Size", [width, height])
        if maxval >= 1 << inputs[len(images) % len(inputs)]:
            raise PgmError("Maxval", [maxval])
        size = height, width
        images.append(Image(maxval, _raster(content, at, size, maxval, samples)))
        at += height * width * (1 if maxval < 256 else 2)
        samples += height * width
    if len(images) % len(inputs):
        raise PgmError("Round", [len(images) % len(inputs), len(inputs)])
    return images


def _header(content: bytes, start: int) -> tuple[int, int, int, int]:
    """Height, width and maxval of the header at byte `start`, and where its raster begins."""
    if content[start:start + 2] != b"P5":
        found = format_of(content[:16]) if start == 0 else None
        raise PgmError("Magic", [start], f": this is a {found}" if found else "")
    window = content[start:start + MOST_HEADER]
    at = 2
    digits: list[tuple[int, bytes]] = []
    for part in _PARTS:
        match = part.match(window, at)
        if match is None:
            if at == MOST_HEADER:
                raise PgmError("LongHeader", [MOST_HEADER])
            raise PgmError("Number", [start + at])
        if part is _DIGITS:
            digits.append((at, match[0]))
        at = match.end()
    width, height, maxval = (_value(text) for _, text in digits)
    if not 1 <= maxval <= 65535:
        raise PgmError("Range", [start + digits[2][0]])
    return height, width, maxval, start + at


def _value(digits: bytes) -> int:
    """The number of a header, of any length. A greater one is read as 4294967295."""
    short = digits.lstrip(b"0")
    return min(int(short or b"0"), _MOST_NUMBER) if len(short) <= 10 else _MOST_NUMBER


def _raster(content: bytes, at: int, size: tuple[int, int], maxval: int, before: int) -> Array:
    """The samples of the raster at byte `at`, with `before` samples of the file before it."""
    kind: np.dtype[np.unsignedinteger[Any]] = np.dtype("u1" if maxval < 256 else ">u2")
    need = size[0] * size[1] * kind.itemsize
    have = min(len(content) - at, need)
    samples = np.frombuffer(content, kind, have // kind.itemsize, at)
    if maxval not in (255, 65535) and samples.size and int(samples.max()) > maxval:
        raise PgmError("SampleTooGreat", [before + int(np.argmax(samples > maxval))])
    if have < need:
        raise PgmError("Short", [have, need])
    return samples.astype(np.uint8 if maxval < 256 else np.uint16).reshape(size)


def encode(images: Iterable[Image]) -> bytes:
    """The PGM file of images, in the form of docs/PGM.md, "The output file". Raises ValueError for a wrong image."""
    parts: list[bytes] = []
    for image in images:
        check_array("image", image.samples)
        if image.samples.ndim != 2 or not 1 <= image.maxval <= 65535:
            raise ValueError("an image has the shape (height, width) and a maxval of 1 to 65535, "
                             f"not {image.samples.shape} and {image.maxval}")
        check_range("image", image.samples, image.maxval)
        height, width = image.samples.shape
        parts.append(b"P5\n%d %d\n%d\n" % (width, height, image.maxval))
        parts.append(image.samples.astype(np.uint8 if image.maxval < 256 else ">u2").tobytes())
    return b"".join(parts)


# Rounds

def check_array(name: str, array: object) -> None:
    """Raises TypeError if it is not an array of an unsigned type."""
    if not isinstance(array, np.ndarray):
        raise TypeError(f"{name}: a picture is a NumPy array, not {type(array).__name__}")
    if array.dtype.kind != "u":
        raise TypeError(f"{name}: a picture has an unsigned type, not {array.dtype}; "
                        "convert it with .astype(np.uint8) or .astype(np.uint16)")


def check_range(name: str, array: Array, most: int) -> None:
    """Raises ValueError with the place of the first sample above `most`."""
    if array.size and int(array.max()) > most:
        place = tuple(map(int, np.unravel_index(int(np.argmax(array > most)), array.shape)))
        raise ValueError(f"{name}: the sample {int(array[place])} at {place} is above {most}")


def gather(inputs: Sequence[tuple[str, int]], size: tuple[int, int], pictures: Pictures) -> tuple[list[Array], bool]:
    """The pictures of each input, of shape (rounds, height, width), and whether they were given without rounds.

    `inputs` has the name and the bits of each input, `size` is (height, width). `pictures` is an array if there is one
    input, or a mapping from names to arrays. Raises TypeError for a wrong type, ValueError for wrong names, shapes or
    samples.
    """
    by_name = _by_name([name for name, _ in inputs], pictures)
    arrays = []
    for name, bits in inputs:
        array = by_name[name]
        check_array(name, array)
        if array.ndim not in (2, 3) or array.shape[-2:] != size or not array.size:
            raise ValueError(f"{name}: the shape must be {size} or (rounds, {size[0]}, {size[1]}), not {array.shape}")
        check_range(name, array, (1 << bits) - 1)
        arrays.append(array)
    if len({array.shape for array in arrays}) > 1:
        shapes = ", ".join(f"{name} {array.shape}" for (name, _), array in zip(inputs, arrays))
        raise ValueError(f"the inputs have different rounds: {shapes}")
    return [array.reshape((-1, *size)) for array in arrays], arrays[0].ndim == 2


def _by_name(names: Sequence[str], pictures: Pictures) -> Mapping[str, Array]:
    if not isinstance(pictures, Mapping):
        if len(names) != 1:
            raise ValueError(f"there are {len(names)} inputs: give the pictures by the names {', '.join(names)}")
        return {names[0]: pictures}
    for name in pictures:
        if name not in names:
            raise ValueError(f"there is no input {name!r}: the inputs are {', '.join(names)}")
    for name in names:
        if name not in pictures:
            raise ValueError(f"the picture of the input {name!r} is missing")
    return pictures


def encode_rounds(arrays: Sequence[Array], bits: Sequence[int]) -> bytes:
    """The PGM file of rounds: `arrays` has the pictures of each input, of shape (rounds, height, width)."""
    return encode(Image((1 << width) - 1, array[at])
                  for at in range(len(arrays[0])) for array, width in zip(arrays, bits))


def decode_rounds(content: bytes, size: tuple[int, int], count: int) -> list[Array]:
    """The pictures of each of `count` outputs, of shape (rounds, height, width), from a PGM file."""
    images = decode(content, size, [16] * count)
    return [np.stack([image.samples for image in images[at::count]]) for at in range(count)]


# Files

def format_of(content: bytes) -> str | None:
    """The name of the format of a file that begins with these bytes, if it is known."""
    if content.startswith(b"RIFF") and content[8:12] == b"WEBP":
        return "WebP"
    if content.startswith(b"P5"):
        return "PGM"
    return next((name for magic, name in _MAGIC.items() if content.startswith(magic)), None)


def read(path: AnyPath) -> Array:
    """The grey picture of a PNG, JPEG, TIFF or PGM file, of shape (height, width) and of type uint8 or uint16.

    The format is that of the content. Samples stay as they are, those of 1 bit as 0 and 1. Only those of a PNG of 2 or 4
    bits are scaled to 8 bits, by Pillow. A photo is turned as the camera was held. The shape is (images, height, width)
    for a PGM file of several images. Raises OSError if the file cannot be read, and `PictureError` for other formats,
    colour and transparency.
    """
    content = _content(path)
    if content.startswith(b"P5"):
        try:
            images = decode(content)
        except PgmError as error:
            raise PictureError(f"{_shown(path)}: {error}") from None
        return images[0].samples if len(images) == 1 else np.stack([image.samples for image in images])
    return _grey(path, _open(path, content))


def read_colour(path: AnyPath) -> tuple[Array, Array, Array]:
    """Red, green and blue of a PNG, JPEG or TIFF file of 8 bits, each of shape (height, width) and of type uint8."""
    picture = _open(path, _content(path))
    if picture.mode not in ("RGB", "L"):
        _refuse(path, f"not a picture in colour of 8 bits: its mode is {picture.mode}")
    red, green, blue = (np.asarray(plane, np.uint8) for plane in picture.convert("RGB").split())
    return red, green, blue


def write(path: AnyPath, array: Array, bits: int | None = None) -> None:
    """Writes a picture of shape (height, width). The ending of the name is the format: .png, .jpg, .tif or .pgm.

    The type is uint8 or uint16; JPEG has 8 bits only. `bits` is for PGM: maxval becomes 2^bits - 1, by default 255 or
    65535. A PGM file can have several images, of shape (images, height, width). The file is written beside and renamed.
    Raises TypeError or ValueError for a wrong array, `PictureError` for a wrong name, OSError if it cannot be written.
    """
    kind = _kind(path, bits)
    check_array("picture", array)
    if array.dtype.itemsize > 2:
        raise TypeError(f"picture: files have 8 or 16 bits, not {array.dtype}; convert it with .astype(np.uint16)")
    if array.ndim != 2 and not (kind == "PGM" and array.ndim == 3) or not array.size:
        raise ValueError(f"picture: the shape must be (height, width), not {array.shape}")
    if kind == "PGM":
        maxval = (1 << (bits or 8 * array.dtype.itemsize)) - 1
        save(path, encode(Image(maxval, each) for each in array.reshape((-1, *array.shape[-2:]))))
        return
    if kind == "JPEG" and array.dtype.itemsize > 1:
        raise PictureError(f"{_shown(path)}: a JPEG has 8 bits, not 16; write a PNG or a TIFF")
    _save_picture(path, Pillow.fromarray(array.astype(np.uint8 if array.dtype.itemsize == 1 else np.uint16)), kind)


def write_colour(path: AnyPath, red: Array, green: Array, blue: Array) -> None:
    """Writes a PNG, JPEG or TIFF file in colour of three pictures of type uint8 and of one shape (height, width)."""
    kind = _kind(path, None)
    if kind == "PGM":
        raise PictureError(f"{_shown(path)}: a PGM has no colour; write a PNG, a JPEG or a TIFF")
    planes = {"red": red, "green": green, "blue": blue}
    for name, plane in planes.items():
        check_array(name, plane)
        if plane.dtype.itemsize > 1 or plane.ndim != 2 or plane.shape != red.shape or not plane.size:
            raise ValueError(f"{name}: the planes must have the type uint8 and one shape (height, width)")
    _save_picture(path, Pillow.merge("RGB", [Pillow.fromarray(plane) for plane in planes.values()]), kind)


def _shown(path: AnyPath) -> str:
    return repr(os.fspath(path))


def _refuse(path: AnyPath, reason: str) -> NoReturn:
    raise PictureError(f"{_shown(path)}: {reason}")


def _content(path: AnyPath) -> bytes:
    with open(path, "rb") as file:
        return file.read()


def _open(path: AnyPath, content: bytes) -> Pillow.Image:
    """The picture of a file that Pillow reads, turned as the camera was held."""
    found = format_of(content[:16])
    if found not in ("PNG", "JPEG", "TIFF"):
        _refuse(path, f"this is a {found}, and PNG, JPEG, TIFF and PGM are read" if found else "not a PNG, JPEG, TIFF or PGM")
    try:
        picture = Pillow.open(io.BytesIO(content), formats=[found])
        picture.load()
        return ImageOps.exif_transpose(picture)
    except (UnidentifiedImageError, OSError, ValueError, SyntaxError, EOFError, Pillow.DecompressionBombError) as error:
        reason = " ".join(str(error).split())
        raise PictureError(f"{_shown(path)}: a {found} that cannot be read: {reason}") from None


def _grey(path: AnyPath, picture: Pillow.Image) -> Array:
    """The samples of a grey picture. Pillow reads 16 bits as the mode `I;16` or as `I`, of 32 bits."""
    if picture.mode in ("1", "L"):
        return np.asarray(picture).astype(np.uint8)
    if picture.mode.startswith("I"):
        wide = np.asarray(picture)
        if wide.min() < 0 or wide.max() > 65535:
            _refuse(path, "its samples have more than 16 bits")
        return wide.astype(np.uint16)
    if picture.mode in ("LA", "PA", "RGBA", "La", "RGBa"):
        _refuse(path, f"a picture with transparency (mode {picture.mode}); remove it first")
    if picture.mode.startswith("F"):
        _refuse(path, "its samples are not whole numbers")
    _refuse(path, f"a picture in colour (mode {picture.mode}); read_colour returns its red, green and blue")


def _kind(path: AnyPath, bits: int | None) -> str:
    """The format to write, by the ending of the name."""
    ending = os.path.splitext(os.fspath(path))[1].lower()
    kind = _SUFFIXES.get(ending)
    if kind is None:
        _refuse(path, f"the ending must be {', '.join(_SUFFIXES)}")
    if bits is not None and (kind != "PGM" or not 1 <= bits <= 16):
        raise ValueError(f"bits is 1 to 16 and for PGM only, not {bits} for {kind}")
    return kind


def _save_picture(path: AnyPath, picture: Pillow.Image, kind: str) -> None:
    content = io.BytesIO()
    picture.save(content, kind)
    save(path, content.getvalue())


# Phases

def split(array: Array, phases: int) -> list[Array]:
    """The phases of pictures of shape (.., height, width), each of shape (.., height, width / phases).

    Phase p has column p of each `phases` columns (docs/WIDEN.md). `phases` is 2 to 8. Raises ValueError if it does not
    divide the width.
    """
    _check_phases(phases)
    if array.ndim < 2 or array.shape[-1] % phases:
        raise ValueError(f"{phases} phases do not divide the width of the shape {array.shape}")
    return [array[..., phase::phases] for phase in range(phases)]


def join(parts: Sequence[Array]) -> Array:
    """The pictures of which `parts` are the phases, in order. Raises ValueError if they differ in shape or type."""
    _check_phases(len(parts))
    if len({(part.shape, part.dtype) for part in parts}) > 1 or parts[0].ndim < 2:
        raise ValueError("the phases must have one shape (.., height, width) and one type")
    return np.stack(parts, axis=-1).reshape((*parts[0].shape[:-1], -1))


def _check_phases(phases: int) -> None:
    if not 2 <= phases <= 8:
        raise ValueError(f"phases are 2 to 8, not {phases}")
