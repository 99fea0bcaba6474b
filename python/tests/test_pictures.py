"""PGM files by the tables of docs/PGM.md, by a plain reader of this test, and by `dk`; other formats; phases."""
from __future__ import annotations

import os
import struct
import subprocess
import zlib
from pathlib import Path
from typing import Any

import numpy as np
import pytest
from hypothesis import given, settings
from hypothesis import strategies as st
from PIL import Image as Pillow

from darkroom import compiler, pictures
from darkroom.pictures import Array, Image, PgmError, PictureError

COPY = "size 3 1\ninput a : u8\nlet f = im(x,y) a(x,y) end\noutput f\n"


def eight(*samples: Any) -> Array:
    return np.array(samples, np.uint8)


# The file

ACCEPTED = [
    ("plain header", b"P5\n3 1\n255\n\x01\x02\x03", 255, [[1, 2, 3]]),
    ("comments in the gaps", b"P5\n# c\n3 #x\n#y\n1\n255\n\x01\x02\x03", 255, [[1, 2, 3]]),
    ("one line", b"P5 1 1 65535\n\x01\x02", 65535, [[258]]),
    ("the LF after 255 CR is a sample", b"P5\n1 1\n255\r\n", 255, [[10]]),
    ("leading zeros", b"P5\t0003\r0001\n0255 \x01\x02\x03", 255, [[1, 2, 3]]),
    ("5000 leading zeros", b"P5 " + b"0" * 5000 + b"1 1 1\n\x01", 1, [[1]]),
    ("maxval 256 has two bytes", b"P5 1 1 256\n\x01\x00", 256, [[256]]),
    ("a comment may hold any byte", b"P5 #\xff P5\r1 1 255\n#", 255, [[35]]),
]


@pytest.mark.parametrize("shows, content, maxval, samples", ACCEPTED, ids=[row[0] for row in ACCEPTED])
def test_accepted(shows: str, content: bytes, maxval: int, samples: list[list[int]]) -> None:
    image, = pictures.decode(content)
    assert (image.maxval, image.samples.tolist()) == (maxval, samples)
    assert image.samples.dtype == (np.uint8 if maxval < 256 else np.uint16)


# docs/PGM.md, "Worked refusals", for the copy of size 3 1, and rows by hand after "Refusals"
REFUSED = [
    ("empty file", b"", "Magic 0"),
    ("file ends after the magic number", b"P5", "Number 2"),
    ("letter in place of a digit", b"P5 3 x", "Number 5"),
    ("comment directly after a digit", b"P5\n3 1\n255#c\n", "Number 10"),
    ("no white space after maxval", b"P5 3 1 0", "Number 8"),
    ("maxval 0", b"P5 3 1 0\n", "Range 7"),
    ("header that never ends", b"P5" + b" " * 65534, "LongHeader 65536"),
    ("other size", b"P5\n2 1\n255\n\x0a\x14", "Size 2 1"),
    ("maxval too great for the input", b"P5\n3 1\n256\n\0\x0a\0\x14\0\x1e", "Maxval 256"),
    ("raster too short", b"P5\n3 1\n255\n\x0a\x14", "Short 2 3"),
    ("sample above maxval", b"P5\n3 1\n100\n\x63\x64\x65", "SampleTooGreat 2"),
    ("one byte more", b"P5\n3 1\n255\n\x0a\x14\x1e\0", "Magic 14"),
    ("maxval 70000", b"P5 3 1 70000\n", "Range 7"),
    ("maxval 70000 without white space", b"P5 3 1 70000", "Number 12"),
    ("maxval of 5000 digits", b"P5 3 1 " + b"9" * 5000 + b"\n", "Range 7"),
    ("width 0", b"P5 0 1 255\n", "Size 0 1"),
    ("width above 2^32", b"P5 99999999999 1 255\n", "Size 4294967295 1"),
    ("comment after P5", b"P5#c\n3 1 255\n", "Number 2"),
    ("comment that does not end", b"P5 #c", "Number 5"),
    ("long comment that does not end", b"P5 #" + b"c" * 70000, "LongHeader 65536"),
    ("vertical tab", b"P5\v3 1 255\n", "Number 2"),
    ("sample above maxval before a short raster", b"P5\n3 1\n100\n\x65", "SampleTooGreat 0"),
    ("samples are counted over the file", b"P5\n3 1\n100\n\x01\x02\x03P5\n3 1\n100\n\x01\x65\x03", "SampleTooGreat 4"),
    ("lone P after a raster", b"P5\n3 1\n255\n\x01\x02\x03P", "Magic 14"),
    ("number in a second header", b"P5\n3 1\n255\n\x01\x02\x03P5x", "Number 16"),
    ("plain form", b"P2\n3 1\n255\n1 2 3\n", "Magic 0"),
]


@pytest.mark.parametrize("shows, content, line", REFUSED, ids=[row[0] for row in REFUSED])
def test_refused(shows: str, content: bytes, line: str) -> None:
    with pytest.raises(PgmError) as found:
        pictures.decode(content, (1, 3), [8])
    assert found.value.line == f"image: {line}"
    assert str(found.value).startswith(f"image: {line}: ") and "\n" not in str(found.value)


def test_second_input_missing() -> None:
    with pytest.raises(PgmError, match="^image: Round 1 2: "):
        pictures.decode(b"P5\n2 1\n255\n\x01\x02", (1, 2), [8, 8])


def test_another_format_is_named() -> None:
    with pytest.raises(PgmError, match="this is a PNG$"):
        pictures.decode(b"\x89PNG\r\n\x1a\n")


def test_count() -> None:
    one = b"P5 1 1 1\n\0"
    assert len(pictures.decode(one * 65536)) == 65536
    with pytest.raises(PgmError, match="^image: Count 65536: "):
        pictures.decode(one * 65536 + b"x")


# docs/PGM.md, "Wide samples and several images"
@pytest.mark.parametrize("maxval, samples, content", [
    (511, [[100, 200]], b"P5\n2 1\n511\n\0\x64\0\xc8"),
    (511, [[7, 8, 0]], b"P5\n3 1\n511\n\0\x07\0\x08\0\0"),
    (7, [[7, 7], [7, 7]], b"P5\n2 2\n7\n\7\7\7\7"),
    (255, [[3, 6, 9, 7]], b"P5\n4 1\n255\n\3\6\11\7")])
def test_output_files(maxval: int, samples: list[list[int]], content: bytes) -> None:
    assert pictures.encode([Image(maxval, np.array(samples, np.uint16))]) == content


def plain(content: bytes) -> list[tuple[int, list[list[int]]]]:
    """A reader without checks, byte by byte."""
    images, at = [], 0
    while at < len(content):
        numbers: list[int] = []
        at += 2
        while len(numbers) < 3:
            if content[at:at + 1] == b"#":
                while content[at] not in b"\r\n":
                    at += 1
            word = b""
            while content[at:at + 1].isdigit():
                word += content[at:at + 1]
                at += 1
            if word:
                numbers.append(int(word))
            at += 1
        width, height, maxval = numbers
        each = 2 if maxval > 255 else 1
        flat = [int.from_bytes(content[k:k + each], "big") for k in range(at, at + width * height * each, each)]
        images.append((maxval, [flat[k:k + width] for k in range(0, width * height, width)]))
        at += width * height * each
    return images


def listed(images: list[Image]) -> list[tuple[int, list[list[int]]]]:
    return [(image.maxval, image.samples.tolist()) for image in images]


SPACE = st.sampled_from([b" ", b"\t", b"\r", b"\n"])
GAP = st.tuples(SPACE, st.lists(st.one_of(SPACE, st.sampled_from([b"# 9 P5\n", b"#\r", b"#\xff#\n"])), max_size=3)).map(lambda gap: gap[0] + b"".join(gap[1]))


@st.composite
def files(draw: st.DrawFn) -> bytes:
    """A file of images of one size, with any headers that the page allows."""
    width, height, content = draw(st.integers(1, 5)), draw(st.integers(1, 4)), b""
    for _ in range(draw(st.integers(1, 3))):
        maxval = draw(st.one_of(st.sampled_from([1, 255, 256, 65535]), st.integers(1, 65535)))
        numbers = [b"0" * draw(st.integers(0, 2)) + b"%d" % number for number in (width, height, maxval)]
        content += b"P5" + b"".join(draw(GAP) + number for number in numbers) + draw(SPACE)
        samples = draw(st.lists(st.integers(0, maxval), min_size=width * height, max_size=width * height))
        content += b"".join(sample.to_bytes(2 if maxval > 255 else 1, "big") for sample in samples)
    return content


@given(files())
def test_a_plain_reader_reads_the_same(content: bytes) -> None:
    images = pictures.decode(content)
    assert listed(images) == plain(content)
    written = pictures.encode(images)
    assert plain(written) == plain(content) and listed(pictures.decode(written)) == listed(images)


@settings(max_examples=80, deadline=None)
@given(st.data())
def test_dk_refuses_the_same(tmp_path_factory: pytest.TempPathFactory, data: st.DataObject) -> None:
    """A file with a changed byte, or cut off: `dk run` of a copy writes the line of `PgmError`, or accepts the file too."""
    content = data.draw(st.sampled_from([b"P5\n3 1\n100\n\x01\x02\x64", b"P5 #c\n3 1 255\n\x01\x02\x03P5\n3 1\n7\n\1\2\3"]))
    at = data.draw(st.integers(0, len(content)))
    content = content[:at] + data.draw(st.sampled_from([b"", b" ", b"#", b"\n", b"0", b"7", b"P5", b"\xff"])) + content[at + data.draw(st.integers(0, 9)):]
    folder = tmp_path_factory.mktemp("run")
    (folder / "p.dk").write_text(COPY)
    said = subprocess.run([compiler.find(), "run", "p.dk", "/dev/stdin", "/dev/null"], input=content, cwd=folder, capture_output=True).stderr
    try:
        pictures.decode(content, (1, 3), [8])
    except PgmError as error:
        assert said.decode() == error.line + "\n"
    else:
        assert said == b""


# Rounds

def test_rounds_are_input_by_input() -> None:
    left, right = np.array([[[1, 2]], [[3, 4]]], np.uint8), np.array([[[5, 6]], [[7, 8]]], np.uint16)
    content = pictures.encode_rounds([left, right], [8, 9])
    assert content == (b"P5\n2 1\n255\n\1\2" b"P5\n2 1\n511\n\0\5\0\6" b"P5\n2 1\n255\n\3\4" b"P5\n2 1\n511\n\0\7\0\10")
    assert [array.tolist() for array in pictures.decode_rounds(content, (1, 2), 2)] == [left.tolist(), right.tolist()]


WRONG: list[tuple[str, Any, type[Exception], str]] = [
    ("a list", [[1, 2, 3]], TypeError, "a: a picture is a NumPy array, not list"),
    ("signed", np.zeros((1, 3), np.int64), TypeError, "a: a picture has an unsigned type, not int64"),
    ("floats", np.zeros((1, 3)), TypeError, "not float64"),
    ("bool", np.zeros((1, 3), bool), TypeError, "not bool"),
    ("other shape", np.zeros((3, 1), np.uint8), ValueError, r"a: the shape must be \(1, 3\) or \(rounds, 1, 3\), not \(3, 1\)"),
    ("no rounds", np.zeros((0, 1, 3), np.uint8), ValueError, "the shape must be"),
    ("four axes", np.zeros((1, 1, 1, 3), np.uint8), ValueError, "the shape must be"),
    ("a sample too great", np.array([[1, 2, 128]], np.uint8), ValueError, r"a: the sample 128 at \(0, 2\) is above 127"),
    ("64 bits", np.array([[1, 2, 2**64 - 1]], np.uint64), ValueError, "the sample 18446744073709551615"),
    ("an unknown name", {"b": eight([1, 2, 3])}, ValueError, "there is no input 'b': the inputs are a"),
    ("no name", {}, ValueError, "the picture of the input 'a' is missing"),
]


@pytest.mark.parametrize("shows, given_pictures, error, text", WRONG, ids=[row[0] for row in WRONG])
def test_wrong_pictures(shows: str, given_pictures: Any, error: type[Exception], text: str) -> None:
    with pytest.raises(error, match=text):
        pictures.gather([("a", 7)], (1, 3), given_pictures)


def test_two_inputs_need_names_and_equal_rounds() -> None:
    inputs = [("a", 8), ("b", 8)]
    with pytest.raises(ValueError, match="there are 2 inputs: give the pictures by the names a, b"):
        pictures.gather(inputs, (1, 3), eight([1, 2, 3]))
    with pytest.raises(ValueError, match="different rounds"):
        pictures.gather(inputs, (1, 3), {"a": eight([1, 2, 3]), "b": np.zeros((2, 1, 3), np.uint8)})


# Files

ODD_NAMES = ["with blank.png", "quote'\".png", "-a.png", "two\nlines.png", "\u00e9.png"]


@pytest.mark.parametrize("name", ODD_NAMES)
def test_odd_names(name: str, tmp_path: Path, monkeypatch: pytest.MonkeyPatch) -> None:
    monkeypatch.chdir(tmp_path)
    pictures.write(name, eight([1, 2], [3, 4]))
    assert pictures.read(name).tolist() == [[1, 2], [3, 4]]
    assert os.listdir() == [name]
    with pytest.raises(FileNotFoundError) as missing:
        pictures.read("no " + name)
    assert "\n" not in str(missing.value)


@pytest.mark.parametrize("name", ["p.png", "p.tif", "p.TIFF", "p.pgm"])
@pytest.mark.parametrize("kind", [np.uint8, np.uint16, ">u2"])
def test_files_keep_each_sample(name: str, kind: Any, tmp_path: Path) -> None:
    samples = [[0, 1, 254], [255, 7, 100]] if kind is np.uint8 else [[0, 1, 65534], [65535, 256, 1023]]
    pictures.write(tmp_path / name, np.array(samples, kind))
    found = pictures.read(tmp_path / name)
    assert found.tolist() == samples and found.dtype == (np.uint8 if kind is np.uint8 else np.uint16)


def test_jpeg(tmp_path: Path) -> None:
    pictures.write(tmp_path / "p.jpg", np.full((8, 8), 100, np.uint8))
    assert np.abs(pictures.read(tmp_path / "p.jpg").astype(int) - 100).max() <= 2
    with pytest.raises(PictureError, match="a JPEG has 8 bits, not 16"):
        pictures.write(tmp_path / "q.jpg", np.zeros((8, 8), np.uint16))
    assert os.listdir(tmp_path) == ["p.jpg"]


def test_pgm_has_the_maxval_of_its_bits_and_several_images(tmp_path: Path) -> None:
    pictures.write(tmp_path / "p.pgm", np.array([[[1, 2]], [[3, 1023]]], np.uint16), bits=10)
    assert (tmp_path / "p.pgm").read_bytes() == b"P5\n2 1\n1023\n\0\1\0\2P5\n2 1\n1023\n\0\3\3\xff"
    assert pictures.read(tmp_path / "p.pgm").tolist() == [[[1, 2]], [[3, 1023]]]
    with pytest.raises(ValueError, match=r"the sample 3 at \(0, 0\) is above 1"):
        pictures.write(tmp_path / "q.pgm", eight([3]), bits=1)


def test_one_bit_is_0_and_1(tmp_path: Path) -> None:
    Pillow.fromarray(np.array([[True, False]])).save(tmp_path / "p.png")
    assert pictures.read(tmp_path / "p.png").tolist() == [[1, 0]]


def chunk(kind: bytes, content: bytes) -> bytes:
    return struct.pack(">I", len(content)) + kind + content + struct.pack(">I", zlib.crc32(kind + content))


@pytest.mark.parametrize("bits, raster, samples", [
    (1, b"\x50", [0, 1, 0, 1]), (2, b"\x1b", [0, 85, 170, 255]), (4, b"\x01\x23", [0, 17, 34, 51]), (16, b"\1\2\xff\xff\0\0\0\7", [258, 65535, 0, 7])])
def test_a_png_by_hand(bits: int, raster: bytes, samples: list[int], tmp_path: Path) -> None:
    head = struct.pack(">IIBBBBB", 4, 1, bits, 0, 0, 0, 0)
    parts = [chunk(b"IHDR", head), chunk(b"IDAT", zlib.compress(b"\0" + raster)), chunk(b"IEND", b"")]
    (tmp_path / "p.png").write_bytes(b"\x89PNG\r\n\x1a\n" + b"".join(parts))
    assert pictures.read(tmp_path / "p.png").tolist() == [samples]


def test_a_tiff_of_16_bits_by_hand(tmp_path: Path) -> None:
    """The most significant byte first. Each entry: tag, type (3 is 16 bits, 4 is 32), count, value."""
    short, long = struct.Struct(">HHIHH"), struct.Struct(">HHII")
    entries = [long.pack(256, 4, 1, 2), long.pack(257, 4, 1, 1), short.pack(258, 3, 1, 16, 0), short.pack(259, 3, 1, 1, 0),
               short.pack(262, 3, 1, 1, 0), long.pack(273, 4, 1, 110), long.pack(278, 4, 1, 1), long.pack(279, 4, 1, 4)]
    (tmp_path / "p.tif").write_bytes(b"MM\0*\0\0\0\x08" + struct.pack(">H", 8) + b"".join(entries) + bytes(4) + b"\1\2\xff\xfe")
    assert pictures.read(tmp_path / "p.tif").tolist() == [[258, 65534]]


def test_a_photo_is_turned(tmp_path: Path) -> None:
    """The orientation 6 of Exif: the first column of the file, from below, is the first line of the scene."""
    exif = Pillow.Exif()
    exif[0x0112] = 6
    Pillow.fromarray(eight([1, 2, 3], [4, 5, 6])).save(tmp_path / "p.png", exif=exif)
    assert pictures.read(tmp_path / "p.png").tolist() == [[4, 1], [5, 2], [6, 3]]


def test_colour(tmp_path: Path) -> None:
    planes = eight([1, 2]), eight([3, 4]), eight([5, 6])
    pictures.write_colour(tmp_path / "p.png", *planes)
    assert [plane.tolist() for plane in pictures.read_colour(tmp_path / "p.png")] == [plane.tolist() for plane in planes]
    with pytest.raises(PictureError, match="in colour .*read_colour"):
        pictures.read(tmp_path / "p.png")


def test_formats_are_named(tmp_path: Path) -> None:
    path = tmp_path / "photo.png"
    for content, found in [(b"GIF89a", "this is a GIF"), (b"P2 1 1 1 0", "this is a plain PGM"), (b"", "not a PNG, JPEG, TIFF or PGM"),
                           (b"\x89PNG\r\n\x1a\nxx", "a PNG that cannot be read"), (b"P5 1 1 9\n", "image: Short 0 1")]:
        path.write_bytes(content)
        with pytest.raises(PictureError, match=found) as error:
            pictures.read(path)
        assert str(error.value).startswith(repr(str(path))) and "\n" not in str(error.value)
    for mode in ("LA", "RGBA"):
        Pillow.new(mode, (1, 1)).save(path)
        with pytest.raises(PictureError, match="transparency"):
            pictures.read(path)
    with pytest.raises(PictureError, match="the ending must be .png"):
        pictures.write(tmp_path / "photo", eight([1]))


def test_nothing_is_left_if_a_file_cannot_be_written(tmp_path: Path, monkeypatch: pytest.MonkeyPatch) -> None:
    (tmp_path / "file").write_text("")
    for path in (tmp_path / "file" / "p.png", tmp_path / "none" / "p.png", Path("/proc/p.png")):
        with pytest.raises(OSError) as error:
            pictures.write(path, eight([1]))
        assert str(path) in str(error.value) and ".darkroom" not in str(error.value)

    def full(*_: object) -> None:
        raise OSError(28, "No space left on device")

    monkeypatch.setattr(os, "replace", full)
    with pytest.raises(OSError, match="No space"):
        pictures.write(tmp_path / "p.png", eight([1]))
    assert os.listdir(tmp_path) == ["file"]


def test_a_link_and_a_mode_stay_and_a_device_is_not_replaced(tmp_path: Path) -> None:
    (tmp_path / "p.pgm").write_text("")
    (tmp_path / "p.pgm").chmod(0o640)
    (tmp_path / "q.pgm").symlink_to("p.pgm")
    pictures.write(tmp_path / "q.pgm", eight([1]))
    assert (tmp_path / "q.pgm").is_symlink() and (tmp_path / "p.pgm").read_bytes() == b"P5\n1 1\n255\n\1"
    assert (tmp_path / "p.pgm").stat().st_mode & 0o777 == 0o640
    (tmp_path / "null.pgm").symlink_to("/dev/null")
    pictures.write(tmp_path / "null.pgm", eight([1]))
    assert Path("/dev/null").is_char_device()


# Phases

def test_phases_by_hand() -> None:
    parts = pictures.split(eight([1, 2, 3, 4], [5, 6, 7, 8]), 2)
    assert [part.tolist() for part in parts] == [[[1, 3], [5, 7]], [[2, 4], [6, 8]]]
    assert pictures.join(parts).tolist() == [[1, 2, 3, 4], [5, 6, 7, 8]]


@given(st.integers(2, 8), st.integers(1, 4), st.integers(1, 3), st.integers(1, 3))
def test_column_c_is_column_c_div_p_of_phase_c_mod_p(phases: int, columns: int, height: int, rounds: int) -> None:
    array = np.arange(rounds * height * columns * phases, dtype=np.uint16).reshape(rounds, height, -1)
    parts = pictures.split(array, phases)
    for column in range(columns * phases):
        assert (parts[column % phases][..., column // phases] == array[..., column]).all()
    assert (pictures.join(parts) == array).all() and pictures.join(parts).dtype == np.uint16


def test_wrong_phases() -> None:
    for phases, array in ((3, np.zeros((1, 4), np.uint8)), (1, np.zeros((1, 4), np.uint8)), (9, np.zeros((1, 9), np.uint8))):
        with pytest.raises(ValueError):
            pictures.split(array, phases)
    with pytest.raises(ValueError, match="one shape"):
        pictures.join([eight([1]), eight([1, 2])])


def test_a_size_above_the_frame_of_a_program_is_read(tmp_path: Path) -> None:
    (tmp_path / "p.pgm").write_bytes(b"P5 5000 1 255\n" + b"\1" * 5000)
    assert pictures.read(tmp_path / "p.pgm").shape == (1, 5000)
    with pytest.raises(PgmError, match="^image: Short 1 18446744065119617025: "):
        pictures.decode(b"P5 4294967295 4294967295 1\n\1")
    with pytest.raises(PgmError, match="^image: Size 0 1: "):
        pictures.decode(b"P5 0 1 255\n")
