"""Texts of programs: what they mean, by dk and by a model of docs/LANGUAGE.md; their form; the errors of Python."""
from __future__ import annotations

from pathlib import Path
from typing import Callable, Iterator

import pytest
from hypothesis import HealthCheck, given, settings

import darkroom
from darkroom import Expression, Image, Program, Type, number, s8, s9, s46, sat, select, u1, u8, u10, u16, x, y
from generate import DK, Sample, evaluate, fault_of, frames_of, program_of, samples
from model import BODY, kind_of, parse, tokens_of

random_programs = settings(max_examples=40, deadline=None, suppress_health_check=list(HealthCheck))
needs_dk = pytest.mark.skipif(not DK.exists(), reason=f"there is no {DK}")


@pytest.fixture
def program() -> Program:
    return Program(4, 3)


@pytest.fixture
def a(program: Program) -> Image:
    return program.input("a", u8)


def body_of(expression: Expression) -> str:
    return str(expression)


# Random programs

@needs_dk
@random_programs
@given(samples())
def test_text_means_what_the_model_computes(tmp_path_factory: pytest.TempPathFactory, sample: Sample) -> None:
    program, _ = program_of(sample)
    frames = [sample.frames[name] for name in sample.inputs]
    bits = [kind.bits for kind in sample.inputs.values()]
    assert evaluate(program.text(), frames, bits, tmp_path_factory.getbasetemp()) == frames_of(sample)


@random_programs
@given(samples(depth=5))
def test_text_reads_back_as_the_tree_that_was_built(sample: Sample) -> None:
    program, _ = program_of(sample)
    found = BODY.findall(program.text())
    for one, (inline, name, declared, body) in zip(sample.definitions, found):
        assert (bool(inline), name, declared) == (one.is_inline, one.name, one.declared.word() if one.declared else "")
        assert parse(tokens_of(body)) == one.whole()


@random_programs
@given(samples(depth=5))
def test_types_are_those_of_the_model(sample: Sample) -> None:
    _, images = program_of(sample)
    kinds = dict(sample.inputs)
    for one in sample.definitions:
        kinds[one.name] = one.declared or kind_of(one.whole(), kinds)
        assert str(images[one.name].type) == kinds[one.name].word()


@random_programs
@given(samples(depth=4))
def test_each_pair_of_brackets_is_needed(sample: Sample) -> None:
    for *_, body in BODY.findall(program_of(sample)[0].text()):
        tokens = tokens_of(body)
        tree = parse(tokens)
        for first, last in bracket_pairs(tokens):
            without = [token for at, token in enumerate(tokens) if at not in (first, last)]
            try:
                assert parse(without) != tree, body
            except SyntaxError:
                pass


def bracket_pairs(tokens: list[str]) -> Iterator[tuple[int, int]]:
    """The places of brackets that group: no word, or `as` and a type, is before them."""
    stack: list[int] = []
    for at, token in enumerate(tokens):
        if token == "(":
            stack.append(at)
        elif token == ")":
            first = stack.pop()
            if first == 0 or not (tokens[first - 1][0].isalpha() or tokens[first - 1][0] == "_"):
                yield first, at


@random_programs
@given(samples(depth=5))
def test_lines_are_short_and_have_their_sources(sample: Sample) -> None:
    program, _ = program_of(sample)
    lines = program.text().split("\n")
    assert lines.pop() == ""
    assert max(map(len, lines)) <= 100
    assert set(program.sources) == {at for at, line in enumerate(lines, start=1) if line}


# Examples

def gaussian(p: Program, a: Image, kernel: list[int], shift: int) -> Image:
    r = len(kernel) // 2
    rows = p.let(sum(w * a(x, y + j - r).clamp for j, w in enumerate(kernel)), name="rows")
    return p.let(sum(w * rows(x + i - r, y).clamp for i, w in enumerate(kernel)) >> shift, u8, name="blur")


GAUSSIAN = """\
size 640 480
input a : u8

let rows = im(x,y)
    a(x,y-2) edge clamp + 4*a(x,y-1) edge clamp + 6*a(x,y) edge clamp + 4*a(x,y+1) edge clamp
      + a(x,y+2) edge clamp
end
let blur = im(x,y)
    (rows(x-2,y) edge clamp + 4*rows(x-1,y) edge clamp + 6*rows(x,y) edge clamp
      + 4*rows(x+1,y) edge clamp + rows(x+2,y) edge clamp >> 8) as u8
end

output blur
"""


@needs_dk
def test_gaussian_of_the_design(tmp_path: Path) -> None:
    p = Program(640, 480)
    p.output(gaussian(p, p.input("a", u8), [1, 4, 6, 4, 1], 8))
    assert p.text() == str(p) == GAUSSIAN
    assert fault_of(p.text(), tmp_path) == ""
    assert [(image.name, image.type) for image in p.inputs + p.outputs] == [("a", u8), ("blur", u8)]


@needs_dk
def test_mean_of_the_language_page(tmp_path: Path) -> None:
    p = Program(4, 1)
    a = p.input("a", u8)
    p.output(p.let((a(x-1, y) + a(x, y) + a(x+1, y)) // 3, u8, name="f"))
    assert "let f = im(x,y) ((a(x-1,y) + a(x,y) + a(x+1,y))/3) as u8 end\n" in p.text()
    assert evaluate(p.text(), [[[3, 6, 9, 12]]], [8], tmp_path) == [[[3, 6, 9, 7]]]


@needs_dk
def test_clamped_read_of_an_inline_image(tmp_path: Path) -> None:
    p = Program(3, 1)
    a = p.input("a", u8)
    g = p.inline(a(x-1, y), name="g")
    p.output(p.let(g(x+1, y).clamp, name="f"))
    assert "inline let g = im(x,y) a(x-1,y) end\nlet f = im(x,y) g(x+1,y) edge clamp end\n" in p.text()
    assert evaluate(p.text(), [[[5, 6, 7]]], [8], tmp_path) == [[[5, 6, 6]]]


def test_brackets(a: Image) -> None:
    p, q = a(x, y), a(x+1, y)
    assert body_of(p + q + 1) == "a(x,y) + a(x+1,y) + 1"
    assert body_of(p + (q + 1)) == "a(x,y) + (a(x+1,y) + 1)"
    assert body_of(p - 2 * q // 3) == "a(x,y) - 2*a(x+1,y)/3"
    assert body_of((p - 2) * (q // 3)) == "(a(x,y) - 2)*(a(x+1,y)/3)"
    assert body_of((-p).as_(s9)) == "-a(x,y) as s9"
    assert body_of(-p.as_(u8)) == "-(a(x,y) as u8)"
    assert body_of(p + q.as_(u8)) == "a(x,y) + a(x+1,y) as u8"
    assert body_of(~(p < q)) == "!(a(x,y) < a(x+1,y))"
    assert body_of(p + (q << 2) >> 1) == "a(x,y) + (a(x+1,y) << 2) >> 1"
    assert body_of((p < q) & (q != 3) | (p == q)) == "(a(x,y) < a(x+1,y)) & (a(x+1,y) != 3) | (a(x,y) == a(x+1,y))"
    assert body_of(-3 - -p) == "-3 - -a(x,y)"
    assert body_of(sat(darkroom.abs(p - q), u8)) == "sat(abs(a(x,y) - a(x+1,y)), u8)"
    assert body_of(select(p > q, 1, darkroom.min(p, darkroom.max(q, 0)))) == \
        "select(a(x,y) > a(x+1,y), 1, min(a(x,y), max(a(x+1,y), 0)))"


def test_comparisons_keep_their_order(a: Image) -> None:
    e = a(x, y)
    assert body_of(e + 1 < e) == "a(x,y) + 1 < a(x,y)"
    assert body_of(number(3) < e) == "3 < a(x,y)" and body_of(3 < e) == "a(x,y) > 3"


def test_numbers(a: Image) -> None:
    e = a(x, y)
    assert 0 + e is e and 1 * e is e and sum([e]) is e
    assert [body_of(each) for each in (e + 0, e * 1, 0 - e, 0 * e)] == ["a(x,y) + 0", "a(x,y)*1", "0 - a(x,y)", "0*a(x,y)"]
    assert [body_of(each) for each in (3 - e, 5 & e, 5 | e, 5 ^ e)] == ["3 - a(x,y)", "5 & a(x,y)", "5 | a(x,y)", "5 ^ a(x,y)"]
    assert body_of(number(1) << 4) == "1 << 4"
    assert body_of(-1 * e) == "-1*a(x,y)"
    assert [str(number(value).type) for value in (0, 1, 255, 256, -1)] == ["u1", "u1", "u8", "u9", "s2"]
    assert body_of(abs(e)) == "abs(a(x,y))"


def test_numbers_of_numpy(a: Image) -> None:
    numpy = pytest.importorskip("numpy")
    kernel = numpy.array([1, 2, -1])
    read = [a(x + i, y) for i in numpy.arange(-1, 2)]
    assert body_of(sum(w * r for w, r in zip(kernel, read))) == "a(x-1,y) + 2*a(x,y) + -1*a(x+1,y)"
    assert body_of(kernel[1] + read[1]) == "2 + a(x,y)"
    with pytest.raises(TypeError, match="an operand is an expression or a whole number, not ndarray"):
        kernel * read[0]
    with pytest.raises(TypeError, match="not a whole number"):
        numpy.float64(0.5) * read[0]


def test_names(program: Program, a: Image) -> None:
    made = [program.let(a(x, y)), program.let(a(x, y), name="t2"), program.let(a(x, y)), program.let(a(x, y), name="a"),
            program.let(a(x, y), name="a"), program.inline(3, name="n" * 64), program.let(3, name="n" * 64)]
    assert [image.name for image in made] == ["t1", "t2", "t3", "a_2", "a_3", "n" * 64, "n" * 62 + "_2"]


def test_types_of_definitions(program: Program, a: Image) -> None:
    made = [program.let(a(x, y) - 1), program.let(a(x, y) + 1, u8), program.let(a(x, y), declared=u10),
            program.let(a(x, y), u1, declared=u10), program.let(7)]
    assert [str(image.type) for image in made] == ["s9", "u8", "u10", "u10", "u3"]
    assert program.text().splitlines()[3:] == [
        "let t1 = im(x,y) a(x,y) - 1 end", "let t2 = im(x,y) (a(x,y) + 1) as u8 end", "let t3 : u10 = im(x,y) a(x,y) end",
        "let t4 : u10 = im(x,y) a(x,y) as u1 end", "let t5 = im(x,y) 7 end"]
    assert (s46.least, s46.greatest, u8.least, u8.greatest) == (-2**45, 2**45 - 1, 0, 255)


def test_sources_name_the_line_that_wrote_the_definition(program: Program, a: Image) -> None:
    here = program.let(a(x, y)), test_sources_name_the_line_that_wrote_the_definition.__code__.co_firstlineno + 1
    source = program.sources[4]
    assert (source.file, source.line) == (__file__, here[1])
    assert "t1" in program.text().splitlines()[3]


def test_how_programs_and_expressions_are_shown(program: Program, a: Image) -> None:
    assert repr(program) == "<program 4 by 3: no output yet>"
    assert repr(a) == "<image a : u8>" and repr(a(x, y) < 3) == "<expression a(x,y) < 3 : u1>"
    program.output(program.let(a(x, y) < 3, name="dark"))
    assert repr(program) == "<program 4 by 3: dark>"
    assert program._repr_html_().startswith("<pre>size 4 3\n") and "a(x,y) &lt; 3" in program._repr_html_()
    assert str(x - 1) == "x-1" and str(2 + y) == "y+2" and str(u16) == "u16"


@needs_dk
def test_faults_that_are_left_to_dk(tmp_path: Path) -> None:
    def fault(body: Callable[[Image], Expression], type: Type = u8) -> str:
        p = Program(4, 3)
        p.output(p.let(body(p.input("a", type)), name="f"))
        return fault_of(p.text(), tmp_path).split(": ")[1]

    assert fault(lambda a: a(x, y) // 0) == "ZeroDivisor"
    assert fault(lambda a: a(x, y) >> 64) == "ShiftRange"
    assert fault(lambda a: a(x, y) << 60) == "WidthTooGreat"
    assert fault(lambda a: ~a(x, y)) == "NotOneBit"
    assert fault(lambda a: a(x, y) & -a(x, y)) == "SignedBits"
    assert fault(lambda a: -a(x, y)) == "OutputType"
    assert fault(lambda a: a(x, y), s8) == "InputType"


@needs_dk
def test_a_deep_expression_is_dk_s_to_refuse(tmp_path: Path) -> None:
    p = Program(4, 3)
    a = p.input("a", u8)
    p.output(p.let(sum(a(x, y) for _ in range(3000)), u8))
    assert fault_of(p.text(), tmp_path).endswith("WidthTooGreat") or fault_of(p.text(), tmp_path).endswith("Depth")


# Errors

EXPRESSIONS: list[tuple[Callable[[Expression], object], str]] = [
    (lambda e: e / 3, "write e // 3"),
    (lambda e: 3 / e, "write e // 3"),
    (lambda e: 0 < e < 3, r"write select\(c, a, b\) for if, \(p < q\) & \(q < r\)"),
    (lambda e: 1 if e else 0, "write select"),
    (lambda e: e < 3 and e > 1, "& | ~ for and, or, not"),
    (lambda e: not e, "& | ~ for and, or, not"),
    (lambda e: min([e, e]), "darkroom.min"),  # type: ignore[type-var]
    (lambda e: e in [3], "no truth value"),
    (lambda e: e + 0.5, "0.5 is not a whole number: scale it"),  # type: ignore[operator]
    (lambda e: 0.5 * e, "0.5 is not a whole number: scale it"),  # type: ignore[operator]
    (lambda e: darkroom.number(0.5), "0.5 is not a whole number: scale it"),  # type: ignore[arg-type]
    (lambda e: e + "3", "an operand is an expression or a whole number, not str"),  # type: ignore[operator]
    (lambda e: e + x, "x and y occur only in reads"),  # type: ignore[operator]
    (lambda e: e // e, "the right operand of // is a whole number"),  # type: ignore[operator]
    (lambda e: e << e, "the right operand of << is a whole number"),  # type: ignore[operator]
    (lambda e: e >> 0.5, "the right operand of >> is a whole number"),  # type: ignore[operator]
    (lambda e: 3 // e, "the right operand of // << >> is a whole number"),
    (lambda e: 3 << e, "the right operand of // << >> is a whole number"),
    (lambda e: 3 >> e, "the right operand of // << >> is a whole number"),
    (lambda e: e % 3, "no remainder"),
    (lambda e: 3 % e, "no remainder"),
    (lambda e: e ** 2, r"write e \* e"),
    (lambda e: 2 ** e, r"write e \* e"),
    (lambda e: e.as_("u8"), "'u8' is not a Darkroom type: write one of u1 to u64"),  # type: ignore[arg-type]
    (lambda e: sat(e, 8), "8 is not a Darkroom type"),  # type: ignore[arg-type]
    (lambda e: 2 * x, "constant offset"),
    (lambda e: x + y, "constant offset"),  # type: ignore[operator]
    (lambda e: 1 - x, "constant offset"),
    (lambda e: -x, "constant offset"),
    (lambda e: x + 0.5, "constant offset"),  # type: ignore[operator]
]


@pytest.mark.parametrize("made, says", EXPRESSIONS)
def test_errors_of_expressions(a: Image, made: Callable[[Expression], object], says: str) -> None:
    with pytest.raises(TypeError, match=says):
        made(a(x, y))


VALUES: list[tuple[Callable[[Expression], object], str]] = [
    (lambda e: e // -3, r"write -\(e // 3\) for e // -3"),
    (lambda e: e >> -1, "not negative and has at most 64 bits: write the other shift"),
    (lambda e: e << 2**64, "at most 64 bits"),
    (lambda e: e + 2**64, "at most 64 bits"),
    (lambda e: e - -2**64, "at most 64 bits"),
    (lambda e: e.as_(Type(65, False)), "there is no type u65"),
    (lambda e: e.as_(Type(0, True)), "there is no type s0"),
]


@pytest.mark.parametrize("made, says", VALUES)
def test_errors_of_numbers(a: Image, made: Callable[[Expression], object], says: str) -> None:
    with pytest.raises(ValueError, match=says):
        made(a(x, y))


IMAGES: list[tuple[Callable[[Image], object], type[Exception], str]] = [
    (lambda a: a(x+65, y), ValueError, r"a\(x\+65, y\): an offset is at most 64"),
    (lambda a: a(x, y-65), ValueError, "an offset is at most 64"),
    (lambda a: a(y, x), TypeError, r"x first and y second: write a\(x, y\)"),
    (lambda a: a(1, y), TypeError, "x first and y second"),  # type: ignore[arg-type]
    (lambda a: a + 1, TypeError, r"a is an image: read it, as in a\(x, y\)"),
    (lambda a: 2 * a, TypeError, "a is an image: read it"),
    (lambda a: sum([a]), TypeError, "a is an image: read it"),
    (lambda a: a < 3, TypeError, "a is an image: read it"),
    (lambda a: ~a, TypeError, "a is an image: read it"),
    (lambda a: a(x, y) + a, TypeError, "a is an image: read it"),
    (lambda a: a.program.let(a), TypeError, "a is an image: read it"),  # type: ignore[arg-type]
    (lambda a: a.program.let(0.5), TypeError, "0.5 is not a whole number"),  # type: ignore[arg-type]
    (lambda a: (a(x, y) + 1).clamp, AttributeError, r"write a\(x-1, y\).clamp"),
    (lambda a: a(x, y).clamp.clamp, AttributeError, r"write a\(x-1, y\).clamp"),
    (lambda a: a.program.output(a(x, y)), TypeError, r"write p.output\(p.let\(..\)\)"),  # type: ignore[arg-type]
    (lambda a: a.program.output("a"), TypeError, "an output is an image, not str"),  # type: ignore[arg-type]
    (lambda a: Program(4, 3).output(a), ValueError, "a is an image of another program"),
    (lambda a: Program(4, 3).let(a(x, y)), ValueError, "the body reads an image of another program"),
    (lambda a: a(x, y) + Program(4, 3).input("b", u8)(x, y), ValueError, "images of two programs"),
    (lambda a: a.program.input("a", u8), ValueError, "the name a is in use"),
    (lambda a: a.program.input("b", "u8"), TypeError, "'u8' is not a Darkroom type"),  # type: ignore[arg-type]
    (lambda a: a.program.let(3, "u8"), TypeError, "'u8' is not a Darkroom type"),  # type: ignore[arg-type]
    (lambda a: a.program.let(3, declared=8), TypeError, "8 is not a Darkroom type"),  # type: ignore[arg-type]
    (lambda a: Program(0, 3), ValueError, "1 to 4,096 pixels, not 0"),
    (lambda a: Program(4, 4097), ValueError, "1 to 4,096 pixels, not 4097"),
    (lambda a: Program(4.5, 3), TypeError, "a whole number of pixels, not 4.5"),  # type: ignore[arg-type]
]


@pytest.mark.parametrize("made, error, says", IMAGES)
def test_errors_of_images_and_programs(a: Image, made: Callable[[Image], object], error: type[Exception], says: str) -> None:
    before = a.program.text()
    with pytest.raises(error, match=says):
        made(a)
    assert a.program.text() == before


@pytest.mark.parametrize("name, says", [
    ("2a", "is not a Darkroom name: write an ASCII letter or _"),
    ("", "is not a Darkroom name: write an ASCII letter or _"),
    ("größe", "is not a Darkroom name: write an ASCII letter or _"),
    ("a\n", "is not a Darkroom name: write an ASCII letter or _"),
    ("n" * 65, "more than 64 characters"),
    ("select", "it is a word of the language"),
    ("x", "it is a word of the language"),
    ("u8", "it is a type"),
    ("s1", "it is a type"),
])
def test_names_that_are_not_names(program: Program, a: Image, name: str, says: str) -> None:
    declares: list[Callable[[], object]] = [
        lambda: program.input(name, u8), lambda: program.let(3, name=name), lambda: program.inline(3, name=name)]
    for declare in declares:
        with pytest.raises(ValueError, match=says):
            declare()
    with pytest.raises(TypeError, match="a name is a text, not int"):
        program.let(3, name=3)  # type: ignore[arg-type]


def test_names_that_look_like_types_are_names(program: Program) -> None:
    made = [program.let(3, name=name) for name in ("u65", "u0", "u08", "U8", "_", "Select")]
    assert [image.name for image in made] == ["u65", "u0", "u08", "U8", "_", "Select"]


def test_a_text_that_grows_too_long(a: Image) -> None:
    doubled = a(x, y)
    with pytest.raises(ValueError, match="give parts of it names with let"):
        for _ in range(40):
            doubled = (doubled + doubled).as_(u16)


def test_each_word_of_the_language_is_refused_as_a_name(program: Program) -> None:
    for word in "size input let inline im end output as select min max abs sat x y edge clamp".split():
        with pytest.raises(ValueError, match="it is a word of the language"):
            program.let(3, name=word)
