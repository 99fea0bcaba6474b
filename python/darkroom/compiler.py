"""Calls of the program `dk` (docs/COMMANDS.md).

A program's text is given to `dk` as a file in memory, and pictures go through pipes. No call leaves a process or a
file, even if it is interrupted.
"""
from __future__ import annotations

import fcntl
import operator
import os
import re
import shutil
import signal
import subprocess
from contextlib import contextmanager
from dataclasses import dataclass, field, replace
from pathlib import Path
from typing import Callable, Iterator, Mapping, Protocol, Sequence, SupportsIndex

from . import naming
from .commands import Commands
from .files import AnyPath, save
from .pictures import Array, PgmError, Pictures, decode_rounds, encode_rounds, gather
from .report import Nets, Report, parse, parse_nets

# What a program is

class Type(Protocol):
    """A type of the language: `bits` is its width."""

    @property
    def bits(self) -> int: ...

    @property
    def signed(self) -> bool: ...


class Port(Protocol):
    """An input or an output."""

    @property
    def name(self) -> str: ...

    @property
    def type(self) -> Type: ...


class Source(Protocol):
    """The file and the line, from 1, that wrote a line of a program's text."""

    @property
    def file(self) -> str: ...

    @property
    def line(self) -> int: ...


class Program(Protocol):
    """What this module reads of a program. `width` and `height` are pixels; `sources` has lines of the text, from 1."""

    def text(self) -> str: ...

    @property
    def inputs(self) -> Sequence[Port]: ...

    @property
    def outputs(self) -> Sequence[Port]: ...

    @property
    def width(self) -> int: ...

    @property
    def height(self) -> int: ...

    @property
    def sources(self) -> Mapping[int, Source]: ...


@dataclass(frozen=True)
class TextType:
    bits: int
    signed: bool = False


@dataclass(frozen=True)
class TextPort:
    name: str
    type: TextType


@dataclass(frozen=True)
class TextSource:
    file: str
    line: int


@dataclass(frozen=True)
class Text(Commands):
    """A program that is only a text: a file (`load`), or what `cut`, `narrow` and `widen` wrote.

    `files` are the files that it was made from. No call overwrites them.
    """

    content: str
    width: int
    height: int
    inputs: Sequence[TextPort]
    outputs: Sequence[TextPort]
    sources: Mapping[int, Source] = field(default_factory=dict)
    files: frozenset[str] = frozenset()

    def text(self) -> str:
        return self.content


@dataclass(frozen=True)
class Cut(Text):
    """What `cut` wrote.

    `levels` is the most levels of a body. `over` has the names of the bodies with more levels than requested, each with
    the reason of docs/CUT.md.
    """

    definitions: int = 0
    levels: int = 0
    over: tuple[tuple[str, str], ...] = ()


@dataclass(frozen=True)
class Narrowed(Text):
    """What `narrow` wrote: its buffer bits at age 0, and those `before`."""

    bits: int = 0
    before: int = 0


@dataclass(frozen=True)
class Widened(Text):
    """What `widen` wrote: its definitions, its buffer bits at age 0, those `before`, and its pixels per clock."""

    definitions: int = 0
    bits: int = 0
    before: int = 0
    phases: int = 0


# Failures

class Failure(Exception):
    """A call of `dk` that failed. `status` is its exit status, `answer` what it wrote to standard error."""

    means = "dk failed"

    def __init__(self, status: int, answer: str, text: str = "") -> None:
        # (`args` stays as the arguments of the class that was called, so that each failure can be pickled)
        self.status = status
        self.answer = answer
        self.text = text or f"{self.means}: {answer}"

    def __str__(self) -> str:
        return self.text


class NotFound(Failure):
    """There is no program `dk`, or it cannot be started."""

    means = "dk cannot be started"


class UsageError(Failure):
    means = "this dk does not accept the call; another version of it may be needed"


class ImageError(Failure):
    means = "dk refuses the pictures"


class ReadError(Failure):
    means = "dk cannot read; it needs /dev/fd and /dev/stdin"


class WriteError(Failure):
    means = "dk cannot write; it needs /dev/fd and /dev/stdout"


class OutOfMemory(Failure):
    means = "dk is out of memory"


class Rejected(Failure):
    """`check` found a wrong line in a report: `at` is its number from 1, or None if the report is too long."""

    means = "the report does not hold"

    def __init__(self, status: int, answer: str, text: str = "") -> None:
        super().__init__(status, answer, text)
        found = re.fullmatch("report: line ([0-9]+)", answer)
        self.at = int(found[1]) if found else None


class Unable(Failure):
    means = "dk cannot widen the program"


class Ended(Failure):
    """A signal ended `dk`, or it answered in a form that docs/COMMANDS.md does not have."""

    means = "dk ended in another way than docs/COMMANDS.md has"


_FAILURES: Mapping[int, Callable[[int, str], Failure]] = {
    1: NotFound, 2: UsageError, 4: ImageError, 7: ReadError, 8: WriteError, 9: OutOfMemory, 10: Rejected, 11: Unable,
    126: NotFound, 127: NotFound,
}


@dataclass(frozen=True)
class Message:
    """A message of `explain`. `line` and `column` count from 1; a fault of the whole text has neither, and no source."""

    kind: str
    sentence: str
    line: int | None
    column: int | None
    source: Source | None
    notes: tuple[str, ...]

    def __str__(self) -> str:
        head = f"{self.kind}: {self.sentence}"
        if self.line is None:
            return "\n".join([f"error: {head}", *self.notes])
        place = f"line {self.line}, column {self.column} of the Darkroom text"
        if self.source is None:
            return "\n".join([f"{place}: error: {head}", *self.notes])
        return "\n".join([f"{self.source.file}:{self.source.line}: error: {head}", f"  {place}:", *self.notes])


class Fault(Failure):
    """`dk` does not accept the program. The fields are those of the first message of `messages`.

    `kind` is the word of docs/LANGUAGE.md, "Faults"; `message` is the sentence on it; `line` and `column` are the place in
    the Darkroom text, from 1, or None; `source` is the file and the line that wrote it, or None.
    """

    def __init__(self, answer: str, messages: Sequence[Message]) -> None:
        super().__init__(3, answer, "\n".join(map(str, messages)))
        first = messages[0]
        self.messages = tuple(messages)
        self.kind = first.kind
        self.message = first.sentence
        self.line = first.line
        self.column = first.column
        self.source = first.source


# Calls

@dataclass(frozen=True)
class _Done:
    status: int
    out: bytes
    line: str


def find() -> Path:
    """The path of `dk`: the environment variable DK, else the checkout around this package, else the search path.

    In a checkout it is ./dk, or bin/dk if there is no ./dk. Raises `NotFound` if there is none.
    """
    named = os.environ.get("DK")
    if named:
        found = shutil.which(named)
        if found is None:
            raise NotFound(127, f"the environment variable DK is {named!r}, and there is no such program")
        return Path(found).absolute()
    top = Path(__file__).resolve().parents[2]
    for beside in (top / "dk", top / "bin" / "dk"):
        if beside.is_file() and os.access(beside, os.X_OK):
            return beside
    found = shutil.which("dk")
    if found is None:
        raise NotFound(127, "there is no program dk: install it by tools/install.sh, "
                            "or set the environment variable DK to it")
    return Path(found).absolute()


def _call(words: Sequence[str], files: Sequence[int] = (), images: bytes | None = None) -> _Done:
    """One call of `dk`, which inherits the descriptors `files` and reads `images` from standard input."""
    program = str(find())
    try:
        process = subprocess.Popen(
            [program, *words], stdin=subprocess.DEVNULL if images is None else subprocess.PIPE,
            stdout=subprocess.PIPE, stderr=subprocess.PIPE, pass_fds=files, start_new_session=True,
            env={**os.environ, "DK_EXPLAIN": "never"})
    except OSError as error:
        raise NotFound(127, f"{program!r}: {error.strerror}") from None
    try:
        out, faults = process.communicate(images)
    except BaseException:
        _end(process)
        raise
    return _Done(process.returncode, out, faults.decode("utf-8", "replace").strip())


def _end(process: subprocess.Popen[bytes]) -> None:
    """Ends a call with all its processes: `dk` may be a script."""
    if process.poll() is None:
        os.killpg(process.pid, signal.SIGKILL)
    process.wait()
    for pipe in (process.stdin, process.stdout, process.stderr):
        if pipe is not None:
            try:
                pipe.close()
            except OSError:
                pass


@contextmanager
def _in_memory(content: bytes = b"") -> Iterator[int]:
    """The descriptor of a file in memory with this content."""
    file = os.memfd_create("darkroom")
    if file < 3:
        # (a standard descriptor that is closed here: in `dk` it would be one of the pipes)
        low, file = file, fcntl.fcntl(file, fcntl.F_DUPFD_CLOEXEC, 3)
        os.close(low)
    try:
        with open(file, "wb", closefd=False) as writer:
            writer.write(content)
        yield file
    finally:
        os.close(file)


def _content(file: int) -> bytes:
    with open(file, "rb", closefd=False) as reader:
        reader.seek(0)
        return reader.read()


def _bytes(program: Program) -> bytes:
    return program.text().encode("utf-8", "surrogateescape")


def _need(program: Program, command: str, *words: str, more: Sequence[int] = (), images: bytes | None = None) -> bytes:
    """Standard output of a call on a program. The word `PROG` is replaced by the name of its text."""
    with _in_memory(_bytes(program)) as file:
        named = [f"/dev/fd/{file}" if word == "PROG" else word for word in words]
        done = _call([command, *named], [file, *more], images)
    if done.status == 3:
        raise _fault(program, done.line)
    if done.status:
        raise _FAILURES.get(done.status, Ended)(done.status, done.line or f"status {done.status}")
    return done.out


# Faults

_SPAN = re.compile(r"program [0-9]+-[0-9]+: (\w+)")
_WHOLE = re.compile(r"program: (\w+) ([0-9]+)")


def _fault(program: Program, line: str) -> Failure:
    """The fault with this line, with the messages of `explain` if that has the same fault: it judges at age 0."""
    found = _SPAN.fullmatch(line) or _WHOLE.fullmatch(line)
    if not found:
        return Ended(3, line)
    explained = messages(program)
    if explained and explained[0].kind == found[1]:
        return Fault(line, explained)
    return Fault(line, [Message(found[1], line, None, None, None, ())])


def messages(program: Program) -> list[Message]:
    """The messages of `dk explain`, in order: none if the program is accepted."""
    with _in_memory(_bytes(program)) as file:
        done = _call(["explain", f"/dev/fd/{file}"], [file])
        if done.status not in (0, 3):
            raise _FAILURES.get(done.status, Ended)(done.status, done.line)
        head = re.compile(rf"/dev/fd/{file}:([0-9]+):([0-9]+): error: (\w+): (.*)")
    whole = _WHOLE.fullmatch(done.line) is not None
    found: list[Message] = []
    for line in done.out.decode("ascii", "replace").splitlines():
        match = head.fullmatch(line)
        if match:
            at, column = (None, None) if whole and not found else (int(match[1]), int(match[2]))
            found.append(Message(match[3], match[4], at, column, None if at is None else _source(program, at), ()))
        elif found:
            last = found.pop()
            found.append(Message(last.kind, last.sentence, last.line, last.column, last.source, (*last.notes, line)))
    return found


def _source(program: Program, line: int) -> Source | None:
    """What wrote a line of the text: the source of the last line up to it that has one."""
    lines = [at for at in program.sources if at <= line]
    return program.sources[max(lines)] if lines else None


def explain(program: Program) -> str:
    """The messages of `dk explain` as a text, each with the place in Python first; empty if the program is accepted."""
    return "".join(f"{message}\n" for message in messages(program))


# Commands

def _number(name: str, value: SupportsIndex, least: int, most: int) -> str:
    number = operator.index(value)
    if isinstance(value, bool) or not least <= number <= most:
        raise ValueError(f"{name} is {least} to {most}, not {value}")
    return str(number)


def _options(enable: bool, age: int, block: int | None) -> list[str]:
    """The options that `compile` and `nets` share."""
    words = ["--enable"] if enable else []
    words += ["--age", _number("age", age, 0, 64)]
    return words if block is None else [*words, "--block", _number("block", block, 2, 67_108_864)]


def evaluate(program: Program, pictures: Pictures) -> Array | dict[str, Array]:
    """The pictures of the program's meaning, without a circuit.

    `pictures` is an array (height, width) or (rounds, height, width) of an unsigned type if there is one input, else a
    mapping from the names of the inputs to arrays. The answer has the same form: an array if there is one output, else a
    dict by name, of type uint8 or uint16. Raises TypeError or ValueError before `dk` is called if a picture does not fit,
    `Fault` if the program is not accepted, and other exceptions of `Failure`.
    """
    return _show(program, pictures, "eval")


def run(program: Program, pictures: Pictures, age: int = 0) -> Array | dict[str, Array]:
    """The same pictures as those of `evaluate`, clocked through the printed Verilog. `age` is 0 to 64 clocks."""
    return _show(program, pictures, "run", "--age", _number("age", age, 0, 64))


def _show(program: Program, pictures: Pictures, *words: str) -> Array | dict[str, Array]:
    size = (program.height, program.width)
    inputs = [(port.name, port.type.bits) for port in program.inputs]
    if not inputs or max(bits for _, bits in inputs) > 16:
        # (no picture fits such a program, which is a fault)
        plan(program)
    arrays, is_single = gather(inputs, size, pictures)
    images = encode_rounds(arrays, [bits for _, bits in inputs])
    content = _need(program, *words, "PROG", "/dev/stdin", "/dev/stdout", images=images)
    names = [port.name for port in program.outputs]
    try:
        shown = decode_rounds(content, size, len(names))
    except PgmError as error:
        raise Ended(0, f"pictures of another form: {error}") from None
    by_name = {name: array[0] if is_single else array for name, array in zip(names, shown)}
    return by_name[names[0]] if len(names) == 1 else by_name


def plan(program: Program, age: int = 0) -> Report:
    """The report of `plan`: delays, depths, latencies and buffer bits, with their certificate. `age` is 0 to 64 clocks."""
    return parse(_need(program, "plan", "--age", _number("age", age, 0, 64), "PROG").decode("ascii"))


@dataclass(frozen=True)
class Held:
    """A report that holds: its buffer bits, and the latency of the first output in clocks."""

    bits: int
    latency: int


def check(program: Program, report: Report | str) -> Held:
    """Judges a report, whoever made it. Raises `Rejected` with the first wrong line."""
    text = report if isinstance(report, str) else report.text()
    with _in_memory(text.encode("utf-8", "surrogateescape")) as file:
        answer = _need(program, "check", "PROG", f"/dev/fd/{file}", more=[file])
    bits, latency = _figures("report holds: bits ([0-9]+) latency ([0-9]+)", answer)
    return Held(bits, latency)


def nets(program: Program, enable: bool = False, age: int = 0, block: int | None = None) -> Nets:
    """Which net of the text that `compile` writes with these options has which image."""
    return parse_nets(_need(program, "nets", *_options(enable, age, block), "PROG").decode("ascii"))


def compile(program: Program, path: AnyPath | None = None, enable: bool = False, age: int = 0,
            block: int | None = None, module: str | None = None, ports: Mapping[str, str] | None = None) -> str:
    """The Verilog text of the program, which is also written to `path` if that is given.

    `enable` adds a clock enable, `age` is 0 to 64 clocks, `block` fits arrays of this many words or more to block memory.
    `module` and `ports` give names (naming.py), below a comment of the ports. Without them the text is as `dk` printed it.
    The file is written beside and renamed. Raises ValueError if `path` is a file that the program was made from, and
    OSError if it cannot be written.
    """
    options = _options(enable, age, block)
    if path is not None:
        _refuse_input(program, path)
    content = _need(program, "compile", *options, "PROG", "/dev/stdout")
    if module is not None or ports:
        latencies = plan(program, age).latencies
        content = naming.named(program, content.decode("ascii"), latencies, module, ports or {}).encode("ascii")
    if path is not None:
        save(path, content)
    return content.decode("ascii")


def written(program: Program, path: AnyPath | None, text: str, inputs: Sequence[AnyPath] = ()) -> str:
    """The text, which is also written to `path` if that is given.

    Raises ValueError if `path` is a file that the program was made from, or one of `inputs`.
    """
    if path is not None:
        _refuse_input(program, path, inputs)
        save(path, text.encode("utf-8", "surrogateescape"))
    return text


def _files(program: Program) -> frozenset[str]:
    """The files that the program was made from."""
    files = program.files if isinstance(program, Text) else frozenset()
    return files | {source.file for source in program.sources.values()}


def _refuse_input(program: Program, path: AnyPath, inputs: Sequence[AnyPath] = ()) -> None:
    if os.path.exists(path):
        for file in [*_files(program), str(find()), *inputs]:
            if os.path.exists(file) and os.path.samefile(file, path):
                raise ValueError(f"{os.fspath(path)!r} is an input of this call and would be overwritten")


def trace(verilog: str, clocks: int, images: bytes) -> str:
    """The value change dump of a Verilog text, driven over the images of a PGM file. `clocks` is 0 to 100,000,000.

    Raises exceptions of `Failure`, with `Ended` if the text stops or is not in the subset.
    """
    count = _number("clocks", clocks, 0, 100_000_000)
    with _in_memory(verilog.encode("ascii")) as file:
        done = _call(["trace", f"/dev/fd/{file}", count, "/dev/stdin", "/dev/stdout"], [file], images)
    if done.status:
        raise _FAILURES.get(done.status, Ended)(done.status, done.line or f"status {done.status}")
    return done.out.decode("ascii")


# Other programs

def _figures(form: str, answer: bytes) -> list[int]:
    line = answer.decode("ascii", "replace").rstrip("\n")
    found = re.fullmatch(form, line)
    if not found:
        raise Ended(0, f"an answer of another form: {line!r}")
    return [int(figure) for figure in found.groups()]


def _rewrite(program: Program, *words: str) -> tuple[str, bytes]:
    """The text that a command writes, and what it reports."""
    with _in_memory() as file:
        answer = _need(program, *words, "PROG", f"/dev/fd/{file}", more=[file])
        return _content(file).decode("utf-8", "surrogateescape"), answer


def _ports(ports: Sequence[Port]) -> tuple[TextPort, ...]:
    return tuple(TextPort(port.name, TextType(port.type.bits, port.type.signed)) for port in ports)


def cut(program: Program, levels: int) -> Cut:
    """The program with bodies of at most `levels` levels of operators, 1 to 64, as far as they can be cut (docs/CUT.md)."""
    text, answer = _rewrite(program, "cut", _number("levels", levels, 1, 64))
    first, _, second = answer.partition(b"\n")
    definitions, most = _figures("cut: definitions ([0-9]+) levels ([0-9]+)", first)
    _figures(rf"(?:cut: over {levels}:(?: \w+ (?:operator|name|limit|moved|unconfirmed))+)?", second)
    words = second.decode("ascii").split()[3:]
    return Cut(text, program.width, program.height, _ports(program.inputs), _ports(program.outputs),
               files=_files(program), definitions=definitions, levels=most, over=tuple(zip(words[::2], words[1::2])))


def narrow(program: Program) -> Narrowed:
    """The program with images of fewer bits, where an analysis of their values allows it."""
    text, answer = _rewrite(program, "narrow")
    bits, before = _figures(r"narrow: bits ([0-9]+) from ([0-9]+)(?:\nnarrow: wider:.*)?", answer)
    return Narrowed(text, program.width, program.height, _ports(program.inputs), _ports(program.outputs),
                    files=_files(program), bits=bits, before=before)


def widen(program: Program, phases: int) -> Widened:
    """The program that reads and shows `phases` pixels per clock, 2 to 8 (docs/WIDEN.md).

    Each input and output becomes as many: `pictures.split` and `pictures.join` make and join their pictures. Raises
    `Unable` if `phases` does not divide the width, or a limit is exceeded.
    """
    text, answer = _rewrite(program, "widen", _number("phases", phases, 2, 8))
    definitions, bits, before = _figures("widen: definitions ([0-9]+) bits ([0-9]+) from ([0-9]+)", answer)
    whole = parse_text(text)
    return Widened(text, whole.width, whole.height, whole.inputs, whole.outputs, files=_files(program),
                   definitions=definitions, bits=bits, before=before, phases=phases)


def parse_text(content: str, sources: Mapping[int, Source] | None = None, files: frozenset[str] = frozenset()) -> Text:
    """The program of a text: `dk` names its size, inputs and outputs. Raises `Fault` if it is not accepted."""
    bare = Text(content, 0, 0, (), (), sources or {}, files)
    report, named = plan(bare), nets(bare)
    inputs = tuple(TextPort(image.name, TextType(image.width)) for image in named.inputs)
    outputs = tuple(TextPort(output.name, TextType(report.images[output.name].width)) for output in named.outputs)
    return replace(bare, width=report.width, height=report.height, inputs=inputs, outputs=outputs)


def load(path: AnyPath) -> Text:
    """The program of a file. A fault shows the line of the file.

    Raises OSError if the file cannot be read, and `Fault` if the program is not accepted.
    """
    file = os.fspath(path)
    content = Path(path).read_bytes().decode("utf-8", "surrogateescape")
    sources = {at: TextSource(file, at) for at in range(1, content.count("\n") + 2)}
    return parse_text(content, sources, frozenset({file}))
