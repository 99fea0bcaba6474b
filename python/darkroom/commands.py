"""The commands of `dk` as methods of a program. compiler.py does the work, and its docstrings have the details."""
from __future__ import annotations

from typing import TYPE_CHECKING, Mapping

if TYPE_CHECKING:
    from . import compiler
    from .files import AnyPath
    from .pictures import Array, Pictures
    from .report import Report


class Commands:
    """The methods that call `dk` on a program. Each raises `darkroom.Fault` if `dk` does not accept the program.

    A subclass has what `compiler.Program` names: the text, its size, its inputs, outputs and sources.
    """

    def eval(self: compiler.Program, *pictures: Pictures, **named: Array) -> Array | dict[str, Array]:
        """The pictures of the program's meaning, computed without a circuit.

        A picture is an array (height, width), or (rounds, height, width), of an unsigned type. It needs no name if there
        is one input; else each has the name of its input, here or in a mapping. The answer is an array if there is one
        output, else a dict by name. Raises TypeError or ValueError if a picture does not fit.
        """
        from . import compiler
        return compiler.evaluate(self, _pictures(pictures, named))

    def run(self: compiler.Program, *pictures: Pictures, age: int = 0, **named: Array) -> Array | dict[str, Array]:
        """The same pictures as those of `eval`, clocked through the printed Verilog. `age` is 0 to 64 clocks."""
        from . import compiler
        return compiler.run(self, _pictures(pictures, named), age=age)

    def plan(self: compiler.Program, age: int = 0) -> Report:
        """Delays and latencies in clocks, buffer bits, and the certificate that the bits are minimal."""
        from . import compiler
        return compiler.plan(self, age=age)

    def check(self: compiler.Program, report: Report | str) -> compiler.Held:
        """Judges a report of `plan`, whoever made it. Raises `compiler.Rejected` with the first wrong line."""
        from . import compiler
        return compiler.check(self, report)

    def explain(self: compiler.Program) -> str:
        """The faults of the program, each with its place in Python and what helps; empty if it is accepted."""
        from . import compiler
        return compiler.explain(self)

    def compile(self: compiler.Program, path: AnyPath | None = None, *, enable: bool = False, age: int = 0,
                block: int | None = None, module: str | None = None, ports: Mapping[str, str] | None = None) -> str:
        """The Verilog text, which is also written to `path`.

        `enable` adds a clock enable. With `age=1` each read is at least one clock old. `block=32` fits arrays of 32 words
        or more to block memory. `module="blur", ports={"a": "pixel_in"}` names the module and its ports.
        """
        from . import compiler
        return compiler.compile(self, path, enable=enable, age=age, block=block, module=module, ports=ports)

    def draw(self: compiler.Program, path: AnyPath | None = None, *, age: int = 0) -> str:
        """The plan as SVG: line buffers as bars, live reads as arrows. It is also written to `path`."""
        from . import compiler, drawing
        return compiler.written(self, path, drawing.draw(compiler.plan(self, age), compiler.nets(self, age=age)))

    def look(self: compiler.Program, path: AnyPath | None, *pictures: Pictures, age: int = 0, **named: Array) -> str:
        """One HTML page with the picture of each kept image, the plan and the text. It is also written to `path`."""
        from . import compiler, page
        return compiler.written(self, path, page.page(self, _pictures(pictures, named), age=age))

    def cut(self: compiler.Program, levels: int) -> compiler.Cut:
        """The program with bodies of at most `levels` levels of operators, for a higher clock rate (docs/CUT.md)."""
        from . import compiler
        return compiler.cut(self, levels)

    def narrow(self: compiler.Program) -> compiler.Narrowed:
        """The program with images of fewer bits, where an analysis of their values allows it."""
        from . import compiler
        return compiler.narrow(self)

    def widen(self: compiler.Program, phases: int) -> compiler.Widened:
        """The program that takes `phases` pixels a clock, 2 to 8 (docs/WIDEN.md)."""
        from . import compiler
        return compiler.widen(self, phases)


def _pictures(pictures: tuple[Pictures, ...], named: dict[str, Array]) -> Pictures:
    """The pictures of a call: one without a name, or all by name."""
    if not pictures:
        return named
    if len(pictures) > 1 or named:
        raise TypeError("give one picture, or each picture by the name of its input: p.eval(left=a, right=b)")
    return pictures[0]
