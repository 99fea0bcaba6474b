"""Names of the user's for the module and the ports of a Verilog text that `dk` printed.

Only whole tokens are replaced, and the new text is compared with the printed one token by token.
"""
from __future__ import annotations

import re
from dataclasses import dataclass
from typing import TYPE_CHECKING, Mapping, Sequence

from .templating import render

if TYPE_CHECKING:
    from .compiler import Program

_TOKEN = re.compile(r"[A-Za-z_][A-Za-z0-9_$]*|[0-9]*'[a-z]+[0-9a-fA-F]+|[0-9]+|\s+|[^\s\w]")
_NAME = re.compile("[A-Za-z_][A-Za-z0-9_]*")
# The words of Verilog 2005 that no port may have as its name.
_RESERVED = frozenset("""
always and assign automatic begin buf bufif0 bufif1 case casex casez cell cmos config deassign default defparam design
disable edge else end endcase endconfig endfunction endgenerate endmodule endprimitive endspecify endtable endtask event
for force forever fork function generate genvar highz0 highz1 if ifnone incdir include initial inout input instance
integer join large liblist library localparam macromodule medium module nand negedge nmos nor noshowcancelled not notif0
notif1 or output parameter pmos posedge primitive pull0 pull1 pulldown pullup pulsestyle_ondetect pulsestyle_onevent
rcmos real realtime reg release repeat rnmos rpmos rtran rtranif0 rtranif1 scalared showcancelled signed small specify
specparam strong0 strong1 supply0 supply1 table task time tran tranif0 tranif1 tri tri0 tri1 triand trior trireg
unsigned use uwire vectored wait wand weak0 weak1 while wire wor xnor xor
""".split())


@dataclass(frozen=True)
class _Shown:
    """A port as the comment shows it: its width in bits, and for an output its latency in clocks."""

    name: str
    bits: int
    data: str
    valid: str = ""
    latency: int = 0


def named(program: Program, verilog: str, latencies: Sequence[int], module: str | None, ports: Mapping[str, str]) -> str:
    """The printed text under these names, below a comment of its size, its ports in order and their latencies in clocks.

    A key of `ports` is an input or output of the program, which stands for its data, or a printed port as `clk` or `valid1`.
    Raises ValueError for a key that no port or more than one port has, and for a new name that cannot be used.
    """
    names = _new_names(program, verilog, module, ports)
    changed = _renamed(verilog, names)

    def new(port: str) -> str:
        return names.get(port, port)

    inputs = [_Shown(port.name, port.type.bits, new(_numbered("din", k))) for k, port in enumerate(program.inputs)]
    outputs = [_Shown(port.name, port.type.bits, new(_numbered("dout", k)), new(_numbered("valid", k)), latency)
               for k, (port, latency) in enumerate(zip(program.outputs, latencies, strict=True))]
    return render("named.v", module=new("dk"), width=program.width, height=program.height, inputs=inputs, outputs=outputs, verilog=changed)


def _numbered(port: str, k: int) -> str:
    return f"{port}{k or ''}"


def _tokens(verilog: str) -> list[str]:
    found = _TOKEN.findall(verilog)
    if "".join(found) != verilog:
        raise ValueError("the printed text has a token that is not known here")
    return found


def _new_names(program: Program, verilog: str, module: str | None, ports: Mapping[str, str]) -> dict[str, str]:
    """The new name of each printed name that changes."""
    printed = set(_tokens(verilog.split(";", 1)[0])) & _of_ports(program)
    names = {} if module is None else {"dk": module}
    for key, name in ports.items():
        port = _printed(program, printed, key)
        if port in names:
            raise ValueError(f"the port {port} is given two names")
        names[port] = name
    _refuse_names(names, set(_tokens(verilog)) - set(names))
    return names


def _of_ports(program: Program) -> set[str]:
    """What the ports of a program may be called in the printed text."""
    outputs = range(len(program.outputs))
    return {"clk", "rst", "en", *(_numbered("din", k) for k in range(len(program.inputs))),
            *(_numbered(side, k) for side in ("valid", "dout") for k in outputs)}


def _printed(program: Program, printed: set[str], key: str) -> str:
    """The printed port that a key stands for."""
    found = [key] if key in printed else []
    found += [_numbered("din", k) for k, port in enumerate(program.inputs) if port.name == key]
    found += [_numbered("dout", k) for k, port in enumerate(program.outputs) if port.name == key]
    if len(set(found)) != 1:
        what = f"may be each of {', '.join(found)}" if found else f"is not one of {', '.join(sorted(printed))}"
        raise ValueError(f"the port {key!r} {what}")
    return found[0]


def _refuse_names(names: Mapping[str, str], kept: set[str]) -> None:
    for name in names.values():
        if not _NAME.fullmatch(name) or name in _RESERVED:
            raise ValueError(f"{name!r} is not a name of Verilog")
        if name in kept or list(names.values()).count(name) > 1:
            raise ValueError(f"the name {name!r} is used twice in the module")


def _renamed(verilog: str, names: Mapping[str, str]) -> str:
    """The text with new names. Read again, it is the printed text with the old ones."""
    changed = "".join(names.get(token, token) for token in _tokens(verilog))
    back = {new: old for old, new in names.items()}
    if [back.get(token, token) for token in _tokens(changed)] != _tokens(verilog):
        raise ValueError("the names change more than names")
    return changed
