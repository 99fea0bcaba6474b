"""Darkroom programs in Python: builds program texts, calls `dk`, and takes and gives arrays.

    from darkroom import Program, u8, x, y

    p = Program(640, 480)
    a = p.input("a", u8)
    p.output(p.let((a(x-1, y) + a(x, y) + a(x+1, y)) // 3, u8, name="mean"))
    print(p)

`min`, `max` and `abs` of the language have the names of Python's own. So `from darkroom import *` leaves them out: write
darkroom.min, darkroom.max, darkroom.abs.
"""
from .compiler import Failure, Fault, Text, load
from .language import Expression, Image, Input, Program, Source, number, sat, select, x, y
from .language import abs as abs
from .language import max as max
from .language import min as min
from .pictures import read, read_colour, write, write_colour
from .report import Report
from .value_types import *
from .value_types import Type

__all__ = [
    "Expression", "Failure", "Fault", "Image", "Input", "Program", "Report", "Source", "Text", "Type",
    "load", "number", "read", "read_colour", "sat", "select", "write", "write_colour", "x", "y",
    "u1", "u2", "u3", "u4", "u5", "u6", "u7", "u8", "u9", "u10", "u11", "u12", "u13", "u14", "u15", "u16",
    "u17", "u18", "u19", "u20", "u21", "u22", "u23", "u24", "u25", "u26", "u27", "u28", "u29", "u30", "u31", "u32",
    "u33", "u34", "u35", "u36", "u37", "u38", "u39", "u40", "u41", "u42", "u43", "u44", "u45", "u46", "u47", "u48",
    "u49", "u50", "u51", "u52", "u53", "u54", "u55", "u56", "u57", "u58", "u59", "u60", "u61", "u62", "u63", "u64",
    "s1", "s2", "s3", "s4", "s5", "s6", "s7", "s8", "s9", "s10", "s11", "s12", "s13", "s14", "s15", "s16",
    "s17", "s18", "s19", "s20", "s21", "s22", "s23", "s24", "s25", "s26", "s27", "s28", "s29", "s30", "s31", "s32",
    "s33", "s34", "s35", "s36", "s37", "s38", "s39", "s40", "s41", "s42", "s43", "s44", "s45", "s46", "s47", "s48",
    "s49", "s50", "s51", "s52", "s53", "s54", "s55", "s56", "s57", "s58", "s59", "s60", "s61", "s62", "s63", "s64",
]
