"""The types of the language: u1 to u64 and s1 to s64."""
from __future__ import annotations

from dataclasses import dataclass

MAX_BITS = 64


@dataclass(frozen=True)
class Type:
    """A type of whole numbers. `uN` holds 0 to 2^N - 1, and `sN` holds -2^(N-1) to 2^(N-1) - 1.

    `bits` is N. The type of an expression may have more than 64 bits. `dk` refuses such a program.
    """

    bits: int
    signed: bool

    @property
    def least(self) -> int:
        """The least number that the type holds."""
        return -(1 << (self.bits - 1)) if self.signed else 0

    @property
    def greatest(self) -> int:
        """The greatest number that the type holds."""
        return (1 << (self.bits - 1 if self.signed else self.bits)) - 1

    def __str__(self) -> str:
        return f"{'s' if self.signed else 'u'}{self.bits}"


def check_type(value: object) -> Type:
    """The type itself. Raises TypeError or ValueError if it is not one of u1 to u64 and s1 to s64."""
    if not isinstance(value, Type):
        raise TypeError(f"{value!r} is not a Darkroom type: write one of u1 to u64 or s1 to s64, as in darkroom.u8")
    if not 1 <= value.bits <= MAX_BITS:
        raise ValueError(f"there is no type {value}: a type has 1 to {MAX_BITS} bits")
    return value


def type_of_number(value: int) -> Type:
    """The smallest unsigned type that holds a literal. 0 is of `u1`."""
    return Type(max(1, value.bit_length()), False)


def common_type(left: Type, right: Type) -> Type:
    """The common type of two operands. In a mixed pair `uN` first becomes `s(N+1)`."""
    if left.signed == right.signed:
        return Type(max(left.bits, right.bits), left.signed)
    return Type(max(type.bits + (not type.signed) for type in (left, right)), True)


def type_of_sum(left: Type, right: Type) -> Type:
    """The type of `left + right`."""
    common = common_type(left, right)
    return Type(common.bits + 1, common.signed)


def type_of_difference(left: Type, right: Type) -> Type:
    """The type of `left - right`. It is signed."""
    return Type(common_type(left, right).bits + 1, True)


def type_of_product(left: Type, right: Type) -> Type:
    """The type of `left * right`."""
    return Type(left.bits + right.bits, left.signed or right.signed)


(
    u1, u2, u3, u4, u5, u6, u7, u8, u9, u10, u11, u12, u13, u14, u15, u16,
    u17, u18, u19, u20, u21, u22, u23, u24, u25, u26, u27, u28, u29, u30, u31, u32,
    u33, u34, u35, u36, u37, u38, u39, u40, u41, u42, u43, u44, u45, u46, u47, u48,
    u49, u50, u51, u52, u53, u54, u55, u56, u57, u58, u59, u60, u61, u62, u63, u64,
) = (Type(bits, False) for bits in range(1, MAX_BITS + 1))
(
    s1, s2, s3, s4, s5, s6, s7, s8, s9, s10, s11, s12, s13, s14, s15, s16,
    s17, s18, s19, s20, s21, s22, s23, s24, s25, s26, s27, s28, s29, s30, s31, s32,
    s33, s34, s35, s36, s37, s38, s39, s40, s41, s42, s43, s44, s45, s46, s47, s48,
    s49, s50, s51, s52, s53, s54, s55, s56, s57, s58, s59, s60, s61, s62, s63, s64,
) = (Type(bits, True) for bits in range(1, MAX_BITS + 1))
