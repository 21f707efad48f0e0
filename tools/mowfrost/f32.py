"""f32 numbers as text: the f32 nearest to a decimal number, and the shortest decimal that names an f32."""

# Python's own road from text to f32 goes by f64 and rounds twice: 1.00000017881393432617187499 then becomes 3f800002
# although 3f800001 is nearer. So the rounding here is done on whole numbers, once.

from __future__ import annotations

import itertools
import re
import struct
from decimal import ROUND_DOWN, ROUND_UP, Context, Decimal
from fractions import Fraction

from mowfrost.text import quoted, whole

SIGN = 0x80000000
INFINITE = 0x7F800000

NUMBER = re.compile(r"([+-]?)(?=\.?[0-9])([0-9]*)(?:\.([0-9]*))?(?:[eE]([+-]?[0-9]+))?")

# Outside these powers of ten every f32 is 0, or there is none: so an exponent of many digits costs nothing.
LEAST_POWER, GREATEST_POWER = -45, 39

ANYWHERE = Fraction(2**128)  # no f32 lies so far from another of its sign


def is_number(text: str) -> bool:
    """Whether the text is a decimal number, with or without a point and an exponent."""
    return NUMBER.fullmatch(text) is not None


def exact(text: str) -> Fraction:
    """The decimal number itself, or 0 where it is far below all f32; a ValueError says why there is none."""
    match = NUMBER.fullmatch(text)
    if match is None:
        raise ValueError(f"{quoted(text)} is not a number")
    _, before, behind, exponent = match.groups(default="")
    digits = (before + behind).lstrip("0")
    above = len(digits) + whole(exponent) - len(behind)  # below 10 to this power, and not below a tenth of that
    if not digits or above < LEAST_POWER:
        return Fraction(0)
    if above > GREATEST_POWER:
        raise ValueError(f"{quoted(text)} is too large for an f32")
    return Fraction(Decimal(text))


def from_text(text: str, less: int = 0) -> int:
    """The bits of the f32 nearest to a decimal number less a whole one, ties to even; a ValueError says why none."""
    number = exact(text) - less
    size = nearest(abs(number))
    if size == INFINITE:
        raise ValueError(f"{quoted(text)}{f' less {less}' if less else ''} is too large for an f32")
    # What is rounded to zero keeps its sign, and so does a zero that nothing is taken off.
    return size | SIGN if number < 0 or (less == 0 and text.startswith("-")) else size


def nearest(number: Fraction) -> int:
    """The bits of the f32 nearest to a number that is not below zero, ties to even; INFINITE where it is too large."""
    return nearest_ratio(number.numerator, number.denominator) if number else 0


def nearest_ratio(top: int, bottom: int) -> int:
    """The bits of the f32 nearest to top / bottom, both above zero, ties to even; INFINITE where it is too large."""
    power = top.bit_length() - bottom.bit_length()
    high, low = times_power(top, bottom, -power)
    if high < low:
        power -= 1
    power = max(power, -126)  # below this f32 numbers lie no closer together
    high, low = times_power(top, bottom, 23 - power)
    count, rest = divmod(high, low)
    if 2 * rest > low or (2 * rest == low and count % 2 == 1):
        count += 1
    # The first digit of a normal number adds one to the exponent, and so does a carry.
    return min(((power + 126) << 23) + count, INFINITE)


def times_power(top: int, bottom: int, power: int) -> tuple[int, int]:
    """The ratio top / bottom times 2 to the power, as a ratio."""
    return top << max(power, 0), bottom << max(-power, 0)


def value(bits: int) -> float:
    """The number that the bits stand for; every f32 is also an f64, so nothing is lost."""
    return struct.unpack("<f", struct.pack("<I", bits))[0]


def is_finite(bits: int) -> bool:
    """Whether the bits are a number, not an infinity or a NaN."""
    return bits & INFINITE != INFINITE


def shortest(bits: int) -> str:
    """The shortest decimal whose nearest f32 has these bits, of these the nearest, ties to even; -0 is written 0."""
    text = to_text(bits)
    return "0" if text == "-0" else text


def to_text(bits: int, farthest: Fraction = ANYWHERE) -> str:
    """The way back from from_text: the shortest decimal of a finite f32, of these the nearest, ties to even; -0 is -0.
    Where it may not lie farther off than so much, it has as many more digits as that takes."""
    size = bits & ~SIGN
    if not is_finite(size):
        raise ValueError(f"{bits:08x} is no number but an infinity or a NaN")
    return ("-" if bits & SIGN else "") + (written(shortest_decimal(size, farthest)) if size else "0")


def shortest_decimal(size: int, farthest: Fraction) -> Decimal:
    """The decimal of to_text, for bits of a number above zero."""
    exact = Decimal(value(size))
    # Of the decimals of one length the two beside the number are tried: at a power of two the nearer one may fall
    # short and the other not. Nine digits tell all f32 apart, and with all its digits a decimal is the number itself.
    for length in itertools.count(1):
        beside = (Context(prec=length, rounding=way).create_decimal(exact) for way in (ROUND_DOWN, ROUND_UP))
        same = (decimal for decimal in beside if from_decimal(decimal) == size)
        found = [(abs(Fraction(one) - Fraction(exact)), one.as_tuple().digits[-1] % 2, one) for one in same]
        if found and min(found)[0] <= farthest:
            return min(found)[2]


def from_decimal(number: Decimal) -> int:
    """The bits of the f32 nearest to a decimal that is not below zero."""
    return nearest(Fraction(number))


def written(number: Decimal) -> str:
    """Plainly where that is readable, else with an exponent."""
    if -6 <= number.adjusted() < 16:
        return format(number, "f")
    return f"{number:e}"
