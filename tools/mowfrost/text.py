"""Words of the input: how a message shows them, whole numbers of any length, and the mark before a text."""

from __future__ import annotations

from decimal import ROUND_UP, Context, Decimal
from fractions import Fraction

BYTE_ORDER_MARK = b"\xef\xbb\xbf"


def unmarked(data: bytes) -> bytes:
    """The bytes of a text without the mark that some programs put before it."""
    return data.removeprefix(BYTE_ORDER_MARK)


def cut_short(word: str) -> str:
    """A word, or where it is too long for a message its beginning."""
    return word if len(word) <= 40 else word[:40] + ".."


def quoted(word: str) -> str:
    """A word of the input as a message shows it: no control characters, not too long."""
    return repr(cut_short(word))


def whole(text: str) -> int:
    """A whole number; from 19 digits on only its sign and that it is huge (Python limits the length it reads)."""
    size = text.lstrip("+-").lstrip("0")
    value = int(size or "0") if len(size) <= 18 else 10**18
    return -value if text.startswith("-") else value


def rough(number: Fraction) -> str:
    """A number above zero in three digits, rounded up."""
    digits = Context(prec=3, rounding=ROUND_UP).divide(Decimal(number.numerator), Decimal(number.denominator))
    return format(digits.normalize(), "f")
