"""Reads the listing that `takeoff` prints (docs/FORMAT.md, 'The listing'), or says which line makes it none."""

from __future__ import annotations

import re
from dataclasses import dataclass
from typing import Callable

from mowfrost import f32
from mowfrost.meshfile import DEFECTS
from mowfrost.text import quoted, unmarked

BITS = re.compile(r"[0-9a-f]{8}")
COUNT = re.compile(r"0|[1-9][0-9]{0,9}")
REFUSED = re.compile(r"refused (0|[1-9][0-9]{0,9})")

# Takes a line's value and says why it is none, or None.
Check = Callable[[str], "str | None"]


class NotAListing(Exception):
    """The line that is wrong, and why."""

    def __init__(self, line: int, reason: str) -> None:
        super().__init__(f"line {line}: {reason}")


@dataclass(frozen=True)
class Refused:
    """`refused N`."""

    number: int


@dataclass(frozen=True)
class Listing:
    """The values by name, as they are written, and the rows: area, nx, ny, nz."""

    values: dict[str, str]
    rows: list[list[str]]


def bits(value: str) -> str | None:
    """f32 bits of a finite number; the program prints no other."""
    if not BITS.fullmatch(value):
        return f"{quoted(value)} is not eight hex digits in lower case"
    return None if f32.is_finite(int(value, 16)) else f"{value} is no number but an infinity or a NaN"


def bits_or_none(value: str) -> str | None:
    """f32 bits, or the word none."""
    return None if value == "none" else bits(value)


def count(value: str) -> str | None:
    """A decimal count."""
    return None if COUNT.fullmatch(value) else f"{quoted(value)} is not a count"


def one_of(*names: str) -> Check:
    """One of these words."""
    return lambda value: None if value in names else f"{quoted(value)} is none of {', '.join(names)}"


FIELDS: dict[str, Check] = {
    "quality": one_of("closed", "open_shell", "degenerate"),
    "reliable": one_of("0", "1"),
    "method": one_of("mesh", "mesh_open", "prism_fallback", "mesh_unclipped", "mesh_profile_invalid"),
    "profile": one_of("none", *DEFECTS),
    "volume": bits,
    "aabb": bits,
    "surface": bits,
    "top": bits,
    "bottom": bits,
    "side": bits,
    "inclined": bits,
    "largest": bits,
    "smallest": bits,
    "best": bits,
    "prism": bits_or_none,
    "pieces": count,
    "used": count,
    "range": count,
    "sliver": count,
    "surfaces": count,
}


def parse(data: bytes) -> Listing | Refused:
    """The listing or the refusal that the text is; NotAListing names the first line that is wrong."""
    lines = [line.decode("utf-8", "replace") for line in unmarked(data).splitlines()]
    if lines and lines[0].split(" ")[0] == "refused":
        refused = refusal(lines[0])
        check_end(lines, 1)
        return refused
    values = {name: value_of(lines, at, name) for at, name in enumerate(FIELDS)}
    rows = [row(lines, len(FIELDS) + at, values["surfaces"]) for at in range(int(values["surfaces"]))]
    check_end(lines, len(FIELDS) + len(rows))
    return Listing(values, rows)


def refusal(line: str) -> Refused:
    """The number of a refusal."""
    match = REFUSED.fullmatch(line)
    if match is None:
        raise NotAListing(1, f"{quoted(line)} is not 'refused' and a number")
    return Refused(int(match[1]))


def value_of(lines: list[str], at: int, name: str) -> str:
    """The value of the line with this name, which has to be the one at this place."""
    if at >= len(lines):
        raise NotAListing(at + 1, f"the listing ends; '{name}' is missing")
    word, _, value = lines[at].partition(" ")
    if word != name:
        raise NotAListing(at + 1, f"'{name}' belongs here, not {quoted(lines[at])}")
    reason = FIELDS[name](value)
    if reason is not None:
        raise NotAListing(at + 1, f"{name}: {reason}")
    return value


def row(lines: list[str], at: int, announced: str) -> list[str]:
    """The surface row at this place."""
    if at >= len(lines):
        raise NotAListing(at + 1, f"the listing ends after {at - len(FIELDS)} of {announced} rows")
    numbers = lines[at].split(" ")
    if len(numbers) != 4:
        raise NotAListing(at + 1, f"a row of four numbers belongs here, not {quoted(lines[at])}")
    for number in numbers:
        reason = bits(number)
        if reason is not None:
            raise NotAListing(at + 1, f"row: {reason}")
    return numbers


def check_end(lines: list[str], length: int) -> None:
    """Nothing stands behind."""
    if len(lines) > length:
        raise NotAListing(length + 1, f"the listing has ended, yet here is {quoted(lines[length])}")
