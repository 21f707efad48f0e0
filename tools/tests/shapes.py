"""Solids as OBJ text, and what the triangles of a mesh file measure by a plain sum: no part of the tools is asked."""

from __future__ import annotations

import math
import struct
from fractions import Fraction
from typing import Iterable, Sequence

Corner = Sequence[object]  # x, y (and z), each written as it is printed


def prism(base: Sequence[Corner], low: object, high: object) -> str:
    """An upright prism on a polygon that goes to the left: bottom and top are one polygon each, the sides quads."""
    count = len(base)
    vertices = [f"v {x} {y} {z}" for z in (low, high) for x, y in base]
    around = range(1, count + 1)
    bottom = " ".join(str(at) for at in reversed(around))
    top = " ".join(str(count + at) for at in around)
    sides = [f"f {at} {at % count + 1} {count + at % count + 1} {count + at}" for at in around]
    return "\n".join([*vertices, f"f {bottom}", f"f {top}", *sides]) + "\n"


def turned(line: str, by: int) -> str:
    """A face that begins with another of its corners."""
    keyword, *corners = line.split()
    return " ".join([keyword, *corners[by:], *corners[:by]])


def amounts(data: bytes) -> tuple[float, Fraction]:
    """Area and volume of a mesh file in units of the model; the volume is exact."""
    _, floats, ids = payloads(data)
    points = [tuple(map(Fraction, floats[at : at + 3])) for at in range(0, len(floats), 3)]
    corners = [[points[id_] for id_ in ids[at : at + 3]] for at in range(0, len(ids), 3)]
    area = math.fsum(math.sqrt(sum(n * n for n in cross(minus(b, a), minus(c, a)))) / 2 for a, b, c in corners)
    return area, sum((inner(a, cross(b, c)) for a, b, c in corners), Fraction(0)) / 6


def payloads(data: bytes) -> tuple[float, list[float], list[int]]:
    """Unit, floats and ids of a mesh file without flags."""
    parts = []
    for kind, form in ((1, "f"), (2, "f"), (3, "I")):
        length, found = struct.unpack_from("<IH", data)
        assert found == kind
        parts.append(list(struct.unpack_from(f"<{length // 4}{form}", data, 6)))
        data = data[6 + length :]
    assert not data
    return parts[0][0], parts[1], parts[2]


def minus(a: Iterable[Fraction], b: Iterable[Fraction]) -> tuple[Fraction, ...]:
    """a less b."""
    return tuple(x - y for x, y in zip(a, b))


def cross(u: Sequence[Fraction], v: Sequence[Fraction]) -> tuple[Fraction, ...]:
    """The cross product."""
    return u[1] * v[2] - u[2] * v[1], u[2] * v[0] - u[0] * v[2], u[0] * v[1] - u[1] * v[0]


def inner(u: Iterable[Fraction], v: Iterable[Fraction]) -> Fraction:
    """The inner product."""
    return sum((x * y for x, y in zip(u, v)), Fraction(0))
