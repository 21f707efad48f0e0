"""Binary STL for the tests: a plain writer and reader, the mesh file of the same mesh, and the solids that are kept."""

from __future__ import annotations

import math
import struct
from collections import Counter
from fractions import Fraction
from typing import Iterable, Sequence

from tests.shapes import cross, minus

HEAD = 84  # bytes of the header and the count
RECORD = 50  # bytes of a triangle
MOST = 170  # triangles that the program takes
LONGEST = HEAD + RECORD * MOST

Point = tuple[float, ...]
Triangle = tuple[Point, Point, Point]


def normal(triangle: Triangle) -> Point:
    """The unit normal, as most writers store it."""
    a, b, c = ([Fraction(n) for n in corner] for corner in triangle)
    across = [float(n) for n in cross(minus(b, a), minus(c, a))]
    size = math.hypot(*across)
    return tuple(n / size for n in across) if size else (0.0, 0.0, 0.0)


def head(count: int, header: bytes = b"", order: str = "<") -> bytes:
    """80 bytes that say nothing, filled up with zeros, and the count."""
    assert len(header) <= 80
    return header.ljust(80, b"\0") + struct.pack(f"{order}I", count)


def record(triangle: Triangle, stored: Sequence[float], attributes: int) -> bytes:
    """A triangle: the stored normal, the corners, the attributes."""
    return struct.pack("<12fH", *stored, *(n for corner in triangle for n in corner), attributes)


def written(triangles: Sequence[Triangle], header: bytes = b"", attributes: int = 0) -> bytes:
    """The whole file, each triangle with its unit normal."""
    return head(len(triangles), header) + b"".join(record(t, normal(t), attributes) for t in triangles)


def records(data: bytes) -> list[bytes]:
    """The records of a file that is one."""
    assert len(data) == HEAD + RECORD * struct.unpack_from("<I", data, 80)[0]
    return [data[at : at + RECORD] for at in range(HEAD, len(data), RECORD)]


def corners(data: bytes) -> bytes:
    """The corners of a file alone, as they stand there."""
    return b"".join(each[12:48] for each in records(data))


def triangles_of(data: bytes) -> list[Triangle]:
    """The triangles of a file."""
    floats = struct.iter_unpack("<9f", corners(data))
    return [(each[0:3], each[3:6], each[6:9]) for each in floats]


def mesh_file(data: bytes) -> bytes:
    """The mesh file for which `takeoff` prints the same: unit 0.001, each corner a vertex with an id of its own."""
    floats = corners(data)
    count = len(floats) // 12
    parts = [(1, struct.pack("<f", 0.001)), (2, floats), (3, struct.pack(f"<{count}I", *range(count)))]
    return b"".join(struct.pack("<IH", len(payload), kind) + payload for kind, payload in parts)


def uneven(triangles: Iterable[Triangle]) -> list[tuple[Point, Point]]:
    """The sides that are not walked as often back as forth, by the places of their corners: a closed solid has none."""
    walked = Counter((a, b) for t in triangles for a, b in zip(t, t[1:] + t[:1]))
    return [(a, b) for a, b in walked if walked[a, b] != walked[b, a]]


# ---- solids


def ring(x: int, y: int, z: int) -> list[Point]:
    """The corners of a rectangle about the z axis, to the left as seen from above."""
    return [(-x, -y, z), (x, -y, z), (x, y, z), (-x, y, z)]


def quad(a: Point, b: Point, c: Point, d: Point) -> list[Triangle]:
    """Two triangles."""
    return [(a, b, c), (a, c, d)]


def solid(rings: Sequence[Sequence[Point]]) -> list[Triangle]:
    """The first ring seen from below, a band from each ring to the next, the last ring seen from above."""
    found = quad(*reversed(rings[0]))
    for low, high in zip(rings, rings[1:]):
        for at in range(4):
            found += quad(low[at], low[at - 3], high[at - 3], high[at])
    return found + quad(*rings[-1])


# A plate of 40 x 60 x 5 mm: crates/takeoff_stl/stdin.
PLATE = solid([ring(20, 30, 0), ring(20, 30, 5)])
PLATE_FILE = written(PLATE, b"a plate of 40 x 60 x 5 mm", 0x7FFF)

# examples/mount.stl, in millimetres: a plate of 240 x 240 x 10, on it a foot 40 high that narrows from 140 x 140 to
# 80 x 80, in the foot a socket of 60 x 60, down to the plate. 576,000 + 496,000 - 144,000 mm3.
MOUNT_RINGS = ((120, 0), (120, 10), (70, 10), (40, 50), (30, 50), (30, 10))  # half a side, and the height
MOUNT = solid([ring(half, half, z) for half, z in MOUNT_RINGS])
MOUNT_FILE = written(MOUNT, b"mast foot with a square socket, in millimetres")
