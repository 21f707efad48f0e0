"""Calls of mf_compute from Python: ask.c over the library takes many in one run, and tells all that each leaves."""

from __future__ import annotations

import struct
import subprocess
from dataclasses import dataclass
from pathlib import Path
from typing import Sequence

from tests.library import compiled

REFUSED = 0x80000000
RECORD = 26  # words
RASTER = 65536  # bytes that a record asks for
NOISE = b"\xa5"  # each byte that is lent, before the call

METRE = 0x3F800000  # a unit of 1


def packed(values: Sequence[int]) -> bytes:
    """Floats, as their bits, or ids."""
    return struct.pack(f"<{len(values)}I", *values)


def bits(value: float) -> int:
    """The bits of the f32 nearest to a number."""
    return struct.unpack("<I", struct.pack("<f", value))[0]


def asked(vertices: bytes, ids: bytes) -> tuple[int, int, int]:
    """Elements of work, raster and surfaces that a record asks for."""
    floats, count = len(vertices) // 4, len(ids) // 4
    return 5 * count + 4 * (count // 3) + 8 * (floats // 3), RASTER, 4 * (count // 3)


@dataclass(frozen=True)
class Call:
    """What is passed: floats and ids packed, the unit as its bits, and the lengths of the areas; without these they are
    just as long as is asked for."""

    vertices: bytes
    ids: bytes
    unit: int = METRE
    edition: int = 1
    clip: int = 0
    defect: int = 0
    areas: tuple[int, int, int] | None = None

    def lent(self) -> tuple[int, int, int]:
        """Elements of work, raster and surfaces."""
        return self.areas or asked(self.vertices, self.ids)

    def written(self) -> bytes:
        """As ask.c reads it."""
        lengths = len(self.vertices) // 4, len(self.ids) // 4
        words = packed([*lengths, self.unit, self.edition, self.clip, self.defect, *self.lent()])
        return words + self.vertices + self.ids


@dataclass(frozen=True)
class Left:
    """What came back, and what the record and the areas then hold."""

    answer: int
    record: tuple[int, ...]
    work: bytes
    raster: bytes
    surfaces: bytes

    def untouched(self) -> bool:
        """Whether no byte of the areas was written."""
        return all(not area.strip(NOISE) for area in (self.work, self.raster, self.surfaces))


def program(folder: Path) -> str:
    """ask.c over the library, made in this folder."""
    return compiled(Path(__file__).with_name("ask.c"), folder)


def answers(asker: str, calls: Sequence[Call]) -> list[Left]:
    """What each call leaves."""
    given = b"".join(call.written() for call in calls)
    done = subprocess.run([asker], input=given, capture_output=True, check=True, timeout=60)
    found = []
    at = 0
    for call in calls:
        work, raster, surfaces = call.lent()
        parts = []
        for length in (4, 4 * RECORD, 4 * work, raster, 4 * surfaces):
            parts.append(done.stdout[at : at + length])
            at += length
        answer, *record = struct.unpack(f"<{1 + RECORD}I", parts[0] + parts[1])
        found.append(Left(answer, tuple(record), *parts[2:]))
    assert at == len(done.stdout), (at, len(done.stdout))
    return found
