"""Writes and reads the mesh file that the program `takeoff` reads (document 01, 'The program `takeoff`')."""

from __future__ import annotations

import struct
from dataclasses import dataclass

MOST = 1536  # floats, and also ids, that the program takes

# As `ProfileDefect` lists them: the first is 1 in the file, 0 is none.
DEFECTS = ("self_intersecting", "degenerate", "hole_outside", "overlapping")

# f32 bits, 2^-20 and 16: document 01's range of the unit.
LEAST_UNIT, GREATEST_UNIT = 0x35800000, 0x41800000

HEADER = 6  # bytes before each payload: length and kind

# What the records hold, by their kinds.
NAMES = {1: "the unit", 2: "the vertex floats", 3: "the ids", 4: "the flags"}

# How long a payload may be: just so many bytes, or any multiple of 4.
LENGTHS = {1: 4, 4: 2}


def record(kind: int, payload: bytes) -> bytes:
    """One record: length, kind, payload."""
    return struct.pack("<IH", len(payload), kind) + payload


def words(values: list[int]) -> bytes:
    """f32 bits or ids, four bytes each."""
    return struct.pack(f"<{len(values)}I", *values)


def mesh_file(
    unit: int,
    vertices: list[int],
    ids: list[int],
    clip: bool = False,
    defect: str | None = None,
    flag_record: bool = False,
) -> bytes:
    """The file's bytes; unit and vertices are f32 bits. Kind 4 is there where a flag is set or it is asked for."""
    data = record(1, words([unit])) + record(2, words(vertices)) + record(3, words(ids))
    if clip or defect is not None or flag_record:
        data += record(4, bytes([clip, DEFECTS.index(defect) + 1 if defect is not None else 0]))
    return data


def too_many(floats: int, ids: int) -> str | None:
    """Why the program would not take so many, or None."""
    over = []
    if floats > MOST:
        over.append(f"{floats} vertex floats ({floats // 3} vertices)")
    if ids > MOST:
        over.append(f"{ids} ids ({ids // 3} triangles)")
    if not over:
        return None
    return f"{' and '.join(over)}; the program takes at most {MOST} floats and {MOST} ids"


def unit_fits(unit: int) -> bool:
    """Whether the unit, f32 bits, is in its range."""
    # Bits of f32 numbers above zero are in the order of the numbers; those below zero come behind all of them.
    return LEAST_UNIT <= unit <= GREATEST_UNIT


# ---- reading


@dataclass(frozen=True)
class MeshFile:
    """What a file holds: unit and vertices as f32 bits, the ids, the flags, and whether there is a record of flags."""

    unit: int
    vertices: list[int]
    ids: list[int]
    clip: bool
    defect: str | None
    flag_record: bool


class Refused(Exception):
    """The program's refusal, 5 or 6, and the reason in words."""

    def __init__(self, number: int, reason: str) -> None:
        super().__init__(reason)
        self.number = number


def read(data: bytes) -> MeshFile:
    """What the file holds; Refused for the fault that the program meets first (docs/FORMAT.md, 'Refusals')."""
    unit, rest = front(1, data)
    vertices, rest = front(2, rest)
    ids, rest = front(3, rest)
    clip, defect = flags(rest) if rest else (0, 0)
    return MeshFile(
        unit=values(unit)[0],
        vertices=values(vertices),
        ids=values(ids),
        clip=clip == 1,
        defect=DEFECTS[defect - 1] if defect else None,
        flag_record=bool(rest),
    )


def front(kind: int, data: bytes) -> tuple[bytes, bytes]:
    """The payload of the record in front, which has to be of this kind, and what stands behind it."""
    name = f"{NAMES[kind]} (kind {kind})"
    if len(data) < HEADER:
        what = f"is cut: {len(data)} of its {HEADER} bytes are there" if data else "is missing: the file ends"
        raise Refused(5, f"the header of {name} {what}")
    length, found = struct.unpack_from("<IH", data)
    if found != kind:
        raise Refused(5, f"{name} should begin here, but the record is of kind {found}")
    if not length_fits(kind, length):
        should = f"not {LENGTHS[kind]}" if kind in LENGTHS else "no multiple of 4"
        raise Refused(5, f"{name}: a length of {length} bytes, which is {should}")
    if length // 4 > MOST:
        raise Refused(6, f"{name}: {length // 4} of them; the program takes at most {MOST}")
    payload = data[HEADER : HEADER + length]
    if len(payload) < length:
        raise Refused(5, f"{name}: cut, {len(payload)} of {length} bytes are there")
    return payload, data[HEADER + length :]


def length_fits(kind: int, length: int) -> bool:
    """Whether a payload of this kind may be so long."""
    return length == LENGTHS[kind] if kind in LENGTHS else length % 4 == 0


def flags(data: bytes) -> tuple[int, int]:
    """Clip and defect, as kind 4 has them; it is the last record."""
    (clip, defect), behind = front(4, data)
    if clip > 1:
        raise Refused(5, f"the flags (kind 4): a clip of {clip}, which is neither 0 nor 1")
    if defect > len(DEFECTS):
        raise Refused(5, f"the flags (kind 4): a defect of {defect}, which is above {len(DEFECTS)}")
    if behind:
        raise Refused(5, f"bytes stand behind the end: {len(behind)}")
    return clip, defect


def values(payload: bytes) -> list[int]:
    """f32 bits or ids, four bytes each: the way back from words."""
    return list(struct.unpack(f"<{len(payload) // 4}I", payload))
