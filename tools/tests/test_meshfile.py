"""Mesh files: what the reader takes from one, and the program's refusal, with the reason, of what is none."""

from __future__ import annotations

import random
import struct
import subprocess
import unittest

from mowfrost import meshfile
from mowfrost.meshfile import DEFECTS, MeshFile, mesh_file
from tests.common import CUBE_BYTES, SCRIPT, needs_program

UNIT = 0x3F800000
EMPTY = mesh_file(UNIT, [], [])
MOST = meshfile.MOST

IDS = 10 + 6 + 96  # where the ids of the cube begin, with their header


def header(length: int, kind: int) -> bytes:
    """The six bytes before a payload."""
    return struct.pack("<IH", length, kind)


def flags(clip: int, defect: int) -> bytes:
    """A record of flags."""
    return header(2, 4) + bytes([clip, defect])


# What is refused, with its number and the reason, in the order of the file.
FLOATS = "the vertex floats (kind 2)"
OVER = "of them; the program takes at most 1536"
REFUSED = {
    b"": (5, "the header of the unit (kind 1) is missing: the file ends"),
    CUBE_BYTES[:5]: (5, "the header of the unit (kind 1) is cut: 5 of its 6 bytes are there"),
    b"v 0 0 0\n": (5, "the unit (kind 1) should begin here, but the record is of kind 8240"),
    header(4, 2) + CUBE_BYTES[6:]: (5, "the unit (kind 1) should begin here, but the record is of kind 2"),
    header(8, 1) + CUBE_BYTES[6:]: (5, "the unit (kind 1): a length of 8 bytes, which is not 4"),
    header(6148, 1) + CUBE_BYTES[6:]: (5, "the unit (kind 1): a length of 6148 bytes, which is not 4"),
    CUBE_BYTES[:9]: (5, "the unit (kind 1): cut, 3 of 4 bytes are there"),
    CUBE_BYTES[:10]: (5, f"the header of {FLOATS} is missing: the file ends"),
    CUBE_BYTES[:11]: (5, f"the header of {FLOATS} is cut: 1 of its 6 bytes are there"),
    CUBE_BYTES[:10] + CUBE_BYTES[IDS:]: (5, f"{FLOATS} should begin here, but the record is of kind 3"),
    CUBE_BYTES[:10] + header(97, 2): (5, f"{FLOATS}: a length of 97 bytes, which is no multiple of 4"),
    CUBE_BYTES[:10] + header(6149, 2): (5, f"{FLOATS}: a length of 6149 bytes, which is no multiple of 4"),
    CUBE_BYTES[:10] + header(6148, 2): (6, f"{FLOATS}: 1537 {OVER}"),
    CUBE_BYTES[:10] + header(2**32 - 4, 2): (6, f"{FLOATS}: 1073741823 {OVER}"),
    CUBE_BYTES[:20]: (5, f"{FLOATS}: cut, 4 of 96 bytes are there"),
    CUBE_BYTES[:IDS]: (5, "the header of the ids (kind 3) is missing: the file ends"),
    CUBE_BYTES[:IDS] + header(2, 3): (5, "the ids (kind 3): a length of 2 bytes, which is no multiple of 4"),
    mesh_file(UNIT, [0] * MOST, [0] * (MOST + 1)): (6, f"the ids (kind 3): 1537 {OVER}"),
    mesh_file(UNIT, [0] * (MOST + 1), [0] * (MOST + 1)): (6, f"{FLOATS}: 1537 {OVER}"),
    CUBE_BYTES[:-1]: (5, "the ids (kind 3): cut, 143 of 144 bytes are there"),
    CUBE_BYTES + b"\0": (5, "the header of the flags (kind 4) is cut: 1 of its 6 bytes are there"),
    CUBE_BYTES + header(4, 3): (5, "the flags (kind 4) should begin here, but the record is of kind 3"),
    CUBE_BYTES + header(3, 4) + b"\0\0\0": (5, "the flags (kind 4): a length of 3 bytes, which is not 2"),
    CUBE_BYTES + flags(1, 0)[:-1]: (5, "the flags (kind 4): cut, 1 of 2 bytes are there"),
    CUBE_BYTES + flags(2, 5): (5, "the flags (kind 4): a clip of 2, which is neither 0 nor 1"),
    CUBE_BYTES + flags(1, 5) + b"\0": (5, "the flags (kind 4): a defect of 5, which is above 4"),
    CUBE_BYTES + flags(1, 4) + b"\0": (5, "bytes stand behind the end: 1"),
    CUBE_BYTES + flags(0, 0) + flags(0, 0): (5, "bytes stand behind the end: 8"),
}


def number_of(data: bytes) -> int:
    """The number of the refusal, 0 where there is none."""
    try:
        meshfile.read(data)
    except meshfile.Refused as refused:
        return refused.number
    return 0


def broken(count: int) -> list[bytes]:
    """Files with a byte changed, dropped or added, always the same ones, most of them about the headers."""
    chance = random.Random(5)
    base = mesh_file(UNIT, [UNIT] * 9, [0, 1, 2], True, "overlapping")
    places = [*range(6), *range(10, 16), *range(52, 58), *range(70, 78)]
    made = []
    for _ in range(count):
        at = chance.choice(places)
        new = bytes([chance.choice((0, 1, 2, 3, 4, 5, 24, 255))])
        made.append(base[:at] + chance.choice((new, b"", new + base[at : at + 1])) + base[at + 1 :])
    return made


class Reading(unittest.TestCase):
    def test_the_cube(self) -> None:
        mesh = meshfile.read(CUBE_BYTES)
        self.assertEqual((mesh.unit, len(mesh.vertices), len(mesh.ids)), (UNIT, 24, 36))
        self.assertEqual((mesh.vertices[:6], mesh.ids[:3]), ([0, 0, 0, 0x40000000, 0, 0], [0, 2, 3]))
        self.assertEqual((mesh.clip, mesh.defect, mesh.flag_record), (False, None, False))

    def test_what_was_written_is_read(self) -> None:
        """Any bits and any ids, whole vertices and triangles or not, none of either and the most."""
        chance = random.Random(4)
        for floats, ids in ((0, 0), (1, 2), (0, 3), (9, 0), (MOST, MOST), (100, 7)):
            for clip in (False, True):
                for defect in (None, *DEFECTS):
                    words = [[chance.randrange(2**32) for _ in range(length)] for length in (1, floats, ids)]
                    mesh = MeshFile(words[0][0], words[1], words[2], clip, defect, clip or defect is not None)
                    data = mesh_file(words[0][0], words[1], words[2], clip, defect)
                    self.assertEqual(meshfile.read(data), mesh)

    def test_a_record_of_no_flags(self) -> None:
        data = mesh_file(UNIT, [], [], flag_record=True)
        self.assertEqual(data, EMPTY + flags(0, 0))
        self.assertEqual(meshfile.read(data), MeshFile(UNIT, [], [], False, None, True))
        self.assertEqual(meshfile.read(EMPTY), MeshFile(UNIT, [], [], False, None, False))
        self.assertEqual(mesh_file(UNIT, [], [], True, flag_record=True), EMPTY + flags(1, 0))

    def test_refusals(self) -> None:
        for data, (number, reason) in REFUSED.items():
            with self.subTest(reason=reason), self.assertRaises(meshfile.Refused) as caught:
                meshfile.read(data)
            self.assertEqual((caught.exception.number, str(caught.exception)), (number, reason))

    def test_broken_files_are_of_all_sorts(self) -> None:
        """Else asking the program about them would say little."""
        numbers = [number_of(data) for data in broken(60)]
        self.assertEqual({0, 5, 6}, set(numbers))

    def test_the_unit(self) -> None:
        for bits, fits in ((0x357FFFFF, False), (0x35800000, True), (0x41800000, True), (0x41800001, False)):
            self.assertEqual(meshfile.unit_fits(bits), fits)
        for bits in (0, 0x80000000, 0xBF800000, 0x7F800000, 0x7FC00000, 0xFFC00000, 0x00000001):
            self.assertFalse(meshfile.unit_fits(bits))


@needs_program("refusals of mesh files")
class Program(unittest.TestCase):
    def test_the_program_refuses_by_the_same_number(self) -> None:
        for data in [*REFUSED, *broken(60)]:
            done = subprocess.run([str(SCRIPT)], input=data, capture_output=True, check=False, timeout=60)
            said = done.stdout.decode()
            number = number_of(data)
            with self.subTest(data=data[:80].hex()):
                if number:
                    self.assertEqual(said, f"refused {number}\n")
                else:
                    self.assertNotIn(said, ("refused 5\n", "refused 6\n"))


if __name__ == "__main__":
    unittest.main()
