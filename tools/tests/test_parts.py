"""A file that reaches the program in parts, as through a pipe: it has to print what it prints for the whole."""

from __future__ import annotations

import fcntl
import os
import struct
import subprocess
import termios
import time
import unittest

from mowfrost import meshfile
from tests.common import CUBE_BYTES, CUBE_LISTING, EXAMPLES, SCRIPT, needs_program
from tests.stl import HEAD, LONGEST as LONGEST_STL, MOST, MOUNT, MOUNT_FILE, written

LONGEST = 12318  # bytes of the longest file that is one
PATIENCE = 60  # seconds


def unread(pipe: int) -> int:
    """How many bytes wait in a pipe."""
    return struct.unpack("i", fcntl.ioctl(pipe, termios.FIONREAD, bytes(4)))[0]


def printed(data: bytes, cuts: list[int], *words: str) -> str:
    """What the script prints for bytes that are written up to a cut, and on only when the program has read so far."""
    reading, writing = os.pipe()
    command = [str(SCRIPT), *words]
    with subprocess.Popen(command, stdin=reading, stdout=subprocess.PIPE, stderr=subprocess.PIPE) as script:
        os.close(reading)
        end = time.monotonic() + PATIENCE
        for start, stop in zip([0, *cuts], [*cuts, len(data)]):
            assert os.write(writing, data[start:stop]) == stop - start
            while unread(writing) > 0:
                assert time.monotonic() < end and script.poll() is None, "the program does not read on"
                time.sleep(0.001)
            time.sleep(0.002)  # so that it comes to wait for the next part
        os.close(writing)
        out, errors = script.communicate(timeout=PATIENCE)
    assert not errors, errors
    return out.decode()


def full_file() -> bytes:
    """The longest file that is one: a ring of 16 by 16 squares, each of two triangles, and unused vertices."""
    ring = [(0, 0), (3, 0), (5, 2), (5, 5), (3, 7), (0, 7), (-2, 5), (-2, 2)]
    section = [*ring, *((x, y - 9) for x, y in reversed(ring))]
    floats = [float(n) for at in range(16) for x, y in section for n in (x + 20 * (at % 5), y + 3 * at, at * at % 7)]
    floats += [1.5] * (meshfile.MOST - len(floats))
    ids = []
    for row in range(16):
        for column in range(16):
            a, b = 16 * row + column, 16 * row + (column + 1) % 16
            c, d = (a + 16) % 256, (b + 16) % 256
            ids += [a, b, d, a, d, c]
    bits = list(struct.unpack(f"<{meshfile.MOST}I", struct.pack(f"<{meshfile.MOST}f", *floats)))
    return meshfile.mesh_file(0x3F800000, bits, ids, clip=True, defect="overlapping")


@needs_program("a file in parts")
class Parts(unittest.TestCase):
    def test_the_cube_cut_in_every_kind_of_place(self) -> None:
        """In a header, behind it, in a float, between two, in the ids, before the last byte; two to five parts."""
        header = 10 + 6 + 96
        for cuts in (
            [1],
            [4],
            [6],
            [10],
            [13],
            [len(CUBE_BYTES) - 1],
            [5, 12],
            [6, 16],
            [17, 18, 19],
            [10, 16, header],
            [3, 9, header + 3, header + 6],
            [6, 10, 16, header + 13],
        ):
            with self.subTest(cuts=cuts):
                self.assertEqual(printed(CUBE_BYTES, cuts), CUBE_LISTING)

    def test_the_cube_byte_by_byte(self) -> None:
        self.assertEqual(printed(CUBE_BYTES, list(range(1, len(CUBE_BYTES)))), CUBE_LISTING)

    def test_byte_by_byte_and_cut_off(self) -> None:
        short = CUBE_BYTES[:-1]
        self.assertEqual(printed(short, list(range(1, len(short)))), "refused 5\n")

    def test_a_full_file_a_byte_more_and_less(self) -> None:
        data = full_file()
        self.assertEqual(len(data), LONGEST)
        whole = printed(data, [])
        self.assertTrue(whole.startswith("quality "), whole)
        self.assertIn("\nprofile overlapping\n", whole)
        for cuts in ([1], [4096], [12317], [16, 6160], [4096, 8192], [10, 16, 6160, 12310], [2, 8191, 8193, 12317]):
            with self.subTest(cuts=cuts):
                self.assertEqual(printed(data, cuts), whole)
                self.assertEqual(printed(data + b"\0", [*cuts, LONGEST]), "refused 5\n")
                self.assertEqual(printed(data[:-1], [cut for cut in cuts if cut < LONGEST - 1]), "refused 5\n")

    def test_an_stl(self) -> None:
        """In the header, in the count, behind it, in a corner, in the attributes, before the last byte; each byte."""
        listing = (EXAMPLES / "mount.listing").read_text()
        last = len(MOUNT_FILE) - 1
        for cuts in ([1], [80], [82], [HEAD], [last], [40, 83, 98], [HEAD + 49, HEAD + 50], list(range(1, last + 1))):
            with self.subTest(cuts=cuts[:5]):
                self.assertEqual(printed(MOUNT_FILE, cuts, "--stl"), listing)
        self.assertEqual(printed(MOUNT_FILE[:-1], [80, HEAD], "--stl"), "refused 5\n")

    def test_a_full_stl_a_byte_more_and_less(self) -> None:
        data = written((MOUNT * 4)[:MOST])
        whole = printed(data, [], "--stl")
        self.assertTrue(whole.startswith("quality "), whole)
        for cuts in ([81], [4096], [8583], [84, 8534]):
            with self.subTest(cuts=cuts):
                self.assertEqual(printed(data, cuts, "--stl"), whole)
                self.assertEqual(printed(data + b"\0", [*cuts, LONGEST_STL], "--stl"), "refused 5\n")
                self.assertEqual(printed(data + bytes(4096), [*cuts, LONGEST_STL + 1], "--stl"), "refused 5\n")


if __name__ == "__main__":
    unittest.main()
