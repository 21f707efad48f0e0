"""Binary STL: what the gate runs `takeoff_stl` on and, where the programs are fresh, what is printed for many files.

A good file is held to `takeoff` on the mesh file of the same mesh, which knows nothing of STL.
"""

from __future__ import annotations

import struct
import subprocess
import unittest

from tests.common import EXAMPLES, ROOT, SCRIPT, needs_program
from tests.stl import HEAD, LONGEST, MOST, MOUNT, MOUNT_FILE, PLATE, PLATE_FILE, RECORD
from tests.stl import head, mesh_file, record, records, triangles_of, uneven, written

FULL = written((MOUNT * 4)[:MOST])
LISTED = (EXAMPLES / "mount.listing").read_text()


def printed(data: bytes, *words: str) -> str:
    """What the script prints for these bytes; nothing else is said."""
    done = subprocess.run([str(SCRIPT), *words], input=data, capture_output=True, check=False, timeout=60)
    assert (done.returncode, done.stderr) == (0, b""), done
    return done.stdout.decode()


class Kept(unittest.TestCase):
    def test_what_the_gate_runs(self) -> None:
        self.assertEqual((ROOT / "crates/takeoff_stl/stdin").read_bytes(), PLATE_FILE)
        self.assertEqual((len(PLATE), len(PLATE_FILE), uneven(PLATE)), (12, 684, []))
        self.assertEqual(triangles_of(PLATE_FILE), PLATE)
        for each in records(PLATE_FILE):
            self.assertEqual(sum(n * n for n in struct.unpack_from("<3f", each)), 1)
            self.assertEqual(each[48:], b"\xff\x7f")


@needs_program("what is printed for an STL")
class Answers(unittest.TestCase):
    def check_as_a_mesh_file(self, data: bytes) -> None:
        """The same as `takeoff` prints for the same mesh; and that is a listing or a refusal by 01's table."""
        self.assertEqual(printed(data, "--stl"), printed(mesh_file(data)))

    def check_refused(self, data: bytes, number: int) -> None:
        """This refusal, whatever the mesh would be."""
        self.assertEqual(printed(data, "--stl"), f"refused {number}\n", f"{len(data)} bytes, {data[80:84]!r}")

    def test_the_same_as_from_a_mesh_file(self) -> None:
        self.assertEqual(printed(mesh_file(MOUNT_FILE)), LISTED)
        parts = [MOUNT[at:upto] for at, upto in ((0, 0), (0, 1), (0, 2), (3, 30), (1, 44))]
        for data in [PLATE_FILE, FULL, *map(written, parts)]:
            self.check_as_a_mesh_file(data)

    def test_the_order_of_triangles_and_corners(self) -> None:
        """No file is read from its end, and no triangle backwards: each of these is another mesh file."""
        turned = [(a, c, b) for a, b, c in MOUNT]
        for triangles in (MOUNT[::-1], turned, MOUNT[20:] + MOUNT[:20], [turned[0], *MOUNT[1:]]):
            self.check_as_a_mesh_file(written(triangles))
        self.assertIn("quality open_shell\n", printed(written([turned[0], *MOUNT[1:]]), "--stl"))

    def test_header_normals_and_attributes_do_not_matter(self) -> None:
        text = b"solid mount\nfacet normal 0 0 1\n  outer loop"
        headers = [b"", b"\xff" * 80, b"solid", b"solid mount", text, b"COLOR=\x01\x02\x03\xff"]
        for header in headers:
            self.assertEqual(printed(written(MOUNT, header), "--stl"), LISTED, header)
        nan, most = float("nan"), float("inf")
        for stored in ((0, 0, 0), (0, 0, 1), (-0.0, 3e38, -7), (nan, most, -most)):
            data = head(len(MOUNT)) + b"".join(record(t, stored, 0) for t in MOUNT)
            self.assertEqual(printed(data, "--stl"), LISTED, stored)
        for attributes in (1, 0x8000, 0xFFFF):
            self.assertEqual(printed(written(MOUNT, attributes=attributes), "--stl"), LISTED, attributes)

    def test_corners_that_01_refuses(self) -> None:
        """Each place of the first and of the last triangle; the largest float that is taken, and the next."""
        for at in [*range(HEAD + 12, HEAD + 48, 4), *range(len(MOUNT_FILE) - 38, len(MOUNT_FILE) - 2, 4)]:
            for bits in (0x7F800000, 0xFF800000, 0x7FC00001, 0xFF812345, 0x50000001):
                self.check_refused(MOUNT_FILE[:at] + struct.pack("<I", bits) + MOUNT_FILE[at + 4 :], 4)
        last = len(MOUNT_FILE) - 6
        largest = MOUNT_FILE[:last] + struct.pack("<f", 8589934592) + MOUNT_FILE[last + 4 :]
        self.assertTrue(printed(largest, "--stl").startswith("quality "))
        self.check_as_a_mesh_file(largest)

    def test_lengths_below_a_header(self) -> None:
        """5, also where the count that is cut off was too large."""
        for length in (0, 1, 79, 80, 81, 83):
            for count in (0, 1, 171, 2**32 - 1):
                self.check_refused(head(count)[:length], 5)

    def test_lengths_about_the_right_one(self) -> None:
        for data in (head(0), written(MOUNT[:1]), MOUNT_FILE, FULL):
            for less in (1, 2, 36, 48, 49, 50, 51, 100):
                if less <= len(data):
                    self.check_refused(data[:-less], 5)
            for more in (1, 2, 49, 50, 51, 100, 10_000, 200_000):
                self.check_refused(data + bytes(more), 5)
        self.assertEqual(len(FULL), LONGEST)

    def test_counts(self) -> None:
        """Above 170 it is 6, whatever the length; else a count that the length does not bear out is 5."""
        for count in (171, 256, 65536, 2**31, 2**32 - 1):
            for length in (HEAD, HEAD + 1, len(MOUNT_FILE), LONGEST, LONGEST + 1, LONGEST + RECORD, 200_000):
                self.check_refused(head(count).ljust(length, b"\0"), 6)
        for count in (0, 1, 43, 45, 170):
            self.check_refused(head(count) + MOUNT_FILE[HEAD:], 5)
        self.check_refused(written((MOUNT * 4)[: MOST + 1]), 6)
        self.check_refused(head(len(MOUNT), order=">") + MOUNT_FILE[HEAD:], 6)

    def test_an_stl_in_text(self) -> None:
        """It is no binary STL: what stands in the count's place is text, and far above 170."""
        corners = b"  vertex 0 0 0\n  vertex 1 0 0\n  vertex 0 1 0\n"
        facet = b"facet normal 0 0 1\n outer loop\n" + corners + b" endloop\nendfacet\n"
        self.check_refused(b"solid plate\n" + facet + b"endsolid plate\n", 6)
        self.check_refused(b"solid plate\nendsolid plate\n", 5)


if __name__ == "__main__":
    unittest.main()
