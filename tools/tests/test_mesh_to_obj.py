"""mesh_to_obj.py from outside: the text, files and pipes, what is refused, what is warned of, and exit status."""

from __future__ import annotations

import os
import subprocess
import unittest

from mowfrost.meshfile import mesh_file
from tests.common import CUBE_BYTES, EXAMPLES, Case, command, environment, run

TOOL = "mesh_to_obj.py"
CUBE = str(EXAMPLES / "cube.mesh")
ONE, NAN, INFINITE = 0x3F800000, 0xFFC00001, 0x7F800000
TRIANGLE = [0, 0, 0, ONE, 0, 0, 0, ONE, 0]

CUBE_OBJ = b"""\
# A mesh file of 8 vertices and 12 triangles; an index of a face is the id + 1, and triangles count from 0.
# unit 1 (metres a model unit); no clip is missing; no defect of the profile
# back: obj_to_mesh.py --unit 1 --out FILE.mesh FILE.obj
# vertex 1, id 0
v 0 0 0
v 2 0 0
v 0 2 0
v 2 2 0
v 0 0 2
v 2 0 2
v 0 2 2
v 2 2 2
# triangle 0
f 1 3 4
f 1 4 2
f 5 6 8
f 5 8 7
f 1 2 6
f 1 6 5
f 3 7 8
f 3 8 4
f 1 5 7
f 1 7 3
# triangle 10
f 2 4 8
f 2 8 6
"""


def lines(data: bytes) -> list[str]:
    """The lines of the OBJ of a mesh file that gives no cause to say anything."""
    done = run(TOOL, "-", given=data)
    assert (done.returncode, done.stderr) == (0, b""), done.stderr
    return done.stdout.decode().splitlines()


class Files(Case):
    def setUp(self) -> None:
        super().setUp()
        self.out = self.folder / "out.obj"

    def test_the_cube(self) -> None:
        self.check(run(TOOL, CUBE), 0, "", CUBE_OBJ)
        self.check(run(TOOL, "--out", "-", CUBE), 0, "", CUBE_OBJ)
        self.check(run(TOOL, "-", given=CUBE_BYTES), 0, "", CUBE_OBJ)
        self.check(run(TOOL, "--out", "out.obj", CUBE, folder=self.folder), 0, "")
        self.assertEqual(self.out.read_bytes(), CUBE_OBJ)

    def test_unit_and_flags_at_the_top(self) -> None:
        for given, says, back in (
            ((0x3A83126F,), "unit 0.001 (metres a model unit); no clip is missing; no defect", "--unit 0.001"),
            ((0x35800000,), "unit 9.536743e-7 (", "--unit 9.536743e-7"),
            ((0x41800000, True), "unit 16 (metres a model unit); a clip was not applied; no", "--unit 16 --clip"),
            ((ONE, False, "degenerate"), "; the profile is degenerate", "--unit 1 --defect degenerate"),
            ((ONE, True, "overlapping"), "; the profile is", "--unit 1 --clip --defect overlapping"),
            ((ONE, False, None, True), "; no clip is missing; no defect", "--unit 1 --flag-record"),
            ((ONE, True, None, True), "; a clip was not applied; no defect", "--unit 1 --clip"),
        ):
            found = lines(mesh_file(given[0], TRIANGLE, [0, 1, 2], *given[1:]))
            self.assertIn(says, found[1])
            self.assertEqual(found[2], f"# back: obj_to_mesh.py {back} --out FILE.mesh FILE.obj")

    def test_each_tenth_has_its_number(self) -> None:
        found = lines(mesh_file(ONE, TRIANGLE * 7, [0, 1, 2] * 21))
        numbers = ["vertex 1, id 0", "vertex 11, id 10", "vertex 21, id 20", "triangle 0", "triangle 10", "triangle 20"]
        self.assertEqual([line for line in found[3:] if line.startswith("#")], [f"# {number}" for number in numbers])
        self.assertEqual(found[found.index("# vertex 11, id 10") + 1], "v 1 0 0")
        self.assertEqual(len(found), 3 + 3 + 21 + 3 + 21)

    def test_coordinates(self) -> None:
        bits = [0x80000000, 1, 0x807FFFFF, 0x3DCCCCCD, 0x4911C085, 0xCB800001, 0, 0x50000000, 0xBEAAAAAB]
        found = [line for line in lines(mesh_file(ONE, bits, [0, 1, 2])) if line.startswith("v")]
        first, second = "v -0 1e-45 -1.1754942e-38", "v 0.1 597000.3125 -16777218"
        self.assertEqual(found, [first, second, "v 0 8589934592 -0.33333334"])

    def test_wrong_usage(self) -> None:
        for args in ([], ["--unit", "1", CUBE], [CUBE, CUBE], ["--out"]):
            self.check(run(TOOL, *args), 2, "usage: ")

    def test_help(self) -> None:
        done = run(TOOL, "--help")
        self.assertEqual(done.returncode, 0)
        for word in ("--out", "FILE.mesh", "id + 1", "obj_to_mesh.py", "'range'", "exit status", "no whole vertex"):
            self.assertIn(word, done.stdout.decode())

    def test_files_that_cannot_be_used(self) -> None:
        self.check(run(TOOL, "absent.mesh", folder=self.folder), 2, "cannot read absent.mesh: No such file")
        self.check(run(TOOL, str(self.folder)), 2, "Is a directory")
        done = run(TOOL, "--out", "absent/out.obj", CUBE, folder=self.folder)
        self.check(done, 2, "cannot write absent/out.obj: No such file")

    def test_the_mesh_file_is_not_overwritten(self) -> None:
        mine = self.folder / "mine.mesh"
        mine.write_bytes(CUBE_BYTES)
        done = run(TOOL, "--out", "mine.mesh", "./mine.mesh", folder=self.folder)
        self.check(done, 2, "--out names the mesh file itself, which would be lost")
        self.assertEqual(mine.read_bytes(), CUBE_BYTES)


class Refusals(Case):
    """Nothing is written, and an older file stays."""

    def refused(self, data: bytes, *said: str) -> None:
        """Status 1 and just these lines."""
        self.out.write_bytes(b"older")
        done = run(TOOL, "--out", str(self.out), "-", given=data)
        self.check(done, 1, "".join(f"mesh_to_obj: standard input: {line}\n" for line in said))
        self.assertEqual(len(done.stderr.splitlines()), len(said))
        self.assertEqual(self.out.read_bytes(), b"older")

    def test_what_takeoff_refuses(self) -> None:
        self.refused(b"", "refused 5: the header of the unit (kind 1) is missing: the file ends")
        self.refused(CUBE_BYTES[:-1], "refused 5: the ids (kind 3): cut, 143 of 144 bytes are there")
        many = mesh_file(ONE, [0] * 1539, [0, 1, 2])
        self.refused(many, "refused 6: the vertex floats (kind 2): 1539 of them; the program takes at most 1536")

    def test_what_is_left_over(self) -> None:
        floats = "of its {} floats the last {} no whole vertex; an OBJ has x, y and z of each"
        ids = "of its {} ids the last {} no triangle; an OBJ has three a face"
        self.refused(mesh_file(ONE, [0] * 10, [0, 1, 2]), floats.format(10, "is"))
        self.refused(mesh_file(ONE, [0] * 11, [0, 1, 2]), floats.format(11, "two are"))
        self.refused(mesh_file(ONE, TRIANGLE, [0, 1, 2, 0]), ids.format(4, "is"))
        self.refused(mesh_file(ONE, TRIANGLE, [0, 1, 2, 0, 1]), ids.format(5, "two are"))
        self.refused(mesh_file(ONE, [0], [0, 1, 2, 0]), floats.format(1, "is"), ids.format(4, "is"))

    def test_no_triangles(self) -> None:
        none = "it has no triangles; obj_to_mesh.py takes no OBJ without faces"
        self.refused(mesh_file(ONE, TRIANGLE, []), none)
        self.refused(mesh_file(ONE, [], []), none)
        two = "of its 2 ids the last two are no triangle; an OBJ has three a face"
        self.refused(mesh_file(ONE, TRIANGLE, [0, 1]), two, none)

    def test_the_unit(self) -> None:
        for bits, shown in (
            (0x41880000, "17"),
            (0x357FFFFF, "9.5367426e-7"),
            (0, "0"),
            (0x80000000, "-0"),
            (0xBF800000, "-1"),
            (INFINITE, "infinity"),
            (0xFF800000, "-infinity"),
            (NAN, "a NaN (ffc00001)"),
        ):
            said = f"the unit is {shown}, not a number from 2^-20 to 16; obj_to_mesh.py takes no other"
            self.refused(mesh_file(bits, TRIANGLE, [0, 1, 2]), said)

    def test_what_is_no_number(self) -> None:
        bits = [0, 0, 0, ONE, NAN, 0, 0, ONE, INFINITE | 0x80000000]
        said = "and an OBJ has numbers alone"
        self.refused(
            mesh_file(ONE, bits, [0, 1, 2]),
            f"vertex 1 from 0: its y is a NaN (ffc00001), {said}",
            f"vertex 2 from 0: its z is -infinity, {said}",
        )

    def test_twenty_are_shown(self) -> None:
        done = run(TOOL, "-", given=mesh_file(ONE, [NAN] * 24, [0, 1, 2]))
        self.check(done, 1, "mesh_to_obj: and 4 more\n")
        self.assertEqual(len(done.stderr.splitlines()), 21)


class OutOfRange(Case):
    """An id that names no vertex is there to be corrected."""

    def test_it_is_marked_and_told(self) -> None:
        done = run(TOOL, "cube-wrong-id.mesh", folder=EXAMPLES)
        then = "obj_to_mesh.py refuses line 14 of the OBJ until it is corrected"
        said = f"triangle 0: id 8 names no vertex, there are 8; {then}"
        marked = CUBE_OBJ.replace(b"f 1 3 4\n", b"f 1 3 9 # triangle 0: there is no vertex 9\n")
        self.check(done, 0, f"mesh_to_obj: warning: cube-wrong-id.mesh, {said}\n", marked)
        self.assertEqual(len(done.stderr.splitlines()), 1)
        self.assertEqual(marked.splitlines()[13][:8], b"f 1 3 9 ")

    def test_the_way_back_refuses_just_that_line(self) -> None:
        made = run(TOOL, "-", given=mesh_file(ONE, TRIANGLE, [0, 1, 2, 2**32 - 1, 3, 2, 2, 1, 0])).stdout
        self.assertIn(b"f 4294967296 4 3 # triangle 1: there is no vertex 4294967296\n", made)
        back = run("obj_to_mesh.py", "--out", str(self.out), "-", given=made)
        self.check(back, 1, "standard input, line 10: index 4294967296, but the file has 3 vertices\n")
        self.assertEqual(len(back.stderr.splitlines()), 1)
        self.assertFalse(self.out.exists())

    def test_no_vertices_at_all(self) -> None:
        done = run(TOOL, "-", given=mesh_file(ONE, [], [0, 1, 2]))
        said = "warning: standard input, triangle 0: id 0 names no vertex, there are 0; "
        self.check(done, 0, said, done.stdout)
        self.assertEqual(done.stdout.splitlines()[-1], b"f 1 2 3 # triangle 0: there is no vertex 1")

    def test_twenty_are_told(self) -> None:
        done = run(TOOL, "-", given=mesh_file(ONE, TRIANGLE, [0, 1, 3] * 23))
        self.check(done, 0, "mesh_to_obj: warning: and 3 more\n", done.stdout)
        self.assertEqual(len(done.stderr.splitlines()), 21)
        self.assertEqual(done.stdout.count(b" # triangle "), 23)


class Pipes(Case):
    def test_reader_that_has_gone(self) -> None:
        self.check_reader_gone(TOOL, CUBE)

    @unittest.skipUnless(os.path.exists("/dev/full"), "there is no /dev/full here")
    def test_full_disk(self) -> None:
        with open("/dev/full", "wb") as full:
            done = subprocess.run(
                command(TOOL, CUBE), stdout=full, stderr=subprocess.PIPE, env=environment(), check=False, timeout=60
            )
        self.assertEqual((done.returncode, done.stderr), (2, b"mesh_to_obj: cannot write: No space left on device\n"))

    def test_closed_output(self) -> None:
        line = " ".join(f"'{word}'" for word in command(TOOL, CUBE)) + " >&-"
        done = subprocess.run(["sh", "-c", line], capture_output=True, env=environment(), check=False, timeout=60)
        self.check(done, 2, "mesh_to_obj: standard output is closed\n")


if __name__ == "__main__":
    unittest.main()
