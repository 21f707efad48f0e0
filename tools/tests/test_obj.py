"""OBJ to mesh: what is read, and the line and reason of what is not."""

from __future__ import annotations

import unittest

from mowfrost import f32, faces, meshfile, obj
from tests.common import CUBE_BYTES, CUBE_VERTICES

UNIT = f32.from_text("1")
CUBE_QUADS = "f 1 3 4 2\nf 5 6 8 7\nf 1 2 6 5\nf 3 7 8 4\nf 1 5 7 3\nf 2 4 8 6\n"
TRIANGLE = "v 0 0 0\nv 1 0 0\nv 0 1 0\n"

# A line, and why it cannot be read.
BAD_LINES = {
    "v 1 2": "a vertex has 3 numbers, 4 with a weight, 6 or 7 with a colour; here are 2",
    "v": "a vertex has 3 numbers, 4 with a weight, 6 or 7 with a colour; here are 0",
    "v 1 2 3 4 5": "a vertex has 3 numbers, 4 with a weight, 6 or 7 with a colour; here are 5",
    "v 1 2 3 4 5 6 7 8": "a vertex has 3 numbers, 4 with a weight, 6 or 7 with a colour; here are 8",
    "v 1 two 3": "'two' is not a number",
    "v 1 2,5 3": "'2,5' is not a number",
    "v nan 2 3": "'nan' is not a number",
    "v 1 2 3 white": "'white' is not a number",
    "v 1 2 3 \\ ": "'\\\\' is not a number",
    "v 1 2 1e39": "'1e39' is too large for an f32",
    "v -3.40282356779733661637539395458142568448e38 0 0": "'-3.4028235677973366163753939545814256844..' is too large "
    "for an f32",
    "v 1 2 \x1b[2J": "'\\x1b[2J' is not a number",
    "f": "a face has at least 3 corners; here are 0",
    "f 1": "a face has at least 3 corners; here is 1",
    "f 1 2": "a face has at least 3 corners; here are 2",
    "f 0 1 2": "index 0; the first vertex is 1",
    "f 1 2 -0": "index -0; the first vertex is 1",
    "f 1 2 -00/1": "index -00; the first vertex is 1",
    "f 1 2 4": "index 4, but the file has 3 vertices",
    "f 1 2 004//7": "index 004, but the file has 3 vertices",
    "f 1 2 99999999999999999999": "index 99999999999999999999, but the file has 3 vertices",
    "f 1 2 " + "9" * 5000: "index " + "9" * 40 + ".., but the file has 3 vertices",
    "f -4 1 2": "index -4, but above it are 3 vertices",
    "f 1 -99999999999999999999 2": "index -99999999999999999999, but above it are 3 vertices",
    "f 1 2 3.0": "'3.0' is no corner; it would be v, v/vt, v//vn or v/vt/vn",
    "f 1/ 2/ 3/": "'1/' is no corner; it would be v, v/vt, v//vn or v/vt/vn",
    "f 1/1/1/1 2 3": "'1/1/1/1' is no corner; it would be v, v/vt, v//vn or v/vt/vn",
    "f 1 2 3 \\# not at the end": "'\\\\' is no corner; it would be v, v/vt, v//vn or v/vt/vn",
    "f /1 2 3": "'/1' is no corner; it would be v, v/vt, v//vn or v/vt/vn",
    "f 1 2 x": "'x' is no corner; it would be v, v/vt, v//vn or v/vt/vn",
    "surf 0 1 0 1 1 2 3 4": "'surf' is of a free-form curve or surface; only polygons are read",
    "cstype bspline": "'cstype' is of a free-form curve or surface; only polygons are read",
    "end": "'end' is of a free-form curve or surface; only polygons are read",
    "call other.obj": "'call' takes in something from outside this file; that is not followed",
    "solid cube": "'solid' is no statement that is known here",
    "V 1 2 3": "'V' is no statement that is known here",
    "x" * 100: "'" + "x" * 40 + "..' is no statement that is known here",
}

PASSED_OVER = """\
# comment
mtllib a.mtl b.mtl
o name of things
g one two
s off
s 1
mg 1 0.5
usemtl brick #2
usemap none
vt 0.5 0.5
vn 0 0 1
vp 1 2
l 1 2
p 1
lod 3
bevel on
c_interp on
d_interp off
shadow_obj a.obj
trace_obj a.obj
maplib x

"""


def ids(text: str) -> list[int]:
    """The ids of faces on the eight vertices of a cube; there must be no fault."""
    mesh, faults = obj.read((CUBE_VERTICES + text).encode())
    assert not faults, faults
    made = faces.triangles(mesh)
    assert not made.faults, made.faults
    return made.ids


def mesh_file(mesh: obj.Mesh) -> bytes:
    """The bytes of the mesh file."""
    return meshfile.mesh_file(UNIT, bits(mesh), faces.triangles(mesh).ids)


def bits(mesh: obj.Mesh) -> list[int]:
    """The floats of all vertices."""
    return [number for vertex in mesh.vertices for number in vertex.bits]


class Mesh(unittest.TestCase):
    def test_cube_to_the_byte(self) -> None:
        mesh, faults = obj.read((CUBE_VERTICES + CUBE_QUADS).encode())
        self.assertEqual(faults, [])
        self.assertEqual(mesh_file(mesh), CUBE_BYTES)

    def test_fans(self) -> None:
        self.assertEqual(ids("f 1 2 3"), [0, 1, 2])
        self.assertEqual(ids("f 1 2 4 3"), [0, 1, 3, 0, 3, 2])
        six = "v 9 0 0\nv 11 0 0\nv 12 2 0\nv 11 4 0\nv 9 4 0\nv 8 2 0\nf 9 10 11 12 13 14\n"
        self.assertEqual(ids(six), [8, 9, 10, 8, 10, 11, 8, 11, 12, 8, 12, 13])

    def test_corner_forms(self) -> None:
        self.assertEqual(ids("f 1/9 2//9 4/9/-9 003"), [0, 1, 3, 0, 3, 2])

    def test_negative_indices_count_from_the_face(self) -> None:
        self.assertEqual(ids("f -8 -7 -1\nv 0 0 9\nf -9 1 -1"), [0, 1, 7, 0, 0, 8])

    def test_positive_index_may_look_down(self) -> None:
        self.assertEqual(ids("f 1 2 9\nv 0 0 9\n"), [0, 1, 8])

    def test_repeated_corner_is_kept(self) -> None:
        self.assertEqual(ids("f 1 1 2"), [0, 0, 1])

    def test_vertices_are_kept_as_they_stand(self) -> None:
        mesh, faults = obj.read(b"v -0 1e-46 0.1\nv 7 7 7\nv 7 7 7\n")
        self.assertEqual((bits(mesh)[:3], len(bits(mesh)), faults), ([0x80000000, 0, 0x3DCCCCCD], 9, []))

    def test_weight_and_colour_are_ignored(self) -> None:
        mesh, faults = obj.read(b"v 1 1 1 0.5\nv 1 1 1 255 0 1e99\nv 1 1 1 1 0.1 0.2 0.3\n")
        self.assertEqual((bits(mesh), faults), ([0x3F800000] * 9, []))

    def test_passed_over(self) -> None:
        mesh, faults = obj.read(PASSED_OVER.encode())
        self.assertEqual((mesh, faults), (obj.Mesh(), []))

    def test_nothing_is_a_mesh_of_nothing(self) -> None:
        self.assertEqual(obj.read(b""), (obj.Mesh(), []))


class Lines(unittest.TestCase):
    def test_comments_and_spaces(self) -> None:
        self.assertEqual(ids("# f 9 9 9\n\n  f\t1  2 3 # last\n#"), [0, 1, 2])

    def test_continuation(self) -> None:
        self.assertEqual(ids("f 1 \\\n 2 \\\r\n3\nf 4 5 6\\\n\n"), [0, 1, 2, 3, 4, 5])

    def test_backslash_in_a_comment_says_nothing(self) -> None:
        self.assertEqual(ids("# models\\\nf 1 2 3 # here\\\nf 4 5 6"), [0, 1, 2, 3, 4, 5])

    def test_line_ends_and_byte_order_mark(self) -> None:
        for end in ("\n", "\r\n", "\r"):
            text = "\ufeff" + (CUBE_VERTICES + CUBE_QUADS).replace("\n", end)
            mesh, faults = obj.read(text.encode())
            self.assertEqual(mesh_file(mesh), CUBE_BYTES)

    def test_name_in_another_encoding(self) -> None:
        self.assertEqual(obj.read(b"o M\xfchle\x85\n" + TRIANGLE.encode())[1], [])


class Faults(unittest.TestCase):
    def test_each_bad_line(self) -> None:
        for line, reason in BAD_LINES.items():
            with self.subTest(line=line[:60]):
                before = TRIANGLE if not line.startswith("v") else ""
                faults = obj.read(f"{before}# here\n{line}\nf 1 1 1\n".encode())[1]
                self.assertEqual(faults, [obj.Fault(2 + before.count("\n"), reason)])

    def test_all_in_the_order_of_lines(self) -> None:
        text = "f 1 2 7\nv x 0 0\nv 0 0 0\nwhat\nf 1 2 3\nf 1 2 2\n"
        found = [(fault.line, fault.reason) for fault in obj.read(text.encode())[1]]
        self.assertEqual([line for line, _ in found], [1, 2, 4, 5])
        self.assertEqual(found[0][1], "index 7, but the file has 2 vertices")

    def test_a_joined_line_has_its_first_number(self) -> None:
        self.assertEqual([f.line for f in obj.read(b"\nf 1 \\\n2 \\\n3\n")[1]], [2])

    def test_file_that_ends_in_a_backslash(self) -> None:
        for text in (b"v 1 2 3 \\", b"v 1 2 3 \\\n", b"o name\\\n"):
            reason = "a backslash says that the line goes on, but the file ends"
            self.assertEqual(obj.read(text)[1], [obj.Fault(1, reason)])


class MeshFile(unittest.TestCase):
    def test_flags(self) -> None:
        plain = meshfile.mesh_file(UNIT, [], [])
        self.assertEqual(plain, bytes.fromhex("04000000 0100 0000803f 00000000 0200 00000000 0300"))
        self.assertEqual(meshfile.mesh_file(UNIT, [], [], clip=True), plain + bytes.fromhex("02000000 0400 0100"))
        for number, name in enumerate(("self_intersecting", "degenerate", "hole_outside", "overlapping"), 1):
            flags = bytes.fromhex("02000000 0400 00") + bytes([number])
            self.assertEqual(meshfile.mesh_file(UNIT, [], [], defect=name), plain + flags)
        self.assertTrue(meshfile.mesh_file(UNIT, [], [], True, "overlapping").endswith(bytes.fromhex("0400 0104")))

    def test_how_many(self) -> None:
        most = "the program takes at most 1536 floats and 1536 ids"
        self.assertIsNone(meshfile.too_many(1536, 1536))
        self.assertEqual(meshfile.too_many(1537, 0), f"1537 vertex floats (512 vertices); {most}")
        self.assertEqual(meshfile.too_many(0, 1537), f"1537 ids (512 triangles); {most}")
        self.assertEqual(
            meshfile.too_many(3000, 3000), f"3000 vertex floats (1000 vertices) and 3000 ids (1000 triangles); {most}"
        )


if __name__ == "__main__":
    unittest.main()
