"""Rounding and place: what is moved, what the program refuses, the origin that is taken off and the one advised."""

from __future__ import annotations

import subprocess
import unittest

from mowfrost import f32, obj, place
from tests.common import CUBE_BYTES, EXAMPLES, Case, command, environment, run
from tests.shapes import payloads

TOOL = "obj_to_mesh.py"
CUBE = (EXAMPLES / "cube.obj").read_text()


def triangle(*xs: str) -> bytes:
    """A triangle with these first coordinates."""
    y = iter(("0", "0", "1"))
    return "".join(f"v {x} {next(y)} 0\n" for x in xs).encode() + b"f 1 2 3\n"


def notes(text: bytes, origin: obj.Origin = (0, 0, 0), unit: str = "1") -> tuple[list[tuple[int, str]], list[str]]:
    """Lines with what is said of them, and what is said in all."""
    mesh, faults = obj.read(text, origin)
    assert not faults, faults
    lines, told = place.notes(mesh.vertices, origin, f32.from_text(unit))
    return [(note.line, note.reason) for note in lines], told


class Moved(unittest.TestCase):
    def test_nothing_to_say(self) -> None:
        for text in (b"", CUBE.encode(), triangle("0.1", "1000.3", "-2000.7"), triangle("0.1", "16777216", "1e-60")):
            self.assertEqual(notes(text), ([], []))

    def test_the_limit_is_a_tenth_of_a_millimetre(self) -> None:
        """From 2048 on an f32 steps by 2^-12, 0.000244140625, so that a number can lie just so far from both."""
        for text, far in (
            ("2048.0001", False),
            ("2048.00010000000000000000000000000000001", True),
            ("2048.00014414062499999999999999999999999", True),
            ("2048.000144140625", False),
        ):
            lines, _ = notes(triangle("0", "1", text))
            self.assertEqual([line for line, _ in lines], [3] if far else [], text)

    def test_the_unit_counts(self) -> None:
        """From 2^24 on by 2: half a unit more than that is moved by at most 1, which is a millimetre, or 16 m."""
        text = triangle("0", "1", "16777217")
        self.assertEqual(notes(text, unit="0.00009"), ([], []))
        self.assertEqual(notes(text, unit="0.001")[0], [(3, "rounding to f32 moves '16777217' by 0.00101 m")])
        self.assertEqual(notes(text, unit="16")[0], [(3, "rounding to f32 moves '16777217' by 16 m")])

    def test_lines_the_farthest_and_an_origin(self) -> None:
        lines, told = notes(b"v 597000.3 6643000.4 1\n\nv 597004.3 6643000.4 2\nv 597000.5 6643000.65 1\nf 1 2 3\n")
        self.assertEqual([line for line, _ in lines], [1, 1, 3, 3, 4])
        self.assertEqual(lines[0][1], "rounding to f32 moves '597000.3' by 0.0125 m")
        farthest = "the farthest is '6643000.65' in line 4, by 0.15 m"
        advised = "--origin=597000,6643000,0 would help"
        self.assertEqual(told, [f"coordinates moved by more than 0.0001 m: 5; {farthest}", advised])

    def test_an_origin_that_is_there_is_bettered(self) -> None:
        text = triangle("-597000.3", "-597001.3", "-597002.3")
        self.assertEqual(notes(text, (5, 6, 7))[1][1], "--origin=-597003,6,7 would help")
        self.assertEqual(notes(text, (-597003, 6, 7)), ([], []))

    def test_a_model_that_is_too_large(self) -> None:
        told = notes(triangle("0.3", "1", "16777217.5"))[1]
        self.assertEqual(told[1], "no whole origin near the model's least corner helps; it is too large for f32")
        told = notes(triangle("1000000000.3", "1000000001", "1003000000.7"))[1]
        self.assertEqual(told[1], "--origin=1000000000,0,0 would help; that still leaves 0.05 m")


class Refused(unittest.TestCase):
    WHY = "is above 8589934592, so the program refuses it (4)"

    def test_from_the_first_that_is_too_large(self) -> None:
        self.assertEqual(notes(triangle("8589934592", "-8589934592", "0")), ([], []))
        lines, told = notes(triangle("8589935616", "8589934592", "-8589935616"))
        self.assertEqual(lines, [(1, f"'8589935616' {self.WHY}"), (3, f"'-8589935616' {self.WHY}")])
        self.assertEqual(told, ["no whole origin near the model's least corner helps; it is too large for f32"])

    def test_an_origin_helps(self) -> None:
        text = triangle("8589935616", "8589936640", "8589935616")
        self.assertEqual(notes(text)[1], ["--origin=8589935616,0,0 would help"])
        self.assertEqual(notes(text, (8589935616, 0, 0)), ([], []))

    def test_rounding_decides(self) -> None:
        """8589935104 lies half-way: to even, to the limit itself, which passes."""
        self.assertNotIn((1, f"'8589935104' {self.WHY}"), notes(triangle("8589935104", "0", "0"))[0])
        self.assertIn((1, f"'8589935105' {self.WHY}"), notes(triangle("8589935105", "0", "0"))[0])

    def test_two_vertices_are_not_looked_at(self) -> None:
        self.assertEqual(notes(b"v 8589935616 0 0\nv 0 0 0\nf 1 2 1\n"), ([], []))


class Origins(Case):
    def test_exact_before_rounding(self) -> None:
        """Each of these is the f32 nearest to the difference, not the difference of f32 numbers."""
        text = "v 597000.3 -6643000.7 1e3\nv 16777217.1 0 -0\nv 1e38 5 .25\nf 1 2 3\n"
        done = run(TOOL, "--origin=597000,-6643001,-2", "-", given=text.encode())
        expected = ["0.3", "0.3", "1002", "16180217.1", "6643001", "2", "1e38", "6643006", "2.25"]
        found = [f32.value(f32.from_text(text)) for text in expected]
        self.assertEqual((done.returncode, payloads(done.stdout)[1]), (0, found))

    def test_too_large_only_after_the_origin(self) -> None:
        big = "340282356779733661637539395458142568447"
        text = triangle("0", "1", f"-{big}")
        done = run(TOOL, "--origin=7,0,0", "-", given=text)
        self.check(done, 1, f"line 3: '-{big}' less 7 is too large for an f32\n")
        done = run(TOOL, "--origin=-7,0,0", "-", given=text)
        self.check(done, 0, "no whole origin near the model's least corner helps", done.stdout)

    def test_no_origin_is_zeros(self) -> None:
        for args in ([], ["--origin", "0,0,0"], ["--origin=-0,+0,00"]):
            self.check(run(TOOL, *args, "-", given=CUBE.encode()), 0, "", CUBE_BYTES)
        done = run(TOOL, "--origin=0,0,0", "-", given=triangle("-0", "1", "1"))
        self.assertEqual(done.stdout[16:20], bytes.fromhex("00000080"))

    def test_the_place_does_not_show(self) -> None:
        moved = CUBE.replace("v 0", "v 40000000000").replace("v 2", "v 40000000002")
        self.check(run(TOOL, "--origin=40000000000,0,0", "-", given=moved.encode()), 0, "", CUBE_BYTES)

    def test_what_is_no_origin(self) -> None:
        wrong = ["1,2", "1,2,3,4", "1.0,2,3", "1e3,2,3", "0.5,0,0", "1, 2, 3", "a,b,c", "", ",,", "1;2;3"]
        for text in [*wrong, "9" * 41 + ",0,0"]:
            done = run(TOOL, f"--origin={text}", "--out", str(self.out), "-", given=CUBE.encode())
            self.check(done, 2, "is not three whole numbers, as 597000,6643000,0 is")
        self.assertFalse(self.out.exists())


class Warnings(Case):
    def test_twenty_lines_and_the_sum(self) -> None:
        vertices = "".join(f"v 16777216 {at} {20000000 + at}.5\n" for at in range(23))
        done = run(TOOL, "--out", str(self.out), "-", given=(vertices + "f 1 2 3\n").encode())
        first = "line 1: rounding to f32 moves '20000000.5' by 0.5 m"
        self.check(done, 0, f"obj_to_mesh: warning: standard input, {first}\n")
        lines = done.stderr.decode().splitlines()
        self.assertEqual(len(lines), 23)
        self.assertEqual(lines[20], "obj_to_mesh: warning: and 3 more")
        self.assertIn("moved by more than 0.0001 m: 23; the farthest is '20000000.5' in line 1, by 0.5 m", lines[21])
        self.assertEqual(lines[22], "obj_to_mesh: warning: --origin=0,0,20000000 would help")
        self.assertTrue(self.out.exists())

    def test_a_polygon_that_is_not_flat(self) -> None:
        text = b"v 0 0 0\nv 4 0 2\nv 4 4 0\nv 0 4 0\nf 1 2 3 4\n"
        done = run(TOOL, "-", given=text)
        said = "line 5: the polygon is not flat: its triangles have 4.88% more area than it has as a whole"
        self.check(done, 0, f"obj_to_mesh: warning: standard input, {said}", done.stdout)
        self.assertEqual(payloads(done.stdout)[2], [0, 1, 2, 0, 2, 3])

    def test_polygons_that_are_refused(self) -> None:
        vertices = b"v 0 0 0\nv 2 2 0\nv 2 0 0\nv 0 1 0\nv 0 2 0\n"
        done = run(TOOL, "--out", str(self.out), "-", given=vertices + b"f 1 2 3\nf 1 -4 3 -2\nf 1/1 2/1 3/1 5/1\n")
        said = "line 7: the polygon crosses itself: side 1 -4 and side 3 -2"
        self.check(done, 1, f"obj_to_mesh: standard input, {said}\n")
        self.assertIn("line 8: the polygon crosses itself: what it has upwards", done.stderr.decode())
        self.assertFalse(self.out.exists())

    def test_closed_standard_error_leaves_the_bytes_alone(self) -> None:
        obj_file = self.folder / "far.obj"
        obj_file.write_bytes(triangle("16777217", "1", "0"))
        told = run(TOOL, str(obj_file))
        self.assertIn(b"warning", told.stderr)
        line = " ".join(f"'{word}'" for word in command(TOOL, str(obj_file))) + " 2>&-"
        done = subprocess.run(["sh", "-c", line], stdout=subprocess.PIPE, env=environment(), check=False, timeout=60)
        self.assertEqual((done.returncode, done.stdout), (0, told.stdout))


if __name__ == "__main__":
    unittest.main()
