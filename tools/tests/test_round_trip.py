"""Mesh file to OBJ and back: the same bytes, whatever is in the file; and a file that was corrected on the way."""

from __future__ import annotations

import contextlib
import io
import random
import re
import subprocess
import unittest
from typing import Callable

import mesh_to_obj
import obj_to_mesh
from mowfrost import back, f32
from mowfrost.meshfile import DEFECTS, GREATEST_UNIT, LEAST_UNIT, MOST, mesh_file
from tests.common import CUBE_BYTES, EXAMPLES, MADE_WITH, SCRIPT, Case, needs_program, run

WRONG = EXAMPLES / "cube-wrong-id.mesh"
ONE = 0x3F800000

# What obj_to_mesh.py says of coordinates that takeoff refuses; nothing else may be said of a file on its way back.
TOO_LARGE = re.compile(r"is above 8589934592|no whole origin near|would help|and \d+ more")


def told(convert: Callable[..., bytes], *given: object) -> tuple[bytes, list[str]]:
    """What a tool makes, and the lines that it says meanwhile."""
    with contextlib.redirect_stderr(io.StringIO()) as errors:
        made = convert(*given)
    return made, errors.getvalue().splitlines()


def options(text: bytes) -> list[str]:
    """The words that the OBJ's top has for the way back, up to the names of the files."""
    found = re.search(rb"^# back: obj_to_mesh\.py (.*) --out FILE\.mesh FILE\.obj$", text, re.MULTILINE)
    assert found is not None, text[:300]
    return found[1].decode().split()


def bits(chance: random.Random) -> int:
    """The bits of a finite f32: any, a small or a huge one, a whole one, one on a national grid, or a zero."""
    number = chance.choice((
        chance.randrange(0x7F800000),
        chance.randrange(0x800000),
        chance.randrange(0x7F7FFF00, 0x7F800000),
        f32.from_text(str(chance.randrange(10000))),
        f32.from_text(str(chance.randrange(10**9) / 100)),
        0,
    ))
    return number | chance.choice((0, f32.SIGN))


class There(unittest.TestCase):
    def check_same(self, data: bytes) -> list[str]:
        """The bytes come back, by the command at the OBJ's top; what the way back said. The way there says nothing."""
        text, said = told(mesh_to_obj.converted, data, "file")
        self.assertEqual(said, [])
        again, said = told(obj_to_mesh.converted, text, obj_to_mesh.arguments([*options(text), "file"]))
        self.assertEqual(again, data)
        self.assertEqual([line for line in said if not TOO_LARGE.search(line)], [])
        return said

    def test_by_chance(self) -> None:
        """All finite bits, units and flags; repeated ids, ids in any order; vertices that no triangle uses."""
        chance = random.Random(6)
        for _ in range(120):
            vertices = chance.randrange(1, 30)
            floats = [bits(chance) for _ in range(3 * vertices)]
            ids = [chance.randrange(vertices) for _ in range(3 * chance.randrange(1, 30))]
            unit = chance.choice((chance.randrange(LEAST_UNIT, GREATEST_UNIT + 1), ONE, LEAST_UNIT, GREATEST_UNIT))
            flags = chance.choice((False, True)), chance.choice((None, *DEFECTS)), chance.choice((False, True))
            self.check_same(mesh_file(unit, floats, ids, *flags))

    def test_the_largest_file(self) -> None:
        chance = random.Random(7)
        floats = [bits(chance) for _ in range(MOST)]
        self.check_same(mesh_file(ONE, floats, [chance.randrange(MOST // 3) for _ in range(MOST)], True, "overlapping"))

    def test_every_unit_of_a_spread(self) -> None:
        chance = random.Random(8)
        units = [LEAST_UNIT, LEAST_UNIT + 1, GREATEST_UNIT - 1, GREATEST_UNIT]
        for unit in units + [chance.randrange(LEAST_UNIT, GREATEST_UNIT) for _ in range(100)]:
            self.assertEqual(self.check_same(mesh_file(unit, [0, 0, ONE] * 3, [0, 1, 2])), [])

    def test_nothing_is_said_of_rounding(self) -> None:
        """On a national grid the shortest decimals lie up to 0.25 m off. An origin that was advised would move them."""
        floats = [f32.from_text(text) for text in ("597000.3", "6643000.4", "12.7", "597004.3", "6643007.9", "1000.3")]
        data = mesh_file(0x41800000, floats, [0, 1, 1])
        self.assertEqual(self.check_same(data), [])
        text, _ = told(mesh_to_obj.converted, data, "file")
        self.assertIn(b"\nv 597000.3125 6643000.5 12.7", text)
        moved = mesh_file(0x41800000, floats[:2] + [ONE] + floats[3:5] + [ONE], [0, 1, 1])
        text, _ = told(mesh_to_obj.converted, moved, "file")
        words = [*options(text), "--origin=597000,6643000,1", "file"]
        less, said = told(obj_to_mesh.converted, text, obj_to_mesh.arguments(words))
        exact = [f32.from_text(text) for text in ("0.3125", "0.5", "0", "4.3125", "8", "0")]
        self.assertEqual((less, said), (mesh_file(0x41800000, exact, [0, 1, 1]), []))

    def test_an_editors_marks_and_line_ends(self) -> None:
        text, _ = told(mesh_to_obj.converted, CUBE_BYTES, "file")
        for other in (text.replace(b"\n", b"\r\n"), b"\xef\xbb\xbf" + text, text.replace(b" ", b"  "), text[:-1]):
            again, said = told(obj_to_mesh.converted, other, obj_to_mesh.arguments(["--unit", "1", "file"]))
            self.assertEqual((again, said), (CUBE_BYTES, []))


class Options(unittest.TestCase):
    """Of a unit or a flag that is forgotten on the way back there is a warning."""

    def said(self, data: bytes, *words: str) -> list[str]:
        """What is said on the way back with these options."""
        text, _ = told(mesh_to_obj.converted, data, "file")
        return told(obj_to_mesh.converted, text, obj_to_mesh.arguments([*words, "file"]))[1]

    def test_what_is_forgotten(self) -> None:
        floats = [0, 0, ONE] * 3
        plain = mesh_file(0x3A83126F, floats, [0, 1, 2])
        head = "obj_to_mesh: warning: file, line 3: the mesh file that this OBJ is from is made by"
        self.assertEqual(self.said(plain), [f"{head} --unit 0.001, but here by --unit 1"])
        self.assertEqual(self.said(plain, "--unit", "1e-3"), [])
        self.assertEqual(self.said(plain, "--unit", "0.0010000000474974513053894043"), [])
        self.assertEqual(
            self.said(plain, "--unit", "0.001", "--clip"), [f"{head} --unit 0.001, but here by --unit 0.001 --clip"]
        )
        flags = mesh_file(0x35800001, floats, [0, 1, 2], True, "self_intersecting")
        made_by = "--unit 9.536744e-7 --clip --defect self_intersecting"
        self.assertEqual(self.said(flags, "--clip"), [f"{head} {made_by}, but here by --unit 1 --clip"])
        self.assertEqual(self.said(flags, *made_by.split()), [])
        empty = mesh_file(ONE, floats, [0, 1, 2], flag_record=True)
        self.assertEqual(self.said(empty), [f"{head} --unit 1 --flag-record, but here by --unit 1"])

    def test_no_such_comment(self) -> None:
        say = b"# back: obj_to_mesh.py "
        close = (say, say + b"--unit 1\n", say + b"\x1b --out ", b"v" + say + b"1 --out ")
        for text in (b"", b"v 1 2 3\n", b"# back\n", *close):
            self.assertIsNone(back.asked_for(text))
        marked = b"\xef\xbb\xbf# a\r\n" + say + b"--unit 2 --out a b\r\n"
        self.assertEqual(back.asked_for(marked), (2, "--unit 2"))


class Examples(Case):
    def test_mesh_to_obj_and_back(self) -> None:
        for name in MADE_WITH:
            data = (EXAMPLES / f"{name}.mesh").read_bytes()
            text = run("mesh_to_obj.py", f"{name}.mesh", folder=EXAMPLES)
            self.check(text, 0, "", text.stdout)
            self.check(run("obj_to_mesh.py", *options(text.stdout), "-", given=text.stdout), 0, "", data)

    def test_obj_to_mesh_to_obj_and_back(self) -> None:
        both = ["--clip", "--defect", "overlapping"]
        flags = (["--clip"], ["--defect", "hole_outside"], ["--flag-record"], ["--flag-record", "--clip"], both, [])
        for path, more in zip(sorted(EXAMPLES.glob("*.obj")), flags):
            data = run("obj_to_mesh.py", *MADE_WITH[path.stem], *more, str(path)).stdout
            text = run("mesh_to_obj.py", "-", given=data)
            self.check(text, 0, "", text.stdout)
            self.check(run("obj_to_mesh.py", *options(text.stdout), "-", given=text.stdout), 0, "", data)

    def test_all_are_tried(self) -> None:
        self.assertEqual({path.stem for path in EXAMPLES.glob("*.mesh")}, {*MADE_WITH, WRONG.stem})
        self.assertEqual(len(list(EXAMPLES.glob("*.obj"))), 6)


class Corrected(Case):
    """What a planner does: the file is read as text, one number is put right, and it comes back."""

    def corrected(self, data: bytes, old: bytes, new: bytes) -> bytes:
        """The mesh file of an OBJ in which one line was changed."""
        text = run("mesh_to_obj.py", "-", given=data).stdout
        self.assertEqual(text.count(old), 1)
        done = run("obj_to_mesh.py", *options(text), "-", given=text.replace(old, new))
        self.check(done, 0, "", done.stdout)
        return done.stdout

    def test_an_id_that_names_no_vertex(self) -> None:
        wrong = WRONG.read_bytes()
        self.assertEqual(wrong, CUBE_BYTES[:126] + b"\x08" + CUBE_BYTES[127:])
        self.assertEqual(self.corrected(wrong, b"\nf 1 3 9 #", b"\nf 1 3 4 #"), CUBE_BYTES)

    def test_the_readmes_correction(self) -> None:
        readme = (EXAMPLES / "README.md").read_text()
        there = "mesh_to_obj.py --out ../target/wrong.obj cube-wrong-id.mesh"
        again = "obj_to_mesh.py --unit 1 --out ../target/right.mesh ../target/wrong.obj"
        says = "triangle 0: id 8 names no vertex, there are 8; obj_to_mesh.py refuses line 14 of the OBJ until it is "
        for part in (f"../tools/{there}\n", f"../tools/{again}\n", "'14s/.*/f 1 3 4/'", says):
            self.assertIn(part, readme)
        here, target = self.folder / "examples", self.folder / "target"
        here.mkdir()
        target.mkdir()
        (here / WRONG.name).write_bytes(WRONG.read_bytes())
        self.check(run(*there.split(), folder=here), 0, says)
        lines = (target / "wrong.obj").read_text().splitlines()
        self.assertIn("```\n" + "\n".join(lines[12:15]) + "\n```\n", readme)
        lines[13] = "f 1 3 4"
        (target / "wrong.obj").write_text("\n".join(lines) + "\n")
        self.check(run(*again.split(), folder=here), 0, "")
        self.assertEqual((target / "right.mesh").read_bytes(), CUBE_BYTES)

    def test_a_triangle_that_is_turned(self) -> None:
        turned = CUBE_BYTES[:122] + CUBE_BYTES[126:130] + CUBE_BYTES[122:126] + CUBE_BYTES[130:]
        self.assertEqual(self.corrected(turned, b"\nf 1 4 3\n", b"\nf 1 3 4\n"), CUBE_BYTES)

    def test_a_bottom_for_the_open_plinth(self) -> None:
        data = (EXAMPLES / "open-plinth.mesh").read_bytes()
        text = run("mesh_to_obj.py", "-", given=data).stdout + b"f 1 4 3 2\n"
        done = run("obj_to_mesh.py", *options(text), "-", given=text)
        self.check(done, 0, "", mesh_with(data, [0, 3, 2, 0, 2, 1]))

    @needs_program("a corrected file")
    def test_the_verdict_before_and_after(self) -> None:
        wrong = WRONG.read_bytes()
        before = listing(wrong)
        self.assertEqual(before[0], "quality open_shell")
        self.assertEqual(before[15:20], ["pieces 1", "used 11", "range 1", "sliver 0", "surfaces 6"])
        after = listing(self.corrected(wrong, b"\nf 1 3 9 #", b"\nf 1 3 4 #"))
        self.assertEqual(after, (EXAMPLES / "cube.listing").read_text().splitlines())


def mesh_with(data: bytes, more: list[int]) -> bytes:
    """A mesh file without flags, with more ids behind its own."""
    at = 16 + int.from_bytes(data[10:14], "little")
    length = len(data) - at - 6
    words = b"".join(id_.to_bytes(4, "little") for id_ in more)
    return data[:at] + (length + len(words)).to_bytes(4, "little") + data[at + 4 :] + words


def listing(data: bytes) -> list[str]:
    """The lines that takeoff prints."""
    done = subprocess.run([str(SCRIPT)], input=data, capture_output=True, check=False, timeout=60)
    return done.stdout.decode().splitlines()


if __name__ == "__main__":
    unittest.main()
