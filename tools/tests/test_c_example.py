"""The examples in C compile without a warning. takeoff.c prints document 01's cube, what is left out, cells, and refusals;
mount.c the takeoff of STL files, of the largest too; slopes.c areas under the edition that is named; correct.c changes
one id of a mesh file and nothing else."""

from __future__ import annotations

import re
import unittest
from pathlib import Path

from mowfrost import f32, listing
from mowfrost.meshfile import MOST, mesh_file
from tests.common import CUBE_BYTES, EXAMPLES, MADE_WITH, Case
from tests.library import COMPILER, HEADER, STRICT, compiled, said
from tests.stl import MOUNT, MOUNT_FILE, head, written

PRINTED = """\
closed, best volume 8 m3 by mesh, to be relied on
volume 8 m3, box 8 m3, surface 24 m2
top 4 m2, bottom 4 m2, side 16 m2, inclined 0 m2
prism bound not computed
6 surfaces:
  4 m2 facing -1 0 0
  4 m2 facing 0 -1 0
  4 m2 facing 0 0 -1
  4 m2 facing 0 0 1
  4 m2 facing 0 1 0
  4 m2 facing 1 0 0
pieces: 1
the cube with two wrong ids: 2 of 12 triangles left out: out of range 1, slivers 1
the cube with two wrong ids: cells covered, on a rim: along z 65536, 256; along y 65536, 256; along x 65536, 256
98,305 ids: refused 1, the record is as it was
a unit of 17: refused 2, the record is as it was
a work word short: refused 3, the record is as it was
a coordinate that is no number: refused 4, the record is as it was
a clip of 2: refused 5, the record is as it was
an edition of 3: refused 7, the record is as it was
"""

NAMES = ("takeoff", "mount", "slopes", "correct")

ASKER = Path(__file__).with_name("ask.c")

# An area by slope, as slopes.c prints it.
SLOPE = re.compile(r"(top|bottom|side|inclined) (\S+) m2")

LARGEST = 10922  # triangles that mf_read_stl_large takes


@unittest.skipUnless(COMPILER, "the example in C: there is no C compiler")
class Compiled(Case):
    def test_header_and_examples_compile_without_a_warning(self) -> None:
        for source in (HEADER, ASKER, *(EXAMPLES / f"{name}.c" for name in NAMES)):
            self.assertEqual(said(str(COMPILER), *STRICT, "-fsyntax-only", "-x", "c", str(source)), (0, "", ""))

    def compiled(self, name: str) -> str:
        """The example as a program."""
        return compiled(EXAMPLES / f"{name}.c", self.folder)

    def test_what_it_prints(self) -> None:
        self.assertEqual(said(self.compiled("takeoff")), (0, PRINTED, ""))

    def test_stl_files(self) -> None:
        """The two that are kept, a solid of 10,922 triangles and more, with a triangle too many, and none at all."""
        program = self.compiled("mount")
        twins = (MOUNT * (LARGEST // len(MOUNT) + 1))[:LARGEST]
        files = {
            "mount": (MOUNT_FILE, "44 triangles, closed, best volume 0.000928 m3, to be relied on"),
            "cut": (MOUNT_FILE[:-30], "refused 5"),
            "open": (written(MOUNT[1:]), "43 triangles, open shell, "),
            "most": (written(twins), "10922 triangles, open shell, "),
            "more": (written([*twins, MOUNT[0]]), "refused 6"),
            "long": (written(twins) + b"x", "refused 5"),
            "none": (head(0), "0 triangles, degenerate, best volume 0 m3, not to be relied on"),
        }
        for name, (data, says) in files.items():
            with self.subTest(name=name):
                path = self.folder / f"{name}.stl"
                path.write_bytes(data)
                status, out, err = said(program, str(path))
                self.assertEqual((status, err), (1 if says.startswith("refused") else 0, ""))
                self.assertTrue(out.startswith(f"{path}: {says}"), out)
        self.assertEqual(said(program, "no such file")[0], 1)

    def test_slopes_of_the_hut(self) -> None:
        """As examples/README.md has them, and as its table has them."""
        program = self.compiled("slopes")
        readme = (EXAMPLES / "README.md").read_text()
        for edition, words in (1, []), (1, ["--edition", "1"]), (2, ["--edition", "2"]), (2, ["--edition", "0002"]):
            status, out, errors = said(program, *words, str(EXAMPLES / "hut.mesh"))
            self.assertEqual((status, errors), (0, ""))
            out = out.replace(f"{EXAMPLES}/", "")
            self.assertTrue(out.startswith(f"hut.mesh, edition {edition}: "), out)
            self.assertIn(out, readme)
            areas = [text for _, text in SLOPE.findall(out)]
            self.assertIn(f"| edition {edition} | {' | '.join(areas)} |\n", readme)

    def test_slopes_under_edition_1_are_the_listings(self) -> None:
        """Unless another is named; of all examples in one call."""
        files = [str(EXAMPLES / f"{name}.mesh") for name in MADE_WITH]
        status, out, errors = said(self.compiled("slopes"), *files)
        self.assertEqual((status, errors, out.count("\n")), (0, "", len(files)))
        for name, file, line in zip(MADE_WITH, files, out.splitlines()):
            found = listing.parse((EXAMPLES / f"{name}.listing").read_bytes())
            assert isinstance(found, listing.Listing)
            self.assertTrue(line.startswith(f"{file}, edition 1: "))
            areas = {slope: f"{f32.from_text(text):08x}" for slope, text in SLOPE.findall(line)}
            self.assertEqual(areas, {slope: found.values[slope] for slope in ("top", "bottom", "side", "inclined")})

    def test_what_slopes_refuses(self) -> None:
        """The file's faults by their numbers, and 7 for an edition that there is not; then 1 is the status."""
        program, hut = self.compiled("slopes"), str(EXAMPLES / "hut.mesh")
        for edition in ("0", "3", "4294967295"):
            self.assertEqual(said(program, "--edition", edition, hut), (1, f"{hut}: refused 7\n", ""))
        nan = mesh_file(0x3F800000, [0] * 8 + [0x7FC00000], [0, 1, 2])
        for data, printed in (
            (CUBE_BYTES[:-1], "refused 5"),
            (mesh_file(0, [], [0] * (MOST + 1)), "refused 6"),
            (mesh_file(0, [0] * 9, [0, 1, 2]), "refused 2"),
            (nan, "refused 4"),
        ):
            self.out.write_bytes(data)
            self.assertEqual(said(program, "--edition", "2", str(self.out))[:2], (1, f"{self.out}: {printed}\n"))
        self.out.write_bytes(nan)
        self.assertEqual(said(program, "--edition", "3", str(self.out))[:2], (1, f"{self.out}: refused 7\n"))
        self.out.write_bytes(mesh_file(0, [0] * 8, [0, 1, 2]))
        nothing = "edition 3: top 0 m2, bottom 0 m2, side 0 m2, inclined 0 m2"
        self.assertEqual(said(program, "--edition", "3", str(self.out))[:2], (0, f"{self.out}, {nothing}\n"))
        usage = (2, "", "usage: slopes_c [--edition N] FILE ..\n")
        for words in ([], ["--edition"], ["--edition", "2"], ["--editions", "2", hut], ["--edition=2", hut]):
            self.assertEqual(said(program, *words), usage)
        for word in ("", "-1", "+1", "1x", " 1", "0x1", "4294967296", "99999999999999999999"):
            self.assertEqual(said(program, "--edition", word, hut), usage)
        self.assertEqual(said(program, "no such file")[0], 1)

    def correct(self, data: bytes, position: object, id_: object) -> tuple[int, str, bytes | None]:
        """Status of correct.c, what it prints without the names of the files, and the file that it writes, if any."""
        given, out = self.folder / "given.mesh", self.folder / "out.mesh"
        given.write_bytes(data)
        out.unlink(missing_ok=True)
        status, printed, errors = said(self.compiled("correct"), str(given), str(position), str(id_), str(out))
        self.assertEqual(errors, "")
        printed = printed.replace(str(given), "GIVEN").replace(str(out), "OUT")
        return status, printed, out.read_bytes() if out.exists() else None

    def test_a_corrected_id(self) -> None:
        wrong = (EXAMPLES / "cube-wrong-id.mesh").read_bytes()
        right = CUBE_BYTES + bytes.fromhex("02000000 0400 0000")
        printed = "GIVEN: id 2 was 8, and is 3 in OUT, 270 bytes\n"
        self.assertEqual(self.correct(wrong, 2, 3), (0, printed, right))
        named = printed.strip().replace("GIVEN", "cube-wrong-id.mesh").replace("OUT", "../target/right.mesh")
        self.assertIn(named, (EXAMPLES / "README.md").read_text())
        self.assertEqual(self.correct(right, 2, 3), (0, printed.replace("8", "3"), right))
        printed = "GIVEN: id 35 was 5, and is 4294967295 in OUT, 270 bytes\n"
        printed += "OUT: 4294967295 names no vertex, there are 8\n"
        last = right[:-12] + b"\xff\xff\xff\xff" + right[-8:]
        self.assertEqual(self.correct(CUBE_BYTES, 35, 2**32 - 1), (0, printed, last))

    def test_all_else_stays(self) -> None:
        """Every bit of unit and floats, NaNs among them, the flags, and what is left over from threes."""
        floats = [0x7F800001, 0xFFFFFFFF, 0x7FC00000, 0x80000000, 1, 0x7F800000, 0x3F800000]
        full = [9] * (MOST - len(floats)) + floats
        for unit, vertices, ids in ((0xFFC00001, floats, [7, 8, 9, 10]), (0x3F800000, full, [9] * MOST)):
            data = mesh_file(unit, vertices, ids, True, "overlapping")
            changed = mesh_file(unit, vertices, [*ids[:-1], 5], True, "overlapping")
            self.assertEqual(self.correct(data, len(ids) - 1, 5)[::2], (0, changed))

    def test_what_is_not_corrected(self) -> None:
        for data, position, printed in (
            (CUBE_BYTES[:-1], 0, "GIVEN: refused 5\n"),
            (CUBE_BYTES + b"x", 0, "GIVEN: refused 5\n"),
            (mesh_file(0, [0] * MOST, [0] * MOST, True) + b"x", 0, "GIVEN: refused 5\n"),
            (mesh_file(0, [], [0] * (MOST + 1)), 0, "GIVEN: refused 6\n"),
            (CUBE_BYTES, 36, "GIVEN: there is no id 36: there are 36, from 0 on\n"),
            (mesh_file(0, [], []), 0, "GIVEN: there is no id 0: there are 0, from 0 on\n"),
        ):
            self.assertEqual(self.correct(data, position, 0), (1, printed, None))

    def test_wrong_usage(self) -> None:
        program = self.compiled("correct")
        usage = (2, "", "usage: correct_c FILE POSITION ID OUT\n")
        cube = str(EXAMPLES / "cube.mesh")
        self.assertEqual(said(program), usage)
        for word in ("", "-1", "+1", "1x", " 1", "0x1", "4294967296", "99999999999999999999"):
            self.assertEqual(said(program, cube, word, "1", "none"), usage)
            self.assertEqual(said(program, cube, "1", word, "none"), usage)
        self.assertEqual(said(program, "no such file", "1", "1", "none")[0], 1)
        status, out, errors = said(program, cube, "1", "1", str(self.folder / "absent" / "out.mesh"))
        self.assertEqual((status, out), (1, ""))
        self.assertIn("No such file", errors)


class Readme(unittest.TestCase):
    def test_it_has_the_command(self) -> None:
        readme = (EXAMPLES / "README.md").read_text()
        flags = " ".join(STRICT[:-1])
        for name in NAMES:
            command = f"cc {flags} -I../include {name}.c ../target/staticlib/libcapi.a -o ../target/{name}_c"
            self.assertIn(command, readme)


if __name__ == "__main__":
    unittest.main()
