"""obj_to_mesh.py from outside: files, pipes, flags, limits, messages and exit status."""

from __future__ import annotations

import os
import subprocess
import unittest
from pathlib import Path

from tests.common import CUBE_BYTES, EXAMPLES, Case, command, environment, run

TOOL = "obj_to_mesh.py"
CUBE = str(EXAMPLES / "cube.obj")
TRIANGLE = b"v 0 0 0\nv 1 0 0\nv 0 1 0\nf 1 2 3\n"


class Files(Case):
    def test_cube_to_standard_output(self) -> None:
        self.check(run(TOOL, CUBE), 0, "", CUBE_BYTES)
        self.check(run(TOOL, "--out", "-", CUBE), 0, "", CUBE_BYTES)

    def test_cube_from_standard_input(self) -> None:
        self.check(run(TOOL, "-", given=Path(CUBE).read_bytes()), 0, "", CUBE_BYTES)

    def test_cube_to_a_file_from_another_folder(self) -> None:
        self.check(run(TOOL, "--out", "out.mesh", CUBE, folder=self.folder), 0, "")
        self.assertEqual(self.out.read_bytes(), CUBE_BYTES)

    def test_unit(self) -> None:
        for text, bits in (("0.001", "6f12833a"), ("16", "00008041"), ("9.5367431640625e-7", "00008035")):
            self.check(run(TOOL, "--unit", text, CUBE), 0, "", CUBE_BYTES[:6] + bytes.fromhex(bits) + CUBE_BYTES[10:])

    def test_wrong_unit(self) -> None:
        for text in ("16.000001", "9.536742e-7", "0", "-0", "-1", "1e39", "nan", "mm", ""):
            done = run(TOOL, f"--unit={text}", "--out", str(self.out), CUBE)
            self.check(done, 2, "argument --unit: ")
            self.assertRegex(done.stderr.decode(), "is not between|is not a number|is too large")
        self.assertFalse(self.out.exists())

    def test_flags(self) -> None:
        for args, flags in (
            (["--clip"], "0100"),
            (["--defect", "self_intersecting"], "0001"),
            (["--defect", "overlapping", "--clip"], "0104"),
            (["--flag-record"], "0000"),
            (["--flag-record", "--clip"], "0100"),
        ):
            self.check(run(TOOL, *args, CUBE), 0, "", CUBE_BYTES + bytes.fromhex("02000000 0400" + flags))

    def test_wrong_usage(self) -> None:
        for args in ([], ["--defect", "rust", CUBE], ["--scale", "2", CUBE], [CUBE, CUBE], ["--unit"]):
            self.check(run(TOOL, *args), 2, "usage: ")

    def test_help(self) -> None:
        done = run(TOOL, "--help")
        self.assertEqual(done.returncode, 0)
        options = ["--unit", "--origin", "--clip", "--defect", "--flag-record", "--out", "mesh_to_obj.py"]
        for word in [*options, "self_intersecting", "exit status", "fan", "dent", "crosses itself", "0.0001 m"]:
            self.assertIn(word, done.stdout.decode())

    def test_files_that_cannot_be_used(self) -> None:
        self.check(run(TOOL, "absent.obj", folder=self.folder), 2, "cannot read absent.obj: No such file")
        self.check(run(TOOL, str(self.folder)), 2, "Is a directory")
        done = run(TOOL, "--out", "absent/out.mesh", CUBE, folder=self.folder)
        self.check(done, 2, "cannot write absent/out.mesh: No such file")

    def test_the_obj_is_not_overwritten(self) -> None:
        mine = self.folder / "mine.obj"
        mine.write_bytes(TRIANGLE)
        self.check(run(TOOL, "--out", "mine.obj", "./mine.obj", folder=self.folder), 2, "--out names the OBJ itself")
        self.assertEqual(mine.read_bytes(), TRIANGLE)

    def test_bad_lines_leave_an_older_file(self) -> None:
        self.out.write_bytes(b"older")
        done = run(TOOL, "--out", str(self.out), "-", given=b"v 0 0\nf 1 1 0\n")
        self.check(done, 1, "obj_to_mesh: standard input, line 2: index 0; the first vertex is 1\n")
        self.assertIn("obj_to_mesh: standard input, line 1: a vertex has 3 numbers", done.stderr.decode())
        self.assertEqual(self.out.read_bytes(), b"older")

    def test_twenty_bad_lines_are_shown(self) -> None:
        done = run(TOOL, "-", given=b"bad\n" * 20)
        self.assertEqual(len(done.stderr.splitlines()), 20)
        done = run(TOOL, "-", given=b"bad\n" * 23)
        self.check(done, 1, "line 20: 'bad' is no statement that is known here\nobj_to_mesh: and 3 more\n")
        self.assertEqual(len(done.stderr.splitlines()), 21)


class Nothing(Case):
    def test_no_faces(self) -> None:
        for given, what in (
            (b"", "no vertices and no faces"),
            (b"\xef\xbb\xbf# nothing\r\n", "no vertices and no faces"),
            (b"v 1 2 3\nv 2 3 4\nl 1 2\n", "no faces"),
        ):
            self.out.write_bytes(b"older")
            done = run(TOOL, "--out", str(self.out), "-", given=given)
            self.check(done, 1, f"obj_to_mesh: standard input has {what}\n")
            self.assertEqual(self.out.read_bytes(), b"older")

    def test_no_vertices(self) -> None:
        self.check(run(TOOL, "-", given=b"f 1 2 3\n"), 1, "line 1: index 1, but the file has 0 vertices\n")
        self.check(run(TOOL, "-", given=b"f -1 -2 -3\n"), 1, "line 1: index -1, but above it are 0 vertices\n")


class Limits(Case):
    """An OBJ has floats and ids in threes, so the first numbers above 1536 are 1539."""

    def test_as_many_as_the_program_takes(self) -> None:
        done = run(TOOL, "-", given=b"v 1 2 3\n" * 512 + b"f 1 2 3\n" * 510 + b"f 1 2 3 4\n")
        self.assertEqual((done.returncode, len(done.stdout)), (0, 10 + 2 * (6 + 4 * 1536)))

    def test_one_vertex_more(self) -> None:
        done = run(TOOL, "-", given=b"v 1 2 3\n" * 513 + b"f 1 2 3\n")
        said = "has 1539 vertex floats (513 vertices); the program takes at most 1536 floats and 1536 ids\n"
        self.check(done, 1, f"obj_to_mesh: standard input {said}")

    def test_one_triangle_more_after_fanning(self) -> None:
        done = run(TOOL, "--out", str(self.out), "-", given=TRIANGLE + b"f 1 2 3 1\n" * 256)
        self.check(done, 1, "has 1539 ids (513 triangles); the program takes at most 1536")
        self.assertFalse(self.out.exists())


class Pipes(Case):
    def test_not_to_a_terminal(self) -> None:
        master, terminal = os.openpty()
        done = subprocess.run(
            command(TOOL, CUBE), stdout=terminal, stderr=subprocess.PIPE, env=environment(), check=False, timeout=60
        )
        os.close(terminal)
        os.set_blocking(master, False)
        with self.assertRaises(OSError):  # nothing has come
            os.read(master, 1)
        os.close(master)
        self.assertEqual(done.returncode, 2)
        self.assertIn(b"which a terminal cannot show", done.stderr)

    def test_reader_that_has_gone(self) -> None:
        self.check_reader_gone(TOOL, CUBE)

    @unittest.skipUnless(os.path.exists("/dev/full"), "there is no /dev/full here")
    def test_full_disk(self) -> None:
        with open("/dev/full", "wb") as full:
            done = subprocess.run(
                command(TOOL, CUBE), stdout=full, stderr=subprocess.PIPE, env=environment(), check=False, timeout=60
            )
        self.assertEqual((done.returncode, done.stderr), (2, b"obj_to_mesh: cannot write: No space left on device\n"))

    def test_closed_output(self) -> None:
        line = " ".join(f"'{word}'" for word in command(TOOL, CUBE)) + " >&-"
        done = subprocess.run(["sh", "-c", line], capture_output=True, env=environment(), check=False, timeout=60)
        self.check(done, 2, "obj_to_mesh: standard output is closed\n")


if __name__ == "__main__":
    unittest.main()
