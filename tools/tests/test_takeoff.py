"""The script `takeoff`: its messages, which program it builds and runs, and, where these are fresh, what they print."""

from __future__ import annotations

import os
import shutil
import subprocess
import tempfile
import unittest
from pathlib import Path

from tests.common import CUBE_BYTES, CUBE_LISTING, EXAMPLES, ROOT, SCRIPT, needs_program
from tests.stl import MOUNT_FILE

LONGEST = 12318  # bytes of the longest file that is one


def takeoff(*words: str, given: bytes = b"", folder: Path = ROOT, path: str | None = None) -> tuple[int, str, str]:
    """Status, standard output and standard error of the script."""
    env = dict(os.environ) if path is None else {**os.environ, "PATH": path}
    command = [str(SCRIPT), *words]
    ended = subprocess.run(command, input=given, capture_output=True, check=False, cwd=folder, env=env, timeout=60)
    return ended.returncode, ended.stdout.decode(), ended.stderr.decode()


class Messages(unittest.TestCase):
    """All of these come before anything is built."""

    def test_a_file_that_cannot_be_taken(self) -> None:
        for before in ([], ["--stl"]):
            for name in ("no such file.mesh", "no such file.stl"):
                self.assertEqual(takeoff(*before, name), (2, "", f"takeoff: there is no file {name}\n"))
            self.assertEqual(takeoff(*before, "examples"), (2, "", "takeoff: examples is a folder\n"))

    def test_an_empty_name_is_no_standard_input(self) -> None:
        for before in ([], ["--stl"]):
            said = (2, "", "takeoff: the name of the file is empty\n")
            self.assertEqual(takeoff(*before, "", given=CUBE_BYTES), said)

    def test_wrong_usage(self) -> None:
        cube, mount = "examples/cube.mesh", "examples/mount.stl"
        others = ("--stl", "--cube", "--build", "--fresh", "--help", "--mount.stl", "--")
        behind = [["--stl", word] for word in others] + [["--stl", "--cube", mount]]
        files = [[cube, cube], ["--stl", mount, mount], ["--stl", "", mount], [mount, "--stl"], ["-", "--stl"]]
        for words in [["--cubes"], ["--STL", mount], ["--stl=" + mount], *behind, *files]:
            with self.subTest(words=words):
                status, out, err = takeoff(*words)
                self.assertEqual((status, out), (2, ""))
                self.assertTrue(err.startswith("./takeoff FILE"), err)

    def test_help(self) -> None:
        status, out, err = takeoff("--help")
        self.assertEqual((status, err), (0, ""))
        for words in ("--stl FILE", "--stl < FILE", "--cube", "--build", "--fresh"):
            self.assertIn(f"./takeoff {words}", out)
        self.assertIn("edition 1 of the slope rule", out)

    def test_no_kit(self) -> None:
        with tempfile.TemporaryDirectory() as folder:
            for name in ("sh", "dirname", "readlink", "uname"):
                found = next(p for d in os.environ["PATH"].split(":") if (p := Path(d) / name).exists())
                (Path(folder) / name).symlink_to(found)
            for words in (["--cube"], ["--fresh"], ["--stl"], ["--stl", "examples/mount.stl"]):
                status, out, err = takeoff(*words, path=folder)
                self.assertEqual((status, out), (2, ""))
                self.assertTrue(err.startswith("takeoff: the Rattle kit is missing"), err)


class Tree(unittest.TestCase):
    """A tree of its own, with programs that print their name and their input, and an rt that only notes its words."""

    def setUp(self) -> None:
        kept = tempfile.TemporaryDirectory()
        self.addCleanup(kept.cleanup)
        self.tree = Path(kept.name) / "a tree"
        for folder in ("crates/cube/src", "crates/takeoff/out", "crates/takeoff_stl/out", "target/bin", "kit/bin"):
            (self.tree / folder).mkdir(parents=True)
        shutil.copy(SCRIPT, self.tree)
        self.programs = [self.tree / "target/bin" / name for name in ("takeoff", "takeoff_stl")]
        self.texts = [self.tree / "crates.txt", self.tree / "crates/cube/src/main.rt"]
        self.asked = self.tree / "asked"
        self.script("kit/bin/rt", f"echo \"$@\" \"$(basename \"$PWD\")\" >>'{self.asked}'")
        for program in self.programs:
            for folder in ("target/bin", f"crates/{program.name}/out"):
                self.script(f"{folder}/{program.name}", f"echo {program.name}; cat")
        for path in self.texts:
            path.write_text("")
        for path in self.programs:
            self.dated(path, 2000)
        for path in self.texts:
            self.dated(path, 1000)

    def script(self, name: str, text: str) -> None:
        """A script of the tree."""
        path = self.tree / name
        path.write_text(f"#!/bin/sh\n{text}\n")
        path.chmod(0o755)

    def dated(self, path: Path, seconds: int) -> None:
        """Gives the file this age."""
        os.utime(path, (seconds, seconds))

    def run_script(self, *words: str, given: bytes = b"") -> tuple[int, bytes, bytes]:
        """Status and both outputs of the tree's script, run in the tree."""
        env = {**os.environ, "PATH": f"{self.tree}/kit/bin:{os.environ['PATH']}"}
        env.pop("RATTLE_HOME", None)
        command = [str(self.tree / "takeoff"), *words]
        done = subprocess.run(
            command, input=given, capture_output=True, cwd=self.tree, env=env, check=False, timeout=60
        )
        return done.returncode, done.stdout, done.stderr

    def said_to_rt(self) -> str:
        """What rt was asked, a line each time."""
        return self.asked.read_text() if self.asked.exists() else ""


class Fresh(Tree):
    def check_fresh(self, fresh: bool) -> None:
        """--fresh says so by its status alone and asks rt nothing; --build asks rt just where it is not."""
        self.assertEqual(self.run_script("--fresh"), (0 if fresh else 1, b"", b""))
        self.assertEqual(self.said_to_rt(), "")
        self.assertEqual(self.run_script("--build")[:2], (0, b""))
        self.assertEqual(self.said_to_rt(), "" if fresh else "run takeoff\nrun takeoff_stl\n")

    def test_no_text_is_newer(self) -> None:
        self.check_fresh(True)

    def test_a_text_of_the_same_age(self) -> None:
        self.dated(self.texts[1], 2000)
        self.check_fresh(True)

    def test_a_newer_text(self) -> None:
        self.dated(self.texts[1], 2001)
        self.check_fresh(False)

    def test_a_newer_list_of_crates(self) -> None:
        self.dated(self.texts[0], 2001)
        self.check_fresh(False)

    def test_no_program(self) -> None:
        self.programs[0].unlink()
        self.check_fresh(False)

    def test_no_second_program(self) -> None:
        self.programs[1].unlink()
        self.check_fresh(False)

    def test_one_program_is_older_than_a_text(self) -> None:
        self.dated(self.texts[1], 2001)
        self.dated(self.programs[0], 3000)
        self.check_fresh(False)

    def test_texts_that_cannot_be_seen(self) -> None:
        self.texts[0].unlink()
        self.check_fresh(False)

    def test_once_built_it_is_fresh(self) -> None:
        self.dated(self.texts[1], 2001)
        self.run_script("--build")
        self.assertEqual(self.run_script("--fresh"), (0, b"", b""))


class Which(Tree):
    """Which program is built and run, and on what."""

    def setUp(self) -> None:
        super().setUp()
        self.names = ["a.mesh", "a.stl", "b.STL", "c.Stl", "stl", "d.stl.mesh", "-e.stl"]
        for name in self.names:
            (self.tree / name).write_text(f"this is {name}")

    def test_a_file(self) -> None:
        for name in self.names:
            with self.subTest(name=name):
                text = f"this is {name}"
                status, out, err = self.run_script(name)
                self.assertEqual((status, out.decode()), (0, f"takeoff\n{text}"))
                said = f"takeoff: {name} looks like an STL by its name, but is read as a mesh file; "
                said += f"for a binary STL there is ./takeoff --stl {name}\n"
                self.assertEqual(err.decode(), said if name.lower().endswith(".stl") else "")
                self.assertEqual(self.run_script("--stl", name), (0, f"takeoff_stl\n{text}".encode(), b""))

    def test_standard_input(self) -> None:
        for words in ([], ["-"]):
            self.assertEqual(self.run_script(*words, given=b"this"), (0, b"takeoff\nthis", b""))
            self.assertEqual(self.run_script("--stl", *words, given=b"this"), (0, b"takeoff_stl\nthis", b""))

    def test_only_what_is_run_is_built(self) -> None:
        for words, name in (["a.mesh"], "takeoff"), (["--stl", "a.mesh"], "takeoff_stl"):
            self.asked.unlink(missing_ok=True)
            self.dated(self.texts[1], 2001)
            for _ in "12":
                status, out, err = self.run_script(*words)
                self.assertEqual((status, out.decode()), (0, f"{name}\nthis is a.mesh"))
                self.assertEqual(self.said_to_rt(), f"run {name}\n")
            self.assertEqual(err, b"")

    def test_a_program_that_is_not_proved(self) -> None:
        self.script("kit/bin/rt", "echo this is why; exit 1")
        self.programs[1].unlink()
        status, out, err = self.run_script("--stl", "a.stl")
        self.assertEqual((status, out), (2, b""))
        self.assertIn(b"this is why\ntakeoff: the program was not built: ", err)
        self.assertEqual(self.run_script("a.mesh")[:2], (0, b"takeoff\nthis is a.mesh"))


@needs_program("the script's answers")
class Answers(unittest.TestCase):
    def test_the_cube_in_every_way(self) -> None:
        self.assertEqual(takeoff("--cube"), (0, CUBE_LISTING, ""))
        self.assertEqual(takeoff("examples/cube.mesh"), (0, CUBE_LISTING, ""))
        self.assertEqual(takeoff("cube.mesh", folder=EXAMPLES), (0, CUBE_LISTING, ""))
        self.assertEqual(takeoff(given=CUBE_BYTES), (0, CUBE_LISTING, ""))
        self.assertEqual(takeoff("-", given=CUBE_BYTES), (0, CUBE_LISTING, ""))

    def test_the_mount_in_every_way(self) -> None:
        listing = (EXAMPLES / "mount.listing").read_text()
        self.assertEqual(takeoff("--stl", "examples/mount.stl"), (0, listing, ""))
        self.assertEqual(takeoff("--stl", "mount.stl", folder=EXAMPLES), (0, listing, ""))
        self.assertEqual(takeoff("--stl", given=MOUNT_FILE), (0, listing, ""))
        self.assertEqual(takeoff("--stl", "-", given=MOUNT_FILE), (0, listing, ""))

    def test_nothing_is_guessed(self) -> None:
        self.assertEqual(takeoff(given=MOUNT_FILE), (0, "refused 5\n", ""))
        self.assertEqual(takeoff("--stl", given=CUBE_BYTES), (0, "refused 5\n", ""))
        status, out, err = takeoff("examples/mount.stl")
        self.assertEqual((status, out), (0, "refused 5\n"))
        self.assertTrue(err.endswith("./takeoff --stl examples/mount.stl\n"), err)

    def test_left_out(self) -> None:
        """The first triangle, 023, with an id out of range, and the second, 031, with one twice."""
        ids = 118
        wrong = CUBE_BYTES[: ids + 8] + b"\x08\x00\x00\x00\x00\x00\x00\x00\x00\x00\x00\x00" + CUBE_BYTES[ids + 20 :]
        status, out, err = takeoff(given=wrong)
        self.assertEqual((status, err), (0, ""))
        self.assertEqual(out.splitlines()[15:20], ["pieces 1", "used 10", "range 1", "sliver 1", "surfaces 5"])

    def test_refusals(self) -> None:
        unit = CUBE_BYTES[:6] + b"\x00\x00\x88\x41" + CUBE_BYTES[10:]
        nan = CUBE_BYTES[:16] + b"\x01\x00\x80\x7f" + CUBE_BYTES[20:]
        many = CUBE_BYTES[:10] + (6148).to_bytes(4, "little") + CUBE_BYTES[14:]
        tails = [b"\x00", bytes(LONGEST + 1 - len(CUBE_BYTES)), bytes(200_000)]
        for number, data in [(2, unit), (4, nan), (6, many), (5, b"")] + [(5, CUBE_BYTES + tail) for tail in tails]:
            self.assertEqual(takeoff(given=data), (0, f"refused {number}\n", ""))

    def test_input_that_cannot_be_read(self) -> None:
        for words in ([], ["--stl"]):
            folder = os.open(EXAMPLES, os.O_RDONLY)
            try:
                command = [str(SCRIPT), *words]
                ended = subprocess.run(command, stdin=folder, capture_output=True, check=False, timeout=60)
            finally:
                os.close(folder)
            self.assertEqual(ended.stdout, b"refused 5\n")
            self.assertIn(b"standard input", ended.stderr)


if __name__ == "__main__":
    unittest.main()
