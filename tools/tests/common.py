"""What the tests share: where things are, how a tool is run, whether the programs are fresh, and document 01's cube."""

from __future__ import annotations

import functools
import os
import subprocess
import sys
import tempfile
import unittest
from pathlib import Path
from typing import Callable

TOOLS = Path(__file__).resolve().parent.parent
ROOT = TOOLS.parent
EXAMPLES = ROOT / "examples"
SCRIPT = ROOT / "takeoff"

# The examples, with the arguments that make the mesh file.
MADE_WITH = {
    "cube": [],
    "open-plinth": [],
    "two-plinths": [],
    "corner-plinths": [],
    "mast-foot-mm": ["--unit", "0.001"],
    "hut": [],
}

CUBE_VERTICES = "v 0 0 0\nv 2 0 0\nv 0 2 0\nv 2 2 0\nv 0 0 2\nv 2 0 2\nv 0 2 2\nv 2 2 2\n"

# Document 01's cube, written out by hand: unit 1.0, 24 floats, 36 ids, no kind 4.
CUBE_BYTES = bytes.fromhex(
    """
    04000000 0100  0000803f
    60000000 0200
      00000000 00000000 00000000   00000040 00000000 00000000   00000000 00000040 00000000   00000040 00000040 00000000
      00000000 00000000 00000040   00000040 00000000 00000040   00000000 00000040 00000040   00000040 00000040 00000040
    90000000 0300
      00000000 02000000 03000000   00000000 03000000 01000000   04000000 05000000 07000000   04000000 07000000 06000000
      00000000 01000000 05000000   00000000 05000000 04000000   02000000 06000000 07000000   02000000 07000000 03000000
      00000000 04000000 06000000   00000000 06000000 02000000   01000000 03000000 07000000   01000000 07000000 05000000
    """
)

CUBE_LISTING = """\
quality closed
reliable 1
method mesh
profile none
volume 41000000
aabb 41000000
surface 41c00000
top 40800000
bottom 40800000
side 41800000
inclined 00000000
largest 40800000
smallest 40800000
best 41000000
prism none
pieces 1
used 12
range 0
sliver 0
surfaces 6
40800000 bf800000 00000000 00000000
40800000 00000000 bf800000 00000000
40800000 00000000 00000000 bf800000
40800000 00000000 00000000 3f800000
40800000 00000000 3f800000 00000000
40800000 3f800000 00000000 00000000
"""


def command(tool: str, *args: str) -> list[str]:
    """The command line of a tool."""
    return [sys.executable, str(TOOLS / tool), *args]


def environment() -> dict[str, str]:
    """As it is, but Python leaves no files behind."""
    return {**os.environ, "PYTHONDONTWRITEBYTECODE": "1"}


def run(tool: str, *args: str, given: bytes = b"", folder: str | Path = ROOT) -> subprocess.CompletedProcess[bytes]:
    """Runs a tool with these bytes on standard input."""
    return subprocess.run(
        command(tool, *args), input=given, capture_output=True, cwd=folder, env=environment(), check=False, timeout=60
    )


@functools.cache
def why_not_fresh() -> str:
    """Why the programs are not to be asked, by the script's own rule; empty where they are. Building takes minutes."""
    command_line = [str(SCRIPT), "--fresh"]
    done = subprocess.run(command_line, capture_output=True, stdin=subprocess.DEVNULL, check=False, timeout=60)
    if done.returncode == 0:
        return ""
    if done.returncode == 1:
        return "a program is not built, or older than its text; run ./takeoff --build"
    return done.stderr.decode().strip() or f"./takeoff --fresh ends with status {done.returncode}"


def needs_program(what: str) -> Callable:
    """Leaves a test or a class of tests out, and says what to run, where a program is not fresh."""
    return unittest.skipIf(why_not_fresh(), f"{what}: {why_not_fresh()}")


class Case(unittest.TestCase):
    """A folder of its own, and how a run is judged."""

    def setUp(self) -> None:
        kept = tempfile.TemporaryDirectory()
        self.addCleanup(kept.cleanup)
        self.folder = Path(kept.name)
        self.out = self.folder / "out.mesh"

    def check(self, done: subprocess.CompletedProcess[bytes], status: int, said: str, out: bytes = b"") -> None:
        """Status, standard output to the byte, and a part of standard error; never a traceback."""
        errors = done.stderr.decode()
        self.assertNotIn("Traceback", errors)
        self.assertEqual((done.returncode, done.stdout), (status, out), errors)
        self.assertIn(said, errors)
        if not said:
            self.assertEqual(errors, "")

    def check_reader_gone(self, tool: str, *args: str, given: bytes = b"") -> None:
        """A tool whose reader has gone ends quietly."""
        reading, writing = os.pipe()
        os.close(reading)
        done = subprocess.run(
            command(tool, *args), input=given, stdout=writing, stderr=subprocess.PIPE, env=environment(), check=False
        )
        os.close(writing)
        self.assertEqual((done.returncode, done.stderr), (0, b""))
