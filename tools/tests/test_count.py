"""What tools/test says in the end: its last line counts what passed, failed and was left out."""

from __future__ import annotations

import shutil
import subprocess
import sys
import unittest

from tests.common import TOOLS, Case, environment

HEAD = "import unittest\n\n\nclass T(unittest.TestCase):\n"
PASSES = "    def test_a(self):\n        pass\n"
FAILS = """\
    def test_b(self):
        for n in (1, 2):
            with self.subTest(n=n):
                self.fail()
"""
LEFT_OUT = "    @unittest.skip('no luck')\n    def test_c(self):\n        pass\n"
ALL_LEFT_OUT = f"\n\n@unittest.skip('no luck at all')\nclass U(unittest.TestCase):\n{PASSES}{FAILS}"


class Count(Case):
    def ends(self, text: str) -> tuple[int, list[str]]:
        """Status and last lines of tools/test on this one file of tests."""
        tests = self.folder / "tests"
        tests.mkdir(exist_ok=True)
        shutil.copy(TOOLS / "test", self.folder)
        (tests / "__init__.py").write_text("")
        (tests / "test_it.py").write_text(text)
        command = [sys.executable, str(self.folder / "test")]
        done = subprocess.run(command, capture_output=True, env=environment(), check=False, timeout=60)
        lines = done.stdout.decode().splitlines()
        return done.returncode, [line for line in lines[:-1] if line.startswith("left out")] + lines[-1:]

    def test_nothing_left_out(self) -> None:
        self.assertEqual(self.ends(HEAD + PASSES), (0, ["1 passed, 0 failed"]))
        self.assertEqual(self.ends(HEAD + PASSES + FAILS), (1, ["1 passed, 1 failed"]))

    def test_left_out(self) -> None:
        said = ["left out: no luck", "1 passed, 0 failed, 1 skipped"]
        self.assertEqual(self.ends(HEAD + PASSES + LEFT_OUT), (0, said))
        status, lines = self.ends(HEAD + PASSES + FAILS + LEFT_OUT + ALL_LEFT_OUT)
        self.assertEqual(status, 1)
        self.assertEqual(lines, ["left out: no luck", "left out: no luck at all", "1 passed, 1 failed, 3 skipped"])

    def test_nothing_passed_is_no_success(self) -> None:
        self.assertEqual(self.ends(HEAD + LEFT_OUT), (1, ["left out: no luck", "0 passed, 0 failed, 1 skipped"]))


if __name__ == "__main__":
    unittest.main()
