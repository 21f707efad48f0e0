"""The must-fail edits: each names the input that gets another answer, and still fits the text that it changes.

`rt must-fail` passes over every line that is none of its own, and finds a stale edit only after it has proved the crate.
"""

from __future__ import annotations

import unittest
from pathlib import Path

from tests.common import ROOT

EDITS = sorted(ROOT.glob("crates/*/must-fail/*.edit"))


def starting(edit: Path, word: str) -> list[str]:
    """What stands behind this word, for each line that starts with it."""
    return [line.removeprefix(word) for line in edit.read_text(encoding="utf-8").splitlines() if line.startswith(word)]


def faults(edit: Path) -> list[str]:
    """What is wrong with the replacements: as `rt must-fail` makes them, one after the other."""
    crate = edit.parent.parent
    texts: dict[str, str] = {}
    found: list[str] = []
    name = old = ""
    pairs = 0
    for line in edit.read_text(encoding="utf-8").splitlines():
        if line.startswith("file: "):
            name = line.removeprefix("file: ")
            if name not in texts:
                path = crate / name
                texts[name] = path.read_text(encoding="utf-8") if path.is_file() else ""
        elif line.startswith("old: "):
            old = line.removeprefix("old: ")
        elif line.startswith("new:"):
            new = line.removeprefix("new:").removeprefix(" ")
            count = texts.get(name, "").count(old) if old else 0
            if count != 1:
                found.append(f"{old!r} is {count} times in {name}")
            elif new == old:
                found.append(f"{old!r} is replaced by itself")
            else:
                texts[name] = texts[name].replace(old, new)
            old = ""
            pairs += 1
    return found if pairs else ["it replaces nothing"]


class Edits(unittest.TestCase):
    """Every edit of every crate."""

    def test_there_are_some(self) -> None:
        self.assertGreater(len(EDITS), 50)

    def test_each_names_one_input(self) -> None:
        for edit in EDITS:
            with self.subTest(edit=str(edit.relative_to(ROOT))):
                inputs = starting(edit, "input:")
                self.assertEqual(len(inputs), 1)
                self.assertTrue(inputs[0].strip(), "it says what is asked, what comes out, and what by this program")

    def test_each_fits_its_file(self) -> None:
        for edit in EDITS:
            with self.subTest(edit=str(edit.relative_to(ROOT))):
                self.assertEqual(faults(edit), [])


if __name__ == "__main__":
    unittest.main()
