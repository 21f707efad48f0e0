"""docs/READING.md against the crates: it leads through every file of specs/ that is not inner/, with its number of lines."""
import os
import re
import unittest

from tests.common import ROOT

ROW = re.compile(r"^\| \[?`?(?P<path>crates/[^`\]|]+\.antt)`?\]?(?:\([^)]*\))? \|.*\| (?P<lines>\d+) \|$")
PART = re.compile(r"^\*\*(?P<lines>[\d,]+) lines\*\*")
TYPE = re.compile(r"^\| `(?P<name>\w+)` \| `(?P<crate>\w+)` \| (?P<kind>struct|enum) \| (?P<parts>.*) \|$")
DECLARED = re.compile(r"Rattle\.(\w+)\.specs\.declared\.(?:[a-z]\w*\.)?([A-Z]\w*)\b")


def lines_to_read(path):
    """Lines that are neither blank nor an import."""
    with open(path, encoding="utf-8") as text:
        return sum(1 for line in text if line.strip() and not line.startswith("use "))


def believed():
    """The files that a reader has to believe: specs/ without inner/ and without the lists of modules."""
    found = set()
    crates = os.path.join(ROOT, "crates")
    for crate in sorted(os.listdir(crates)):
        for folder, _, files in os.walk(os.path.join(crates, crate, "specs")):
            if "inner" in os.path.relpath(folder, crates).split(os.sep):
                continue
            for name in files:
                if name not in ("Lib.antt", "inner.antt"):
                    found.add(os.path.relpath(os.path.join(folder, name), ROOT).replace(os.sep, "/"))
    return found


def declared():
    """The types of the code that the believed files name: crate and name."""
    found = set()
    for path in believed():
        with open(os.path.join(ROOT, path), encoding="utf-8") as text:
            found.update(DECLARED.findall(text.read()))
    return found


def parts_of(crate, name):
    """A struct's fields or an enum's cases, as the code has them, and which of the two it is."""
    for folder, _, files in os.walk(os.path.join(ROOT, "crates", crate, "src")):
        for file in files:
            with open(os.path.join(folder, file), encoding="utf-8") as text:
                m = re.search(r"pub (struct|enum) " + name + r"(?:<[^>]*>)? \{(.*?)\n\}", text.read(), re.S)
            if m:
                lines = (re.sub(r"//.*", "", line).strip().rstrip(",") for line in m[2].split("\n"))
                return m[1], "; ".join("`" + line.replace("pub ", "") + "`" for line in lines if line)
    return None


class Reading(unittest.TestCase):
    def setUp(self):
        with open(os.path.join(ROOT, "docs", "READING.md"), encoding="utf-8") as text:
            self.text = text.read().split("\n")
        self.rows = [m for m in (ROW.match(line) for line in self.text) if m]

    def test_every_believed_file_stands_there_once(self):
        paths = [m["path"] for m in self.rows]
        self.assertEqual(sorted(paths), sorted(set(paths)))
        self.assertEqual(set(paths), believed())

    def test_the_numbers_of_lines_are_true(self):
        for m in self.rows:
            with self.subTest(m["path"]):
                self.assertEqual(int(m["lines"]), lines_to_read(os.path.join(ROOT, m["path"])))

    def test_what_is_believed_leans_on_nothing_inner(self):
        for path in believed():
            with self.subTest(path), open(os.path.join(ROOT, path), encoding="utf-8") as text:
                self.assertNotRegex(text.read(), r"specs\.inner\.")

    def test_the_types_are_the_codes(self):
        rows = [m for m in (TYPE.match(line) for line in self.text) if m]
        self.assertEqual({(m["crate"], m["name"]) for m in rows}, declared())
        for m in rows:
            with self.subTest(m["name"]):
                self.assertEqual((m["kind"], m["parts"]), parts_of(m["crate"], m["name"]))

    def test_the_sums_are_true(self):
        said, total = None, 0
        for line in self.text + ["**0 lines**"]:
            part, row = PART.match(line), ROW.match(line)
            if part:
                if said is not None:
                    self.assertEqual(said, total)
                said, total = int(part["lines"].replace(",", "")), 0
            elif row:
                total += int(row["lines"])


if __name__ == "__main__":
    unittest.main()
