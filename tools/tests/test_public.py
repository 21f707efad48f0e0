"""docs/ARCHITECTURE.md: every public routine is listed, none has a `requires`, and all other crates are internal."""

from __future__ import annotations

import re
import unittest
from pathlib import Path

from tests.common import ROOT

CRATES = ROOT / "crates"
PAGE = (ROOT / "docs" / "ARCHITECTURE.md").read_text()

# A function that others can name, its contract behind it up to its body.
FUNCTION = re.compile(r'^ *pub (?:extern "C" )?fn (\w+)(.*?)\{$', re.MULTILINE | re.DOTALL)
PASSED_ON = re.compile(r"^pub use (\w+)::(?:(\w+)|\{([^}]*)\});$", re.MULTILINE)


def section(title: str) -> str:
    """A part of the page, without its title."""
    found = re.search(rf"^#+ {re.escape(title)}\n(.*?)(?=^#|\Z)", PAGE, re.MULTILINE | re.DOTALL)
    assert found is not None, title
    return found[1]


def rows(text: str) -> dict[str, str]:
    """The rows of a table whose first cell is a name in backticks: from the name to the second cell."""
    found = re.findall(r"^\| `(\w+)` \| (.*?) \|", text, re.MULTILINE)
    assert len(dict(found)) == len(found), "a name with two rows"
    return dict(found)


LISTED = rows(section("Public routines"))
DESCRIBED = rows(section("The crates"))


def text(crate: str) -> str:
    """All code of a crate."""
    return "\n".join(path.read_text() for path in sorted((CRATES / crate / "src").rglob("*.rt")))


def declared(crate: str) -> dict[str, str]:
    """The functions that a crate declares for others: from the name to what stands between it and the body."""
    return dict(FUNCTION.findall(text(crate)))


def passed_on(crate: str) -> list[tuple[str, str]]:
    """What a crate passes on: from where, and its name."""
    found = [(of, f"{one},{more}".split(",")) for of, one, more in PASSED_ON.findall(text(crate))]
    return [(of, name.strip()) for of, names in found for name in names if name.strip()]


def public(crate: str) -> dict[str, str]:
    """The functions that a crate declares for others or passes on; not those that stand in another row of the list."""
    functions = {name: declared(of)[name] for of, name in passed_on(crate) if of not in LISTED and name in declared(of)}
    return {**declared(crate), **functions}


class Public(unittest.TestCase):
    def test_the_list_is_complete(self) -> None:
        for crate, cell in LISTED.items():
            with self.subTest(crate=crate):
                named = [name for name in re.findall(r"`(\w+)`", cell) if name not in DESCRIBED or name == crate]
                self.assertEqual(sorted(named), sorted(public(crate)))

    def test_none_has_a_requires(self) -> None:
        for crate in LISTED:
            for name, contract in public(crate).items():
                with self.subTest(crate=crate, name=name):
                    self.assertIn("ensures", contract)
                    self.assertNotIn("requires", contract)

    def test_what_is_passed_on_is_public_where_it_is(self) -> None:
        for crate in LISTED:
            for of, name in passed_on(crate):
                if name.islower():  # a type begins with a capital
                    own = (CRATES / crate / "src" / f"{of}.rt").exists()  # a module of the crate itself
                    self.assertIn(name, declared(crate if own else of), f"{crate} passes on {of}::{name}")

    def test_every_contract_is_read(self) -> None:
        """As many as are marked, so that no form of writing one is passed over."""
        for crate in LISTED:
            marked = len(re.findall(r'\bpub (?:extern "C" )?fn ', text(crate)))
            self.assertEqual(len(declared(crate)), marked, crate)


class Crates(unittest.TestCase):
    def test_every_crate_has_its_row(self) -> None:
        listed = re.findall(r"^(\w+)(?: staticlib)?:", (ROOT / "crates.txt").read_text(), re.MULTILINE)
        self.assertEqual(sorted(DESCRIBED), sorted(listed))
        self.assertEqual(sorted(path.name for path in CRATES.iterdir() if Path(path / "src").is_dir()), sorted(listed))

    def test_all_that_are_not_public_are_internal_or_have_no_functions_for_others(self) -> None:
        for crate, cell in DESCRIBED.items():
            with self.subTest(crate=crate):
                if crate in LISTED:
                    self.assertNotIn("(internal)", cell)
                elif cell.startswith("no code: "):
                    self.assertNotIn("fn ", re.sub(r"//.*", "", text(crate)))
                elif (CRATES / crate / "src" / "main.rt").exists():
                    self.assertEqual(declared(crate), {})
                else:
                    self.assertTrue(cell.endswith("(internal)"), cell)


if __name__ == "__main__":
    unittest.main()
