"""What the library for C exports: the header declares just that, by name and type, and nothing else is shipped."""

from __future__ import annotations

import re
import subprocess
import unittest
from pathlib import Path

from tests.common import ROOT
from tests.library import BUILT, HEADER, declared, tool, why_not

CAPI = ROOT / "crates" / "capi" / "src"

NUMBERS = {"u8": "uint8_t", "u32": "uint32_t", "u64": "uint64_t", "i32": "int32_t", "i64": "int64_t", "f32": "float"}

SIGNATURE = re.compile(r'^pub extern "C" fn (\w+)\((.*?)\) -> (\w+)$', re.MULTILINE | re.DOTALL)

NM = tool("nm")


def in_c(name: str, of: str) -> str:
    """A parameter of a Rattle function in C: a number, a slice as pointer and length, or an array as pointer alone."""
    if of in NUMBERS:
        return f"{NUMBERS[of]} {name}"
    if array := re.fullmatch(r"&mut \[(\w+); (\d+)\]", of):
        return f"{NUMBERS[array[1]]} {name}[{array[2]}]"
    slice_of = re.fullmatch(r"&(mut )?\[(\w+)\]", of)
    if slice_of is None:
        raise ValueError(f"{name}: no parameter for C: {of}")
    const = "" if slice_of[1] else "const "
    return f"{const}{NUMBERS[slice_of[2]]} *{name}, size_t {name}_len"


def exported_by_the_text() -> dict[str, str]:
    """The functions that the crate `capi` exports: from each name to its declaration in C."""
    found: dict[str, str] = {}
    for path in sorted(CAPI.glob("*.rt")):
        for name, given, answer in SIGNATURE.findall(path.read_text()):
            parameters = [part.strip() for part in given.split(",") if part.strip()]
            in_order = (in_c(*(word.strip() for word in parameter.split(":"))) for parameter in parameters)
            found[name] = f"{NUMBERS[answer]} {name}({', '.join(in_order)})"
    return found


def symbols(library: Path, *options: str) -> list[tuple[str, str]]:
    """The symbols of a library: the letter that nm has for each, and its name."""
    words = [str(NM), *options, str(library)]
    listed = subprocess.run(words, capture_output=True, check=True, text=True, timeout=60).stdout
    return re.findall(r"^[0-9a-f ]* ([A-Za-z]) (\S+)$", listed, re.MULTILINE)


class Text(unittest.TestCase):
    """Nothing has to be built for these."""

    def test_the_header_declares_what_the_crate_exports(self) -> None:
        words = re.search(r"^#define MF_RECORD_WORDS (\d+)$", HEADER.read_text(), re.MULTILINE)
        assert words is not None
        plain = {name: text.replace("[MF_RECORD_WORDS]", f"[{words[1]}]") for name, text in declared().items()}
        self.assertEqual(plain, exported_by_the_text())

    def test_every_export_is_seen(self) -> None:
        marked = sum(path.read_text().count("#[unsafe(no_mangle)]") for path in CAPI.glob("*.rt"))
        self.assertGreater(marked, 0)
        self.assertEqual(len(exported_by_the_text()), marked)


@unittest.skipUnless(NM, "the library's symbols: there is no nm")
class Library(unittest.TestCase):
    def setUp(self) -> None:
        if reason := why_not("capi"):
            self.skipTest(f"the library's symbols: {reason}")

    def test_it_exports_what_the_header_declares(self) -> None:
        """Every global name of the archive, of whatever sort: there is none of a runtime."""
        exported = symbols(BUILT / "libcapi.a", "-g", "--defined-only")
        self.assertEqual(sorted(exported), sorted(("T", name) for name in declared()))

    def test_it_needs_memset_alone(self) -> None:
        self.assertEqual([name for _, name in symbols(BUILT / "libcapi.a", "-u")], ["memset"])

    def test_it_keeps_nothing(self) -> None:
        """Code and constants: no data that could be written."""
        letters = {letter for letter, _ in symbols(BUILT / "libcapi.a", "--defined-only")}
        self.assertLessEqual(letters, set("TtRr"))


@unittest.skipUnless(NM, "the symbols of the library for the differential runs: there is no nm")
class Probe(unittest.TestCase):
    def test_it_shares_no_name_with_what_is_shipped(self) -> None:
        if reason := why_not("probe"):
            self.skipTest(f"the symbols of the library for the differential runs: {reason}")
        exported = [name for _, name in symbols(BUILT / "libprobe.a", "-g", "--defined-only")]
        self.assertTrue(exported and all(name.startswith("probe_") for name in exported), exported)


if __name__ == "__main__":
    unittest.main()
