"""Which code can write a float of a lent area. The proofs know one NaN, so that a contract says nothing of its sign and
digits. That a NaN which has to stay keeps them is seen from the text: nobody but the functions named here can write a
float of a caller's, and a refusal lends them none (docs/DIFFERENCES.md)."""

from __future__ import annotations

import re
import unittest
from pathlib import Path

from tests.common import ROOT

# A function's or a method's indentation, its name, its parameters, and its body behind the contract.
FUNCTION = re.compile(
    r"^( *)(?:pub )?(?:extern \"C\" )?fn (\w+)(?:<[^(]*>)?\((.*?)\)(?: -> [^{]*?)?\n?"
    r"(?:\1    [^\n]*\n)*(?:\1)?\{\n(.*?)^\1\}",
    re.M | re.S,
)
# A `U` is what words of a file stand for: a number, or a float.
FLOATS = re.compile(r"(\w+): &mut \[(?:f(?:32|64)|U\b)")

# Functions that store into floats that they are lent, and how many statements do. All of them store into a row that is there
# or begins, but the last two: `put_words` is lent just as many floats as a mesh file, or a triangle of an STL, has, and
# `centres` a list of the code's own.
STORES = {
    ("rows", "put"): 4,
    ("rows", "scale"): 1,
    ("surfaces", "new_row"): 1,
    ("surfaces", "put_normal"): 1,
    ("words", "put_words"): 1,
    ("grid", "centres"): 1,
}

# The three routines that are lent floats from outside, and every line in which they name them: the length is asked for, and
# where nothing is refused they go to one function.
NAMED = {
    ("qto", "compute", "surfaces"): [
        "surfaces.len(),",
        "Ok(full(&mesh, edition, work, raster, surfaces))",  # of the call that the next test holds
    ],
    ("meshfile", "read_as", "vertices"): [
        "let m = read_ids(bytes, vertices.len(), ids)?;",
        "fill(bytes, 16, m.floats, vertices);",
    ],
    ("stl", "read_most", "vertices"): [
        "if (vertices.len() < 9 * n) | (ids.len() < 3 * n) {",
        "fill(bytes, n, vertices, ids);",
    ],
}


def without_comments(path: Path) -> str:
    """The text of a file of code."""
    return re.sub(r"//[^\n]*", "", path.read_text(encoding="utf-8"))


def functions() -> dict[tuple[str, str], tuple[list[str], str]]:
    """Every function that is lent floats to write: the names of these parameters, and its body."""
    found = {}
    for path in sorted((ROOT / "crates").glob("*/src/**/*.rt")):
        for _, name, parameters, body in FUNCTION.findall(without_comments(path)):
            lent = FLOATS.findall(parameters)
            if lent:
                found[path.relative_to(ROOT / "crates").parts[0], name] = lent, body
    return found


class Stores(unittest.TestCase):
    def test_all_functions_are_seen(self) -> None:
        seen = sum(len(lent) for lent, _ in functions().values())
        texts = [without_comments(path) for path in (ROOT / "crates").glob("*/src/**/*.rt")]
        self.assertEqual(seen, sum(len(re.findall(r"&mut \[(?:f(?:32|64)|U)\]", text)) for text in texts))

    def test_who_stores(self) -> None:
        stores = {}
        for key, (lent, body) in functions().items():
            stored = [rf"^\s*{name}\[[^\]]*\](?: [-+*/]?= |\.copy_from_slice\()|^\s*for .*\b{name}\.iter_mut\(\)" for name in lent]
            count = sum(len(re.findall(form, body, re.M)) for form in stored)
            if count:
                stores[key] = count
        self.assertEqual(stores, STORES)

    def test_a_refusal_lends_nobody_the_floats(self) -> None:
        for (crate, function, area), named in NAMED.items():
            _, body = functions()[crate, function]
            lines = [line.strip() for line in body.splitlines() if re.search(rf"\b{area}\b", line)]
            self.assertEqual(lines, named)

    def test_only_a_full_record_lends_the_surface_area_on(self) -> None:
        _, body = functions()["qto", "compute"]
        arm = "Check::Full=>{letmesh=Mesh{vertices,indices,unit_scale,};Ok(full(&mesh,edition,work,raster,surfaces))}"
        self.assertIn(arm, re.sub(r"\s", "", body))

    def test_the_centres_are_no_callers(self) -> None:
        calls = [
            line.strip()
            for path in (ROOT / "crates").glob("*/src/**/*.rt")
            for line in without_comments(path).splitlines()
            if "centres(" in line and not line.strip().startswith("pub fn")
        ]
        self.assertEqual(calls, ["g.columns.centres(&mut centres);"])
        self.assertIn("    let mut centres = [0f32; 256];\n", without_comments(ROOT / "crates/paint/src/lib.rt"))

    def test_the_rows_alone_are_put_in_order(self) -> None:
        _, body = functions()["qto", "measure"]
        self.assertIn("arrange(&mut surfaces[0..4 * n], square)", body)


if __name__ == "__main__":
    unittest.main()
