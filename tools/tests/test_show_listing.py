"""show_listing.py: the words for a person, and the line and reason of what is no listing."""

from __future__ import annotations

import unittest

import show_listing
from mowfrost.listing import NotAListing
from tests.common import CUBE_LISTING, ROOT, Case, run

TOOL = "show_listing.py"

CUBE_WORDS = """\
Verdict:          closed. No edge is left open, so the mesh encloses a volume.
Best volume:      8 m3, to be relied on
  method:         mesh: the volume that the mesh encloses
  profile:        no defect recorded
Pieces:           1

Signed volume:    8 m3
Box volume:       8 m3
Prism bound:      not computed; only an open shell needs it
Surface area:     24 m2; by slope, under edition 1 of the slope rule:
  top:            4 m2
  bottom:         4 m2
  side:           16 m2
  inclined:       0 m2
Largest surface:  4 m2
Smallest surface: 4 m2

Surfaces: 6. A row has all faces whose normal rounds to the same tenths.
  area m2   nx   ny   nz
        4   -1    0    0
        4    0   -1    0
        4    0    0   -1
        4    0    0    1
        4    0    1    0
        4    1    0    0
"""

# Document 01's zero record, beside the two pieces that its ids make.
ZERO = """\
quality degenerate
reliable 0
method prism_fallback
profile none
volume 00000000
aabb 00000000
surface 00000000
top 00000000
bottom 00000000
side 00000000
inclined 00000000
largest 00000000
smallest 00000000
best 00000000
prism 00000000
pieces 2
used 0
range 0
sliver 0
surfaces 0
"""

ZERO_WORDS = """\
Verdict:          degenerate. The mesh has no solid: it is empty, or no triangle of it has an area.
Best volume:      0 m3, not to be relied on: there is no volume that can be taken off
  method:         prism_fallback: here no volume at all, neither the mesh's nor a prism's
  profile:        no defect recorded
Pieces:           2

Signed volume:    0 m3
Box volume:       0 m3
Prism bound:      0 m3 (set so for a degenerate mesh, not computed)
Surface area:     0 m2; by slope, under edition 1 of the slope rule:
  top:            0 m2
  bottom:         0 m2
  side:           0 m2
  inclined:       0 m2
Largest surface:  0 m2
Smallest surface: none above 0.000001 m2

Surfaces: none
"""

# An open shell, turned inside out, with numbers that are no neat decimals, and some triangles left out.
OPEN = """\
quality open_shell
reliable 1
method mesh_open
profile none
volume c1000000
aabb 7f7fffff
surface 3dcccccd
top 00000001
bottom 358637bd
side 4b800001
inclined 00000000
largest 3eaaaaab
smallest 3dcccccd
best 41000000
prism 41000001
pieces 1
used 11
range 2
sliver 1
surfaces 2
3eaaaaab bf666666 becccccd 00000000
3dcccccd 00000000 00000000 bf800000
"""

OPEN_WORDS = """\
Verdict:          open shell. The mesh does not close, as when a face is missing, doubled or turned.
                  So its volume depends on where it is measured from, whatever 'reliable' says.
Best volume:      8 m3, reliable only in that it keeps within its bounds
  method:         mesh_open: the volume summed over the open mesh, which keeps within its bounds
  profile:        no defect recorded
Pieces:           1
Left out:         3 of 14 triangles, in no area and not in the signed volume
  out of range:   2 with an id that names no vertex
  slivers:        1 with no area, or next to none

Signed volume:    -8 m3 (negative: on the whole the faces look inwards)
Box volume:       3.4028235e+38 m3
Prism bound:      8.000001 m3 (least footprint times extent)
Surface area:     0.1 m2; by slope, under edition 1 of the slope rule:
  top:            1e-45 m2
  bottom:         0.000001 m2
  side:           16777218 m2
  inclined:       0 m2
Largest surface:  0.33333334 m2
Smallest surface: 0.1 m2

Surfaces: 2. A row has all faces whose normal rounds to the same tenths.
     area m2     nx     ny   nz
  0.33333334   -0.9   -0.4    0
         0.1      0      0   -1
"""

REFUSALS = {
    1: "more than 98304 vertex floats or more than 98304 ids",
    2: "the unit is not finite, or outside its range (2^-20 to 16 metres a unit)",
    3: "the work area, the raster or the surface area is too short for this mesh",
    4: "a vertex float is not finite or too large (its magnitude is above 8589934592)",
    5: "not a mesh file: a header missing or cut, a wrong kind or length, a payload cut, a flag value unknown, "
    "or bytes after the end; from --stl not a binary STL, which has 84 bytes and 50 for each triangle",
    6: "too many: the file has more than 1536 floats or more than 1536 ids; from --stl a count above 170 triangles, "
    "or text in its place",
    7: "the edition of the slope rule is neither 1 nor 2",
}


def changed(old: str, new: str) -> str:
    """The cube's listing with one change."""
    assert CUBE_LISTING.count(old) == 1, old
    return CUBE_LISTING.replace(old, new)


# What is no listing, and what is said of it.
BROKEN = {
    "": "line 1: the listing ends; 'quality' is missing",
    "\n": "line 1: 'quality' belongs here, not ''",
    "hello\n": "line 1: 'quality' belongs here, not 'hello'",
    "quality closed\n": "line 2: the listing ends; 'reliable' is missing",
    changed("reliable 1\n", ""): "line 2: 'reliable' belongs here, not 'method mesh'",
    changed("top 40800000\nbottom 40800000", "bottom 40800000\ntop 40800000"): "line 8: 'top' belongs here, not "
    "'bottom 40800000'",
    changed("quality closed", "quality shut"): "line 1: quality: 'shut' is none of closed, open_shell, degenerate",
    changed("reliable 1", "reliable yes"): "line 2: reliable: 'yes' is none of 0, 1",
    changed("method mesh", "method guess"): "line 3: method: 'guess' is none of mesh, mesh_open, prism_fallback, "
    "mesh_unclipped, mesh_profile_invalid",
    changed("profile none", "profile bent"): "line 4: profile: 'bent' is none of none, self_intersecting, degenerate, "
    "hole_outside, overlapping",
    changed("side 41800000", "side 4180000"): "line 10: side: '4180000' is not eight hex digits in lower case",
    changed("side 41800000", "side 4180000A"): "line 10: side: '4180000A' is not eight hex digits in lower case",
    changed("side 41800000", "side 4180000g"): "line 10: side: '4180000g' is not eight hex digits in lower case",
    changed("side 41800000", "side none"): "line 10: side: 'none' is not eight hex digits in lower case",
    changed("side 41800000", "side  41800000"): "line 10: side: ' 41800000' is not eight hex digits in lower case",
    changed("side 41800000", "side"): "line 10: side: '' is not eight hex digits in lower case",
    changed("side 41800000", "side 7fc00000"): "line 10: side: 7fc00000 is no number but an infinity or a NaN",
    changed("volume 41000000", "volume ff800000"): "line 5: volume: ff800000 is no number but an infinity or a NaN",
    changed("prism none", "prism nan"): "line 15: prism: 'nan' is not eight hex digits in lower case",
    changed("pieces 1", "pieces one"): "line 16: pieces: 'one' is not a count",
    changed("pieces 1", "pieces 01"): "line 16: pieces: '01' is not a count",
    changed("used 12\nrange 0\nsliver 0\n", ""): "line 17: 'used' belongs here, not 'surfaces 6'",
    changed("range 0\n", ""): "line 18: 'range' belongs here, not 'sliver 0'",
    changed("sliver 0\n", ""): "line 19: 'sliver' belongs here, not 'surfaces 6'",
    changed("range 0\nsliver 0", "sliver 0\nrange 0"): "line 18: 'range' belongs here, not 'sliver 0'",
    changed("pieces 1\nused 12\n", "used 12\npieces 1\n"): "line 16: 'pieces' belongs here, not 'used 12'",
    changed("used 12", "used 0000000c"): "line 17: used: '0000000c' is not a count",
    changed("used 12", "used -1"): "line 17: used: '-1' is not a count",
    changed("range 0", "range none"): "line 18: range: 'none' is not a count",
    changed("sliver 0", "sliver"): "line 19: sliver: '' is not a count",
    changed("surfaces 6", "surfaces 7"): "line 27: the listing ends after 6 of 7 rows",
    changed("surfaces 6", "surfaces 5"): "line 26: the listing has ended, yet here is '40800000 3f800000 00000000 "
    "00000000'",
    changed("surfaces 6", "surfaces 9999999999"): "line 27: the listing ends after 6 of 9999999999 rows",
    changed(" 3f800000 00000000\n", " 3f800000\n"): "line 25: a row of four numbers belongs here, not "
    "'40800000 00000000 3f800000'",
    changed("00000000 3f800000\n", "00000000 3f80000\n"): "line 24: row: '3f80000' is not eight hex digits in lower "
    "case",
    CUBE_LISTING + "bye\n": "line 27: the listing has ended, yet here is 'bye'",
    CUBE_LISTING + "\n": "line 27: the listing has ended, yet here is ''",
    CUBE_LISTING + CUBE_LISTING: "line 27: the listing has ended, yet here is 'quality closed'",
    "refused\n": "line 1: 'refused' is not 'refused' and a number",
    "refused six\n": "line 1: 'refused six' is not 'refused' and a number",
    "refused 5 6\n": "line 1: 'refused 5 6' is not 'refused' and a number",
    "refused 5\nrefused 5\n": "line 2: the listing has ended, yet here is 'refused 5'",
    "refused 0\n": "line 1: there is no refusal 0",
    "refused 8\n": "line 1: there is no refusal 8",
    "\x00\x01\x02": "line 1: 'quality' belongs here, not '\\x00\\x01\\x02'",
}


class Words(unittest.TestCase):
    def check(self, listing: str, words: str) -> None:
        """The listing is shown in just these words."""
        self.assertEqual(show_listing.words(listing.encode()), words)

    def test_cube(self) -> None:
        self.check(CUBE_LISTING, CUBE_WORDS)

    def test_zero_record(self) -> None:
        self.check(ZERO, ZERO_WORDS)

    def test_open_shell(self) -> None:
        self.check(OPEN, OPEN_WORDS)

    def test_left_out(self) -> None:
        out_of_range = "  out of range:   {} with an id that names no vertex\n"
        sliver = "  slivers:        {} with no area, or next to none\n"
        for counts, of_all, why in (
            ((12, 0, 0), "", ""),
            ((0, 0, 0), "", ""),
            ((9, 3, 0), "3 of 12 triangles", out_of_range.format(3)),
            ((9, 0, 3), "3 of 12 triangles", sliver.format(3)),
            ((1, 511, 20), "531 of 532 triangles", out_of_range.format(511) + sliver.format(20)),
            ((0, 1, 0), "1 of 1 triangle", out_of_range.format(1)),
        ):
            listing = changed("used 12\nrange 0\nsliver 0\n", "used {}\nrange {}\nsliver {}\n".format(*counts))
            left_out = f"Left out:         {of_all}, in no area and not in the signed volume\n{why}" if why else ""
            pieces = "Pieces:           1\n"
            self.check(listing, CUBE_WORDS.replace(pieces, pieces + left_out))

    def test_the_format_shows_what_is_said(self) -> None:
        """docs/FORMAT.md: its five lines, and the words for them."""
        lines = "pieces 1\nused 10\nrange 1\nsliver 1\nsurfaces 5\n"
        listing = CUBE_LISTING[: CUBE_LISTING.rindex("40800000")].replace(
            "pieces 1\nused 12\nrange 0\nsliver 0\nsurfaces 6\n", lines
        )
        words = show_listing.words(listing.encode())
        text = (ROOT / "docs" / "FORMAT.md").read_text()
        self.assertIn(f"```\n{lines}```\n", text)
        self.assertIn(f"```\n{words[words.index('Pieces:'):words.index('Signed')].strip()}\n```\n", text)

    def test_degenerate_says_why(self) -> None:
        for change, why in (
            ("surface 3f800000", "it is flat, its box has no volume"),
            ("aabb 41000000", "its faces cancel each other"),
            ("best 80000000", "it is empty, or no triangle of it has an area"),
        ):
            old = f"{change.split()[0]} 00000000"
            words = show_listing.words(ZERO.replace(f"\n{old}\n", f"\n{change}\n").encode())
            self.assertTrue(words.startswith(f"Verdict:          degenerate. The mesh has no solid: {why}.\n"), words)
            self.assertIn("0 m3, not to be relied on: there is no volume that can be taken off\n", words)
            self.assertNotIn("footprint", words)

    def test_an_open_shell_is_never_simply_reliable(self) -> None:
        fallback = OPEN.replace("reliable 1\nmethod mesh_open", "reliable 0\nmethod prism_fallback")
        bounded = "reliable only in that it keeps within its bounds"
        for listing, best in ((OPEN, bounded), (fallback, "not to be relied on")):
            words = show_listing.words(listing.encode())
            self.assertIn("The mesh does not close", words)
            self.assertIn("So its volume depends on where it is measured from, whatever 'reliable' says.\n", words)
            self.assertIn(f"Best volume:      8 m3, {best}\n", words)
            self.assertNotIn(", to be relied on", words)
        self.assertIn("prism_fallback: the prism bound, since the mesh itself gives no volume to use\n", words)

    def test_refusals(self) -> None:
        for number, words in REFUSALS.items():
            self.check(f"refused {number}\n", f"Refused ({number}): {words}.\n")

    def test_minus_zero_is_nothing(self) -> None:
        self.check(changed("volume 41000000", "volume 80000000"), CUBE_WORDS.replace("volume:    8", "volume:    0"))

    def test_line_ends_say_nothing(self) -> None:
        self.check(CUBE_LISTING.replace("\n", "\r\n"), CUBE_WORDS)
        self.check(CUBE_LISTING[:-1], CUBE_WORDS)

    def test_byte_order_mark_says_nothing(self) -> None:
        for listing, words in ((CUBE_LISTING, CUBE_WORDS), (CUBE_LISTING.replace("\n", "\r\n"), CUBE_WORDS)):
            self.check("\ufeff" + listing, words)
        self.check("\ufeffrefused 5\n", f"Refused (5): {REFUSALS[5]}.\n")
        with self.assertRaisesRegex(NotAListing, "line 2: 'reliable' belongs here"):
            show_listing.words("quality closed\n\ufeffreliable 1\n".encode())

    def test_flags(self) -> None:
        flagged = "reliable 0\nmethod mesh_unclipped\nprofile overlapping"
        listing = changed("reliable 1\nmethod mesh\nprofile none", flagged)
        words = show_listing.words(listing.encode())
        self.assertIn("8 m3, not to be relied on\n", words)
        self.assertIn("mesh_unclipped: the volume of the mesh, which lacks a clip", words)
        self.assertIn("profile:        overlapping: two of its regions overlap\n", words)

    def test_broken_listings(self) -> None:
        for listing, reason in BROKEN.items():
            with self.subTest(reason=reason):
                with self.assertRaises(NotAListing) as caught:
                    show_listing.words(listing.encode())
                self.assertEqual(str(caught.exception), reason)


class Tool(Case):
    def test_from_standard_input_and_from_a_file(self) -> None:
        listing = self.folder / "cube.listing"
        listing.write_text(CUBE_LISTING)
        self.check(run(TOOL, given=CUBE_LISTING.encode()), 0, "", CUBE_WORDS.encode())
        self.check(run(TOOL, "-", given=CUBE_LISTING.encode()), 0, "", CUBE_WORDS.encode())
        self.check(run(TOOL, "cube.listing", folder=self.folder), 0, "", CUBE_WORDS.encode())

    def test_a_refusal_is_shown(self) -> None:
        done = run(TOOL, given=b"refused 6\n")
        self.assertEqual((done.returncode, done.stdout), (0, f"Refused (6): {REFUSALS[6]}.\n".encode()))

    def test_no_listing(self) -> None:
        said = "show_listing: standard input, line 2: the listing ends; 'reliable' is missing\n"
        self.check(run(TOOL, given=b"quality closed\n"), 1, said)

    def test_wrong_usage(self) -> None:
        self.check(run(TOOL, "--metres"), 2, "usage: ")
        self.check(run(TOOL, "absent", folder=self.folder), 2, "show_listing: cannot read absent: No such file")

    def test_help(self) -> None:
        done = run(TOOL, "--help")
        self.assertEqual(done.returncode, 0)
        self.assertIn(b"exit status", done.stdout)
        self.assertIn(b"takeoff names edition 1", done.stdout)

    def test_reader_that_has_gone(self) -> None:
        self.check_reader_gone(TOOL, given=CUBE_LISTING.encode())


if __name__ == "__main__":
    unittest.main()
