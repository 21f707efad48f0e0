"""The editions of the slope rule: which area a triangle goes to under each, beside a plain form in Python's floats;
that nothing else of a record hangs on the edition; and refusal 7 with its place among the others."""

from __future__ import annotations

import itertools
import math
import random
import re
import struct
import tempfile
import unittest
from dataclasses import replace
from pathlib import Path
from typing import Iterator

from mowfrost import f32, listing, meshfile
from tests.calls import METRE, NOISE, RECORD, REFUSED, Call, Left, answers, asked, bits, packed, program
from tests.common import CUBE_BYTES, EXAMPLES, MADE_WITH, ROOT
from tests.stl import MOUNT_FILE, mesh_file

SLOPES = ("top", "bottom", "side", "inclined")
WORDS = range(7, 11)  # of the record: the areas by slope, in this order

# Document 02, A6: what z has to be above for top, and its magnitude under for side.
DECIMALS = {1: ("0.940", "0.342"), 2: ("0.866", "0.5")}
PAIRS = {edition: tuple(f32.value(f32.from_text(text)) for text in pair) for edition, pair in DECIMALS.items()}

# Numbers that are no edition, some of which end like one.
UNKNOWN = (0, 3, 4, 7, 255, 256, 257, 258, 0x10001, 0x10002, 0x7FFFFFFF, 0x80000001, 0x80000002, 0xFFFFFFFE, 0xFFFFFFFF)

MOST = 98304  # floats, and also ids, that a call may have

# A call's faults in the order in which they are tried, and the refusal of each; 0 is the zero record.
FAULTS = {"flag": 5, "many": 1, "few": 0, "unit": 2, "edition": 7, "area": 3, "float": 4}

# By how much the three areas may be too short.
SHORT = ((1, 0, 0), (0, 1, 0), (0, 0, 1))

CUBE = meshfile.read(CUBE_BYTES)
CUBE_MESH = packed(CUBE.vertices), packed(CUBE.ids)

# The zero record: degenerate, by prism_fallback, with a bound that is a number.
ZERO = tuple({0: 2, 2: 2, 14: 1}.get(word, 0) for word in range(RECORD))


# ---- the plain form: each step of document 01 in f64, and rounded to f32 where it says so


def single(value: float) -> float:
    """The f32 nearest to an f64."""
    return struct.unpack("<f", struct.pack("<f", value))[0]


def slope_of(edition: int, z: float) -> str:
    """The slope of a facet by its unit normal's z."""
    top, side = PAIRS[edition]
    if z > top:
        return "top"
    if z < -top:
        return "bottom"
    return "side" if abs(z) < side else "inclined"


def facets(vertices: list[float], ids: list[int]) -> Iterator[tuple[float, float]]:
    """Area and unit normal's z, both f32, of each triangle that is used."""
    points = [vertices[at : at + 3] for at in range(0, len(vertices) - 2, 3)]
    least = [min(axis) for axis in zip(*points)]
    for corners in zip(*[iter(ids)] * 3):
        if max(corners) >= len(points):
            continue
        a, b, c = ([n - low for n, low in zip(points[id_], least)] for id_ in corners)
        u, v = ([n - m for n, m in zip(end, a)] for end in (b, c))
        n = [u[i] * v[j] - u[j] * v[i] for i, j in ((1, 2), (2, 0), (0, 1))]
        length = math.sqrt(n[0] * n[0] + n[1] * n[1] + n[2] * n[2])
        if not length < 1e-12:
            yield single(0.5 * length), single(n[2] * (1.0 / length))


def areas_of(edition: int, unit: float, vertices: list[float], ids: list[int]) -> tuple[int, ...]:
    """The bits of the four areas by slope."""
    sums = dict.fromkeys(SLOPES, 0.0)
    for area, z in facets(vertices, ids):
        slope = slope_of(edition, z)
        sums[slope] = single(sums[slope] + area)
    square = single(unit * unit)
    return tuple(bits(sums[slope] * square) for slope in SLOPES)


# ---- meshes


def kept() -> dict[str, meshfile.MeshFile]:
    """The examples that have a listing."""
    files = {name: (EXAMPLES / f"{name}.mesh").read_bytes() for name in MADE_WITH}
    return {name: meshfile.read(data) for name, data in [*files.items(), ("mount", mesh_file(MOUNT_FILE))]}


def by_plain_form(edition: int, call: Call) -> tuple[int, ...]:
    """The four areas of a call, by the plain form."""
    vertices = [n for (n,) in struct.iter_unpack("<f", call.vertices)]
    ids = [n for (n,) in struct.iter_unpack("<I", call.ids)]
    return areas_of(edition, f32.value(call.unit), vertices, ids)


def beside(call: Call) -> tuple[Call, Call]:
    """The same call under both editions."""
    return replace(call, edition=1), replace(call, edition=2)


def leaning(width: int, height: int) -> list[int]:
    """The floats of a triangle that falls by a height over a width; of 0 1 2 the normal looks up, of 0 2 1 down."""
    return [bits(n) for n in (0, 0, height, width, 0, 0, 0, 1, height)]


def just_at(size: int) -> tuple[int, int]:
    """Width and height of such a triangle whose unit normal's z has just these bits."""
    wanted = f32.value(size)
    for width in range(3_000_000, 5_000_000):
        height = round(width * math.sqrt(1 / wanted**2 - 1))
        ((_, z),) = facets([f32.value(n) for n in leaning(width, height)], [0, 1, 2])
        if z == wanted:
            return width, height
    raise AssertionError(f"no triangle with z {size:08x}")


def random_calls(seed: int, count: int) -> Iterator[Call]:
    """Meshes of all sorts: tetrahedra, flat ones, and triangles at random with ids out of range and repeated; whole and
    other coordinates; floats and ids left over from threes."""
    chance = random.Random(seed)
    for number in range(count):
        points = 4 if number % 3 == 0 else chance.randrange(3, 12)
        reach = chance.choice((2, 5, 40, 1000))
        draw = chance.choice((chance.randint, chance.uniform))
        vertices = [bits(draw(-reach, reach)) for _ in range(3 * points)]
        if number % 15 == 1:
            vertices[::3] = [0] * points
        ids = [chance.randrange(points + (chance.random() < 0.1)) for _ in range(3 * chance.randrange(1, 30))]
        if number % 3 == 0:
            ids = [0, 1, 2, 0, 2, 3, 0, 3, 1, 1, 3, 2]
        else:
            vertices += [METRE] * chance.randrange(3)
            ids += [0] * chance.randrange(3)
        unit = bits(chance.choice((1.0, 0.001, 0.0254, 16.0, chance.uniform(0.0001, 16))))
        yield Call(packed(vertices), packed(ids), unit, 1, chance.randrange(2), chance.randrange(5))


def faulty(faults: set[str], number: int) -> Call:
    """The cube with these faults, over areas for the cube; of several forms of a fault the number chooses one."""
    vertices = list(CUBE.vertices)
    if "float" in faults:
        vertices[7] = (0x7FC00000, 0x7F800000, 0x50000001)[number % 3]
    if "few" in faults:
        vertices = vertices[:8]
    ids = bytes(4 * (MOST + 1)) if "many" in faults else packed(CUBE.ids)
    unit = (0x41800001, 0x357FFFFF, 0x7FC00000, 0)[number % 4] if "unit" in faults else METRE
    edition = UNKNOWN[number % len(UNKNOWN)] if "edition" in faults else 1 + number % 2
    clip, defect = ((2, 0), (0, 5), (2, 5))[number % 3] if "flag" in faults else (number % 2, number % 5)
    less = SHORT[number % 3] if "area" in faults else (0, 0, 0)
    work, raster, surfaces = (length - short for length, short in zip(asked(*CUBE_MESH), less))
    return Call(packed(vertices), ids, unit, edition, clip, defect, (work, raster, surfaces))


# ---- the tests


class Plain(unittest.TestCase):
    """Nothing has to be built for these."""

    def test_the_numbers(self) -> None:
        patterns = {edition: tuple(map(bits, pair)) for edition, pair in PAIRS.items()}
        self.assertEqual(patterns, {1: (0x3F70A3D7, 0x3EAF1AA0), 2: (0x3F5DB22D, 0x3F000000)})

    def test_edition_1_is_that_of_the_listings(self) -> None:
        """The kept listings were made with the Rust."""
        for name, mesh in kept().items():
            vertices = [f32.value(n) for n in mesh.vertices]
            found = listing.parse((EXAMPLES / f"{name}.listing").read_bytes())
            assert isinstance(found, listing.Listing)
            told = tuple(int(found.values[slope], 16) for slope in SLOPES)
            self.assertEqual(areas_of(1, f32.value(mesh.unit), vertices, mesh.ids), told, name)

    def test_the_hut(self) -> None:
        """Roof 68 m2, leaning base 54.4375 m2, walls and gables 108 m2, bottom 80.9375 m2."""
        hut = kept()["hut"]
        for edition, areas in ((1, (0, 80.9375, 108, 122.4375)), (2, (68, 80.9375, 162.4375, 0))):
            vertices = [f32.value(n) for n in hut.vertices]
            self.assertEqual(areas_of(edition, 1.0, vertices, hut.ids), tuple(map(bits, areas)))

    def test_the_readme_has_numbers_and_degrees(self) -> None:
        text = (ROOT / "README.md").read_text()
        for edition, (top, side) in DECIMALS.items():
            row = re.search(rf"^\| {edition} \|.*$", text, re.MULTILINE)
            assert row is not None
            flat, upright = math.degrees(math.acos(float(top))), math.degrees(math.asin(float(side)))
            for part in (f"above {top}", f"below -{top}", f"under {side}", f"{flat:.2f}", f"{upright:.2f}"):
                self.assertIn(part, row[0])


class Library(unittest.TestCase):
    """By the library, where there is one to link."""

    @classmethod
    def setUpClass(cls) -> None:
        kept_folder = tempfile.TemporaryDirectory()
        cls.addClassCleanup(kept_folder.cleanup)
        cls.folder = Path(kept_folder.name)

    def setUp(self) -> None:
        self.asker = program(self.folder)

    def ask(self, calls: list[Call]) -> list[Left]:
        """What each call leaves."""
        return answers(self.asker, calls)

    def check_beside(self, call: Call, one: Left, two: Left) -> None:
        """Both taken; the areas by slope are the plain form's, only what was inclined moved, the rest is the same."""
        self.assertEqual((one.answer, two.answer), (0, 0))
        for edition, left in ((1, one), (2, two)):
            self.assertEqual(tuple(left.record[word] for word in WORDS), by_plain_form(edition, call))
        *grown, shrunk = ((f32.value(one.record[word]), f32.value(two.record[word])) for word in WORDS)
        self.assertTrue(all(before <= after for before, after in grown) and shrunk[1] <= shrunk[0], (grown, shrunk))
        others = [[n for word, n in enumerate(left.record) if word not in WORDS] for left in (one, two)]
        self.assertEqual(others[0], others[1])
        self.assertEqual((one.work, one.raster, one.surfaces), (two.work, two.raster, two.surfaces))

    def check_both(self, calls: list[Call]) -> list[tuple[Left, Left]]:
        """Each call under both editions."""
        found = self.ask([each for call in calls for each in beside(call)])
        pairs = list(zip(found[::2], found[1::2]))
        for call, (one, two) in zip(calls, pairs):
            self.check_beside(call, one, two)
        return pairs

    def test_the_examples(self) -> None:
        meshes = kept().values()
        self.check_both([Call(packed(mesh.vertices), packed(mesh.ids), mesh.unit) for mesh in meshes])

    def test_at_the_numbers(self) -> None:
        """Each number of both editions, and the f32 on each side of it, looking up and down."""
        numbers = [bits(number) for pair in PAIRS.values() for number in pair]
        wanted = [size + by for size in numbers for by in (-1, 0, 1)]
        calls = []
        slopes = []
        for size in wanted:
            vertices = packed(leaning(*just_at(size)))
            for ids, sign in (((0, 1, 2), 1), ((0, 2, 1), -1)):
                for edition, (top, side) in PAIRS.items():
                    calls.append(Call(vertices, packed(ids), METRE, edition))
                    upper = SLOPES[0] if sign > 0 else SLOPES[1]
                    slopes.append(upper if size > bits(top) else "side" if size < bits(side) else "inclined")
        for call, slope, left in zip(calls, slopes, self.ask(calls)):
            self.assertEqual(left.answer, 0)
            found = [name for name, word in zip(SLOPES, WORDS) if left.record[word]]
            self.assertEqual((found, left.record[17]), ([slope], 1), call)
        self.assertEqual([slopes.count(slope) for slope in SLOPES], [5, 5, 10, 28])

    def test_a_fan_of_slopes(self) -> None:
        """A triangle each half degree, looking up and down: what moves rises by 20 to 30 degrees or by 60.5 to 70."""
        calls = []
        for half in range(1, 180):
            angle = math.radians(half / 2)
            vertices = packed([bits(n) for n in (0, 0, 0, math.cos(angle), 0, math.sin(angle), 0, 1, 0)])
            calls += [Call(vertices, packed(ids)) for ids in ((0, 1, 2), (0, 2, 1))]
        pairs = self.check_both(calls)
        moved = [number // 2 + 1 for number, (one, two) in enumerate(pairs) if one.record != two.record]
        self.assertEqual(moved, sorted([*range(40, 61), *range(121, 141)] * 2))

    def test_random_meshes(self) -> None:
        pairs = self.check_both(list(random_calls(6, 150)))
        moved = [word for word in WORDS for one, two in pairs if one.record[word] != two.record[word]]
        self.assertTrue(all(moved.count(word) > 20 for word in WORDS), moved)
        qualities = [one.record[0] for one, _ in pairs]
        self.assertTrue(all(qualities.count(quality) > 5 for quality in range(3)), qualities)

    def test_the_cube_has_no_slopes(self) -> None:
        """And its areas stand in its record whatever the flags."""
        flags = itertools.product(range(2), range(5))
        calls = [Call(*CUBE_MESH, clip=clip, defect=defect) for clip, defect in flags]
        for one, two in self.check_both(calls):
            self.assertEqual(one.record, two.record)
            self.assertEqual([f32.value(one.record[word]) for word in WORDS], [4, 4, 16, 0])

    def test_no_such_edition(self) -> None:
        """Refusal 7, and nothing is touched, be the areas just long enough or longer."""
        longer = tuple(length + 7 for length in asked(*CUBE_MESH))
        calls = [Call(*CUBE_MESH, edition=number, areas=areas) for number in UNKNOWN for areas in (None, longer)]
        for left in self.ask(calls):
            self.assertEqual(left.answer, REFUSED + 7)
            self.assertEqual(packed(left.record), NOISE * 4 * RECORD)
            self.assertTrue(left.untouched())

    def test_the_zero_record_whatever_the_edition(self) -> None:
        """Fewer than 3 ids or 9 floats; the unit and the areas do not matter either."""
        floats, ids = CUBE_MESH
        meshes = [(floats, b""), (floats, ids[:4]), (floats, ids[:8]), (b"", ids), (floats[:32], ids), (b"", b"")]
        others = ((METRE, 1, 0, (9, 9, 9)), (0x7FC00000, 0, 4, (0, 0, 0)))
        calls = [
            Call(*mesh, unit, edition, clip, defect, areas)
            for mesh in meshes
            for edition in (1, 2, *UNKNOWN)
            for unit, clip, defect, areas in others
        ]
        for call, left in zip(calls, self.ask(calls)):
            self.assertEqual(left.answer, 0)
            self.assertEqual(left.record, (*ZERO[:3], call.defect, *ZERO[4:]))
            self.assertTrue(left.untouched())

    def test_the_order_of_refusals(self) -> None:
        """Every set of faults: the first of them decides, and a refusal touches nothing."""
        sets = [set(some) for size in range(len(FAULTS) + 1) for some in itertools.combinations(FAULTS, size)]
        calls = [faulty(faults, number) for number, faults in enumerate(sets)]
        for faults, left in zip(sets, self.ask(calls)):
            with self.subTest(faults=faults):
                first = next((number for fault, number in FAULTS.items() if fault in faults), 0)
                self.assertEqual(left.answer, REFUSED + first if first else 0)
                if first:
                    self.assertEqual(packed(left.record), NOISE * 4 * RECORD)
                self.assertEqual(left.untouched(), bool(faults))


if __name__ == "__main__":
    unittest.main()
