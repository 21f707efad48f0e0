"""Polygons cut into triangles: dents, holes, corners in a line or twice there; what crosses itself is refused."""

from __future__ import annotations

import math
import random
import unittest
from collections import Counter
from fractions import Fraction

from mowfrost import polygon

SQUARE = [(0, 0), (4, 0), (4, 4), (0, 4)]
ELL = [(0, 0), (4, 0), (4, 1), (1, 1), (1, 3), (0, 3)]
HOLE = [(1, 1), (1, 3), (3, 3), (3, 1)]  # to the right
COMB = [(0, 0), (9, 0), (9, 5), (8, 1), (7, 5), (6, 1), (5, 5), (4, 1), (3, 5), (2, 1), (1, 5)]

# Polygons, and whether the fan from the first corner will do.
FITS = {
    "square": (SQUARE, True),
    "L from a corner that sees all": (ELL, True),
    "L from one that does not": (ELL[1:] + ELL[:1], False),
    "dart": ([(0, 0), (4, 2), (0, 4), (1, 2)], False),
    "dart from its dent": ([(1, 2), (0, 0), (4, 2), (0, 4)], True),
    "comb": (COMB, False),
    "corners in a line": ([(0, 0), (1, 0), (2, 0), (4, 0), (4, 4), (2, 4), (0, 4)], True),
    "corners in a line, and a dent": ([(4, 0), (4, 1), (2, 1), (1, 1), (1, 2), (1, 3), (0, 3), (0, 0), (2, 0)], False),
    "a corner twice": ([(0, 0), (4, 0), (4, 0), (4, 4), (0, 4), (0, 0)], True),
    "a corner twice, and a dent": ([(4, 0), (4, 1), (1, 1), (1, 1), (1, 3), (0, 3), (0, 0), (0, 0)], False),
    "hole on a bridge": ([*SQUARE, SQUARE[0], *HOLE, HOLE[0]], False),
    "hole on a bridge from its middle": ([(4, 0), (4, 4), (0, 4), (0, 0), *HOLE, HOLE[0], (0, 0)], False),
    "hole that touches the rim": ([(0, 0), (4, 0), (4, 4), (0, 4), (0, 0), (1, 2), (2, 1)], False),
    "spike inwards": ([(0, 0), (4, 0), (4, 4), (3, 2), (4, 4), (0, 4)], False),
    "spike outwards": ([(0, 0), (4, 0), (4, 4), (7, 7), (4, 4), (0, 4)], True),
    "line": ([(0, 0), (1, 1), (3, 3), (2, 2)], True),
    "point": ([(1, 1)] * 5, True),
    "there and back": ([(0, 0), (2, 0), (2, 2), (0, 1), (2, 2), (2, 0)], False),
}

# What is refused, and the reason.
REFUSED = {
    "bow-tie": ([(0, 0), (2, 2), (2, 0), (0, 2)], "what it has upwards and what it has downwards cancel"),
    "crooked bow-tie": ([(0, 0), (2, 2), (2, 0), (0, 1)], "the polygon crosses itself: side a b and side c d"),
    "star": ([(0, 10), (6, -8), (-10, 3), (10, 3), (-6, -8)], "the polygon crosses itself: side a b and side c d"),
    "twice round": (SQUARE * 2, "the polygon goes round something twice"),
    "hole that goes the same way": ([*SQUARE, (0, 0), *HOLE[:1], *HOLE[:0:-1], HOLE[0]], "goes round something twice"),
    "fan that overlaps and never folds back": (
        [(0, 0), (9, 0), (9, 9), (-9, 9), (-9, -9), (20, -9), (20, 5), (0, 20)],
        "the polygon crosses itself: side c d and side h a",
    ),
}

# Ways to look at a polygon: each takes the plane to space by whole numbers, so nothing is rounded.
VIEWS = (
    ((1, 0, 0), (0, 1, 0)),
    ((0, 1, 0), (1, 0, 0)),
    ((0, 0, 1), (1, 0, 0)),
    ((0, 2, 1), (-1, 0, 3)),
    ((3, -1, 2), (1, 5, -7)),
)


def cut(flat: list[tuple], view: tuple = VIEWS[0]) -> polygon.Cut:
    """The polygon in that view, its corners named a, b, c and so on."""
    u, v = view
    corners = [tuple(Fraction(x) * a + Fraction(y) * b + 7 for a, b in zip(u, v)) for x, y in flat]
    return polygon.cut(corners, [chr(ord("a") + at % 26) for at in range(len(flat))])


def doubled(flat: list[tuple]) -> Fraction:
    """Twice the area that a polygon goes round, those to the right counting against."""
    return sum(Fraction(a[0]) * b[1] - Fraction(a[1]) * b[0] for a, b in zip(flat, flat[1:] + flat[:1]))


class Cuts(unittest.TestCase):
    def check_cut(self, flat: list[tuple], made: polygon.Cut) -> None:
        """As many triangles as there must be, with the polygon's sides, its area, and none upside down."""
        self.assertEqual(len(made.triangles), len(flat) - 2)
        sides: Counter = Counter()
        for triangle in [*made.triangles, tuple(reversed(range(len(flat))))]:
            for a, b in zip(triangle, triangle[1:] + triangle[:1]):
                sides[(a, b) if a < b else (b, a)] += 1 if a < b else -1
        self.assertFalse(any(sides.values()))
        areas = [doubled([flat[at] for at in triangle]) for triangle in made.triangles]
        way = -1 if doubled(flat) < 0 else 1
        self.assertTrue(all(way * area >= 0 for area in areas), areas)
        self.assertEqual(sum(areas), doubled(flat))
        self.assertTrue(made.is_flat())

    def test_each_in_each_view_both_ways_round(self) -> None:
        for name, (flat, fan) in FITS.items():
            for view in VIEWS:
                for way in (flat, flat[:1] + flat[:0:-1]):
                    with self.subTest(name=name, view=view):
                        made = cut(way, view)
                        self.check_cut(way, made)
                        self.assertEqual(made.triangles == [(0, at, at + 1) for at in range(1, len(flat) - 1)], fan)

    def test_from_every_corner(self) -> None:
        for name, (flat, _) in FITS.items():
            for by in range(len(flat)):
                with self.subTest(name=name, by=by):
                    self.check_cut(flat[by:] + flat[:by], cut(flat[by:] + flat[:by]))

    def test_no_flat_triangle_where_none_is_needed(self) -> None:
        """A cut passes no corner that lies on it; a side that only touches a triangle does not stand in its way."""
        for flat, count in (
            (FITS["corners in a line, and a dent"][0], 0),
            ([(1, 1), (2, 3), (2, 2), (3, 0), (2, 1)], 0),
            ([(0, 0), (1, 1), (3, 3), (0, 3), (2, 3)], 1),
        ):
            made = cut(flat)
            self.assertEqual([doubled([flat[at] for at in triangle]) for triangle in made.triangles].count(0), count)

    def test_what_is_refused(self) -> None:
        for name, (flat, reason) in REFUSED.items():
            for view in VIEWS:
                with self.subTest(name=name, view=view), self.assertRaisesRegex(ValueError, reason):
                    cut(flat, view)

    def test_the_overlapping_fan_never_folds_back(self) -> None:
        """Else it would show nothing that the others do not."""
        flat, _ = REFUSED["fan that overlaps and never folds back"]
        self.assertTrue(all(doubled([flat[0], b, c]) >= 0 for b, c in zip(flat[1:], flat[2:])))

    def test_refused_from_every_corner(self) -> None:
        for name, (flat, _) in REFUSED.items():
            for by in range(len(flat)):
                with self.subTest(name=name, by=by), self.assertRaises(ValueError):
                    cut(flat[by:] + flat[:by])

    def test_decimals_are_exact(self) -> None:
        """In a line by their decimals, not as f32 or f64: 0.1 * 3 is 0.3 here."""
        flat = [(0, 0), (1, Fraction("0.1")), (3, Fraction("0.3")), (3, 5), (0, 5)]
        self.assertEqual(cut(flat).triangles, [(0, 1, 2), (0, 2, 3), (0, 3, 4)])

    def test_stars_by_chance(self) -> None:
        chance = random.Random(2)
        for count in (5, 8, 13, 40):
            for _ in range(20):
                ends = sorted(chance.random() for _ in range(count))
                if max(b - a for a, b in zip(ends, ends[1:] + [ends[0] + 1])) > 0.45:
                    continue  # the middle has to be inside
                sizes = [chance.randrange(100, 10000) for _ in ends]
                flat = [
                    (round(size * math.cos(math.tau * end)), round(size * math.sin(math.tau * end)))
                    for size, end in zip(sizes, ends)
                ]
                self.check_cut(flat, cut(flat))

    def test_what_is_taken_of_corners_by_chance(self) -> None:
        """Most of these cross themselves; what is taken is right, and some of it has a dent or touches itself."""
        chance = random.Random(3)
        taken = fans = 0
        for _ in range(2000):
            flat = [(chance.randrange(5), chance.randrange(5)) for _ in range(chance.randrange(4, 9))]
            try:
                made = cut(flat)
            except ValueError:
                continue
            self.check_cut(flat, made)
            taken += 1
            fans += made.triangles[-1] == (0, len(flat) - 2, len(flat) - 1)
        self.assertGreater(taken, 500)
        self.assertGreater(taken - fans, 100)


class NotFlat(unittest.TestCase):
    def bent(self, height: object, dent: bool) -> polygon.Cut:
        """A square of side 4 with one corner lifted, or a dart with its tip lifted."""
        flat = [(0, 0), (4, 2), (0, 4), (1, 2)] if dent else SQUARE
        heights = [0, height, 0, 0]
        return polygon.cut([(Fraction(x), Fraction(y), Fraction(z)) for (x, y), z in zip(flat, heights)], list("abcd"))

    def test_a_little(self) -> None:
        self.assertEqual(self.bent("0.4", False).triangles, [(0, 1, 2), (0, 2, 3)])
        self.assertTrue(self.bent("0.4", False).is_flat())
        self.assertEqual(self.bent("0.1", True).triangles, [(3, 0, 1), (3, 1, 2)])

    def test_a_fan_that_bends_is_kept_and_told(self) -> None:
        made = self.bent(2, False)
        self.assertEqual(made.triangles, [(0, 1, 2), (0, 2, 3)])
        self.assertFalse(made.is_flat())
        # By hand: (4, 0, 2) x (4, 4, 0) is (-8, 8, 16), the other one (0, 0, 16), the sum (-8, 8, 32).
        self.assertAlmostEqual(float(made.growth), (math.sqrt(384) + 16) / math.sqrt(1152) - 1, places=9)

    def test_seen_along_the_area_vector(self) -> None:
        """Of these two the one has a dent and the other not; seen along the nearest axis it is the other way round."""
        none = [tuple(map(Fraction, p)) for p in ((1, 3, 0), (1, 3, 2), (1, 0, 3), (2, 1, 3))]
        dent = [tuple(map(Fraction, p)) for p in ((2, 0, 0), (3, 3, 1), (0, 2, 2), (3, 1, 1))]
        self.assertEqual(polygon.cut(none, list("abcd")).triangles, [(0, 1, 2), (0, 2, 3)])
        with self.assertRaisesRegex(ValueError, "has a dent and is not flat"):
            polygon.cut(dent, list("abcd"))

    def test_a_dent_that_bends_is_refused(self) -> None:
        with self.assertRaisesRegex(ValueError, "has a dent and is not flat"):
            self.bent(2, True)


if __name__ == "__main__":
    unittest.main()
