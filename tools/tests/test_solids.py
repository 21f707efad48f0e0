"""Solids whose area and volume are known, from OBJ to mesh file, and where the program is fresh to its listing."""

from __future__ import annotations

import subprocess
import unittest
from fractions import Fraction

from mowfrost import f32, listing
from tests.common import SCRIPT, Case, needs_program, run
from tests.shapes import amounts, prism, turned

TOOL = "obj_to_mesh.py"

# L-shaped, 4 by 3 m outside and 1 m thick, 2.5 m high: 6 m2 on the ground, 14 m round.
ELL = prism([(0, 0), (4, 0), (4, 1), (1, 1), (1, 3), (0, 3)], 0, "2.5")
ELL_AREA, ELL_VOLUME = 2 * 6 + 14 * 2.5, Fraction(15)

# A slab of 4 by 4 m with a hole of 2 by 2 m, 0.25 m thick, the hole joined to the rim by a side walked both ways.
# Vertices 1 to 8 below, 9 to 16 above: the rim to the left, then the hole to the left.
PLAN = ((0, 0), (4, 0), (4, 4), (0, 4), (1, 1), (3, 1), (3, 3), (1, 3))
SLAB = "\n".join(
    [f"v {x} {y} {z}" for z in ("0", "0.25") for x, y in PLAN]
    + ["f 9 10 11 12 9 13 16 15 14 13", "f 1 4 3 2 1 5 6 7 8 5"]
    + [f"f {a} {b} {b + 8} {a + 8}" for a, b in ((1, 2), (2, 3), (3, 4), (4, 1), (6, 5), (7, 6), (8, 7), (5, 8))]
) + "\n"
SLAB_AREA, SLAB_VOLUME = 2 * (16 - 4) + (16 + 8) * 0.25, Fraction(3)


def wall(x: str, x_end: str, y: str, y_end: str) -> str:
    """A wall of 4 by 0.25 m, 2.5 m high: 2.5 m3 and 2 * (1 + 10 + 0.625) m2."""
    return prism([(x, y), (x_end, y), (x_end, y_end), (x, y_end)], "112.5", "115")


GRID_WALL = wall("597000.3", "597004.3", "6643000.4", "6643000.65")
WALL_AREA, WALL_VOLUME = 23.25, Fraction(5, 2)


class Sums(Case):
    """By a plain sum over the triangles of the mesh file."""

    def made(self, text: str, *args: str, said: str = "") -> tuple[float, Fraction]:
        """Area and volume of what the tool makes, which may be said something of."""
        done = run(TOOL, *args, "-", given=text.encode())
        self.check(done, 0, said, done.stdout)
        return amounts(done.stdout)

    def test_a_prism_with_a_dent(self) -> None:
        lines = ELL.splitlines()
        for by in range(6):
            polygons = [turned(line, by) if len(line.split()) == 7 else line for line in lines]
            with self.subTest(by=by):
                self.assertEqual(self.made("\n".join(polygons)), (ELL_AREA, ELL_VOLUME))

    def test_its_fan_is_wrong(self) -> None:
        """From most corners, that is; else the one above would show nothing."""
        ring = [(0, 0), (4, 0), (4, 1), (1, 1), (1, 3), (0, 3)]
        right = 0
        for by in range(6):
            (ax, ay), *others = ring[by:] + ring[:by]
            fan = [(bx - ax) * (cy - ay) - (by_ - ay) * (cx - ax) for (bx, by_), (cx, cy) in zip(others, others[1:])]
            self.assertEqual(sum(fan), 12)
            right += sum(map(abs, fan)) == 12
        self.assertEqual(right, 2)

    def test_a_hole_on_a_bridge(self) -> None:
        self.assertEqual(self.made(SLAB), (SLAB_AREA, SLAB_VOLUME))

    def test_a_wall_on_a_national_grid(self) -> None:
        area, volume = self.made(GRID_WALL, said="--origin=597000,6643000,0 would help\n")
        self.assertGreater(abs(volume - WALL_VOLUME), 1)  # it comes out as 5 m3
        area, volume = self.made(GRID_WALL, "--origin=597000,6643000,0")
        self.assertAlmostEqual(area, WALL_AREA, places=4)
        self.assertAlmostEqual(float(volume), float(WALL_VOLUME), places=4)

    def test_one_that_f32_can_hold(self) -> None:
        """Where no coordinate is moved, the place does not show: the same with and without an origin."""
        text = wall("597000.25", "597004.25", "6643000.5", "6643000.75")
        self.assertNotEqual(self.made(text, said="warning")[1], WALL_VOLUME)
        for args in (["--origin=597000,6643000,0"], ["--origin=597000,6643000,100"], ["--origin=590000,6640000,-7"]):
            self.assertEqual(self.made(text, *args), (WALL_AREA, WALL_VOLUME))


@needs_program("solids by the program")
class Listings(Case):
    def listed(self, text: str, *args: str) -> dict[str, str]:
        """The values of the listing."""
        done = run(TOOL, *args, "--out", str(self.out), "-", given=text.encode())
        self.assertEqual(done.returncode, 0, done.stderr.decode())
        printed = subprocess.run([str(SCRIPT), str(self.out)], capture_output=True, check=False, timeout=60)
        found = listing.parse(printed.stdout)
        assert isinstance(found, listing.Listing), printed
        return found.values

    def check_solid(self, values: dict[str, str], area: float, volume: Fraction) -> None:
        """Closed and to be relied on, with just this area and this volume."""
        self.assertEqual((values["quality"], values["reliable"]), ("closed", "1"))
        numbers = [f32.value(int(values[name], 16)) for name in ("surface", "volume", "best")]
        self.assertEqual(numbers, [area, volume, volume])

    def test_a_prism_with_a_dent_from_each_corner(self) -> None:
        for by in range(6):
            lines = [turned(line, by) if len(line.split()) == 7 else line for line in ELL.splitlines()]
            values = self.listed("\n".join(lines))
            self.check_solid(values, ELL_AREA, ELL_VOLUME)
            self.assertEqual([f32.value(int(values[name], 16)) for name in ("top", "bottom", "side")], [6, 6, 35])

    def test_a_hole_on_a_bridge(self) -> None:
        self.check_solid(self.listed(SLAB), SLAB_AREA, SLAB_VOLUME)

    def test_a_wall_on_a_national_grid(self) -> None:
        values = self.listed(GRID_WALL)
        self.assertNotAlmostEqual(f32.value(int(values["best"], 16)), 2.5, places=1)
        values = self.listed(GRID_WALL, "--origin=597000,6643000,0")
        self.assertEqual((values["quality"], values["reliable"]), ("closed", "1"))
        self.assertAlmostEqual(f32.value(int(values["best"], 16)), 2.5, places=4)
        self.assertAlmostEqual(f32.value(int(values["surface"], 16)), WALL_AREA, places=4)
        thin = wall("597000.3", "597004.3", "6643000.4", "6643000.6")
        self.assertEqual(self.listed(thin)["quality"], "degenerate")
        self.assertAlmostEqual(f32.value(int(self.listed(thin, "--origin=597000,6643000,0")["best"], 16)), 2, places=4)
        text = wall("597000.25", "597004.25", "6643000.5", "6643000.75")
        self.check_solid(self.listed(text, "--origin=597000,6643000,0"), WALL_AREA, WALL_VOLUME)


if __name__ == "__main__":
    unittest.main()
