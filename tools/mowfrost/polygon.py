"""Cuts a polygon into triangles that neither fold back nor overlap, in exact numbers, or says why there are none."""

# A fan from the first corner always has the polygon's area vector, also where it folds back: what is too much then lies
# once upwards and once downwards. So each triangle is looked at by itself, seen along that vector. It is taken only
# where the sides of what is left of the polygon go round it exactly once. Then, by induction, the triangles cover what
# the polygon goes round, each place once. The fan is tried first; else corners are cut off one by one as they fit.

from __future__ import annotations

from dataclasses import dataclass
from fractions import Fraction
from math import isqrt, lcm
from typing import Iterator

Point = tuple[Fraction, Fraction, Fraction]  # exact, in units of the model
Solid = tuple[int, int, int]  # the same in whole numbers
Flat = tuple[int, int]  # seen along the polygon's area vector
Triangle = tuple[int, int, int]  # three corners, by their numbers from 0

# Triangles of a polygon that is not flat are larger than it is as a whole. More than a hundredth is too much.
MOST_GROWTH = Fraction(1, 100)


@dataclass(frozen=True)
class Cut:
    """The triangles, two fewer than corners; by how much their areas are more than the polygon's, as a part of it."""

    triangles: list[Triangle]
    growth: Fraction

    def is_flat(self) -> bool:
        """Whether it hardly matters where the polygon is cut."""
        return self.growth <= MOST_GROWTH


def cut(corners: list[Point], names: list[str]) -> Cut:
    """The triangles of a polygon; a ValueError says why there are none, with the corners' names."""
    fan = [(0, at, at + 1) for at in range(1, len(corners) - 1)]
    if len(fan) == 1:
        return Cut(fan, Fraction(0))
    points = whole_numbers(corners)
    vectors = [cross(points, triangle) for triangle in fan]
    vector: Solid = tuple(map(sum, zip(*vectors)))
    if not any(vector):
        return Cut(fan if not any(map(any, vectors)) else without_area(points), Fraction(0))
    seen = along(points, vector)
    if fan_fits(seen):
        return Cut(fan, growth(points, fan, vector))
    triangles = ears(seen)
    if triangles is None:
        raise ValueError(why_none(seen, names))
    made = Cut(triangles, growth(points, triangles, vector))
    if not made.is_flat():
        raise ValueError("the polygon has a dent and is not flat: where does it bend? cut it into triangles first")
    return made


def without_area(points: list[Solid]) -> list[Triangle]:
    """Triangles that have no area, for a polygon that comes back all the way it went; else it crosses itself."""
    left = list(range(len(points)))
    triangles: list[Triangle] = []
    while len(left) > 2:
        corners = [(left[at - 1], left[at], left[(at + 1) % len(left)]) for at in range(len(left))]
        found = next((at for at, triangle in enumerate(corners) if not any(cross(points, triangle))), None)
        if found is None:
            raise ValueError("the polygon crosses itself: what it has upwards and what it has downwards cancel")
        triangles.append(corners[found])
        del left[found]
    return triangles


def whole_numbers(corners: list[Point]) -> list[Solid]:
    """The corners as seen from the first one, in a unit so small that each coordinate is a whole number."""
    scale = lcm(*(number.denominator for corner in corners for number in corner))
    first = corners[0]
    return [tuple(int((number - start) * scale) for number, start in zip(corner, first)) for corner in corners]


def cross(points: list[Solid], triangle: Triangle) -> Solid:
    """Twice the area vector of a triangle."""
    a, b, c = (points[corner] for corner in triangle)
    (ux, uy, uz), (vx, vy, vz) = ([end - start for end, start in zip(other, a)] for other in (b, c))
    return uy * vz - uz * vy, uz * vx - ux * vz, ux * vy - uy * vx


def along(points: list[Solid], vector: Solid) -> list[Flat]:
    """The points as seen along the vector, so that a triangle that goes with it turns left."""
    axis = max(range(3), key=lambda at: abs(vector[at]))
    right, up = (axis + 1) % 3, (axis + 2) % 3
    if vector[axis] < 0:
        right, up = up, right
    # Pushed along the vector onto the plane across the axis; times the axis's own component, so as to stay whole.
    push = vector[axis]
    return [(p[right] * push - p[axis] * vector[right], p[up] * push - p[axis] * vector[up]) for p in points]


def growth(points: list[Solid], triangles: list[Triangle], vector: Solid) -> Fraction:
    """By how much the areas of the triangles together are more than the polygon's, as a part of it."""
    return sum(length(cross(points, triangle)) for triangle in triangles) / length(vector) - 1


def length(vector: Solid) -> Fraction:
    """The length of a vector of whole numbers, to 2^-32."""
    return Fraction(isqrt(sum(number * number for number in vector) << 64), 1 << 32)


def turn(a: Flat, b: Flat, c: Flat) -> int:
    """Above zero where a, b, c turn left, below where they turn right: twice the area."""
    return (b[0] - a[0]) * (c[1] - a[1]) - (b[1] - a[1]) * (c[0] - a[0])


def fan_fits(points: list[Flat]) -> bool:
    """Whether each triangle of the fan is flat, or may be cut off once those before it are gone."""
    for at in range(1, len(points) - 1):
        rest = [points[0], *points[at:]]
        size = turn(*rest[:3])
        if size < 0 or (size > 0 and not is_ear(rest, 1)):
            return False
    return True


def ears(points: list[Flat]) -> list[Triangle] | None:
    """The triangles of corners that are cut off one after the other, or None where no corner can be."""
    left = list(range(len(points)))
    triangles: list[Triangle] = []
    at = 0
    while len(left) > 2:
        rest = [points[corner] for corner in left]
        found = next(to_cut_off(rest, at), None)
        if found is None:
            return None
        triangles.append((left[found - 1], left[found], left[(found + 1) % len(left)]))
        del left[found]
        at = found % len(left)  # go on beside the cut, so that the triangles do not all meet in one corner
    return triangles


def to_cut_off(rest: list[Flat], first: int) -> Iterator[int]:
    """Corners that can be cut off, from the first one on; those with no area at all, which always can, only last."""
    order = [*range(first, len(rest)), *range(first)]
    yield from (at for at in order if turn(*corner(rest, at)) > 0 and cut_is_free(rest, at) and is_ear(rest, at))
    yield from (at for at in order if turn(*corner(rest, at)) == 0)


def corner(rest: list[Flat], at: int) -> tuple[Flat, Flat, Flat]:
    """The corner between its two neighbours."""
    return rest[at - 1], rest[at], rest[(at + 1) % len(rest)]


def cut_is_free(rest: list[Flat], at: int) -> bool:
    """Whether no corner lies on the cut, between its ends."""
    a, _, b = corner(rest, at)
    return not any(turn(a, b, p) == 0 and dot(a, b, p) < 0 for p in rest)


def dot(a: Flat, b: Flat, p: Flat) -> int:
    """Below zero where a and b lie on different sides of p, which is on their line."""
    return (a[0] - p[0]) * (b[0] - p[0]) + (a[1] - p[1]) * (b[1] - p[1])


def is_ear(rest: list[Flat], at: int) -> bool:
    """Whether no side passes through the triangle of a corner, which turns left, and the sides go round it once."""
    triangle = corner(rest, at)
    if any(passes_through(a, b, triangle) for a, b in sides(rest)):
        return False
    return rounds(rest, triangle) == 1


def sides(rest: list[Flat]) -> Iterator[tuple[Flat, Flat]]:
    """The sides of a polygon, in order."""
    return zip(rest, rest[1:] + rest[:1])


def passes_through(a: Flat, b: Flat, triangle: tuple[Flat, Flat, Flat]) -> bool:
    """Whether the side from a to b has a point within the triangle, which turns left; its rim does not count."""
    begin, end = Fraction(0), Fraction(1)  # the part of the side that is within
    for start, stop in sides(list(triangle)):
        at_a, at_b = turn(start, stop, a), turn(start, stop, b)
        if at_a <= 0 and at_b <= 0:
            return False
        if at_a <= 0:
            begin = max(begin, Fraction(at_a, at_a - at_b))
        elif at_b <= 0:
            end = min(end, Fraction(at_a, at_a - at_b))
    return begin < end


def rounds(rest: list[Flat], triangle: tuple[Flat, Flat, Flat]) -> int:
    """How often the sides go round the triangle's middle, to the left; no side passes through there."""
    middle = (sum(p[0] for p in triangle), sum(p[1] for p in triangle))
    count = 0
    for a, b in sides([(3 * x, 3 * y) for x, y in rest]):
        if a[1] <= middle[1] < b[1] and turn(a, b, middle) > 0:
            count += 1
        elif b[1] <= middle[1] < a[1] and turn(a, b, middle) < 0:
            count -= 1
    return count


def why_none(points: list[Flat], names: list[str]) -> str:
    """Two sides that cross, by the names of their ends; failing that, what is known."""
    ends = [(at, (at + 1) % len(points)) for at in range(len(points))]
    for number, (a, b) in enumerate(ends):
        for c, d in ends[number + 1 :]:
            pa, pb, pc, pd = points[a], points[b], points[c], points[d]
            if turn(pa, pb, pc) * turn(pa, pb, pd) < 0 and turn(pc, pd, pa) * turn(pc, pd, pb) < 0:
                return f"the polygon crosses itself: side {names[a]} {names[b]} and side {names[c]} {names[d]}"
    return "the polygon goes round something twice, or joins its holes in a wrong order; cut it into triangles first"
