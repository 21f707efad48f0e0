"""What rounding to f32 does to the coordinates of an OBJ: what is moved, what is refused, and an origin that helps."""

# An f32 has 24 binary digits. On a national grid they end at a quarter or half a metre, and a wall is no longer itself.
# A whole origin may be taken off first, since the place does not show in a result: the product's third demand.

from __future__ import annotations

from fractions import Fraction
from math import floor
from typing import Iterator

from mowfrost import f32
from mowfrost.obj import Fault, Origin, Vertex
from mowfrost.text import quoted, rough

FARTHEST = Fraction(1, 10000)  # metres that a coordinate may be moved without a word
GREATEST = 8589934592  # document 01: a larger magnitude is refusal 4


def notes(vertices: list[Vertex], origin: Origin, unit: int) -> tuple[list[Fault], list[str]]:
    """What to say of single lines, and what of them all; the unit is f32 bits."""
    # Of fewer than three vertices, nine floats, the program looks at none.
    refused = [note for vertex in vertices for note in refusals(vertex)] if len(vertices) >= 3 else []
    moved = [(way, vertex, axis) for vertex in vertices for axis, way in enumerate(ways(vertex, origin, unit))]
    far = [(way, vertex, axis) for way, vertex, axis in moved if way > FARTHEST]
    lines = sorted(refused + [Fault(vertex.line, shift(vertex.words[axis], way)) for way, vertex, axis in far])
    if not lines:
        return [], []
    axes = {axis for _, _, axis in far}.union(*map(too_large, vertices))
    return lines, [*summary(far), advice(vertices, origin, unit, axes)]


def too_large(vertex: Vertex) -> list[int]:
    """The axes on which the program refuses the vertex."""
    return [axis for axis, bits in enumerate(vertex.bits) if abs(f32.value(bits)) > GREATEST]


def refusals(vertex: Vertex) -> Iterator[Fault]:
    """A note for each coordinate that the program refuses."""
    for axis in too_large(vertex):
        yield Fault(vertex.line, f"{quoted(vertex.words[axis])} is above {GREATEST}, so the program refuses it (4)")


def ways(vertex: Vertex, origin: Origin, unit: int) -> list[Fraction]:
    """How many metres each coordinate is moved by rounding, exactly."""
    metres = Fraction(f32.value(unit))
    return [
        abs(Fraction(f32.value(bits)) - (number - less)) * metres
        for bits, number, less in zip(vertex.bits, vertex.exact, origin)
    ]


def shift(word: str, way: Fraction) -> str:
    """How far a coordinate is moved."""
    return f"rounding to f32 moves {quoted(word)} by {rough(way)} m"


def summary(far: list[tuple[Fraction, Vertex, int]]) -> list[str]:
    """How many are moved, and the farthest."""
    if not far:
        return []
    way, vertex, axis = max(far, key=lambda found: found[0])
    which = f"the farthest is {quoted(vertex.words[axis])} in line {vertex.line}, by {rough(way)} m"
    return [f"coordinates moved by more than 0.0001 m: {len(far)}; {which}"]


def advice(vertices: list[Vertex], origin: Origin, unit: int, axes: set[int]) -> str:
    """An origin that leaves less to be moved or refused, by trying it; or that none near the model's corner does."""
    near = tuple(
        floor(min(vertex.exact[axis] for vertex in vertices)) if axis in axes else origin[axis] for axis in range(3)
    )
    now = worst(vertices, origin, unit)
    try:
        then = worst([placed(vertex, near) for vertex in vertices], near, unit)
    except ValueError:  # so far from the corner that there is no f32 for it
        then = now
    if then >= now:
        return "no whole origin near the model's least corner helps; it is too large for f32"
    left = "" if then[1] <= FARTHEST else f"; that still leaves {rough(then[1])} m"
    return f"--origin={','.join(map(str, near))} would help{left}"


def placed(vertex: Vertex, origin: Origin) -> Vertex:
    """The vertex with another origin taken off."""
    bits = tuple(f32.from_text(word, less) for word, less in zip(vertex.words, origin))
    return Vertex(vertex.line, vertex.words, vertex.exact, bits)


def worst(vertices: list[Vertex], origin: Origin, unit: int) -> tuple[int, Fraction]:
    """How many coordinates are refused, and how far the farthest is moved."""
    refused = sum(len(too_large(vertex)) for vertex in vertices)
    return refused, max(way for vertex in vertices for way in ways(vertex, origin, unit))
