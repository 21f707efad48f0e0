"""Reads a Wavefront OBJ: its vertices, exact and as f32 bits, its faces, and the lines that cannot be read."""

from __future__ import annotations

import re
from dataclasses import dataclass, field
from fractions import Fraction
from typing import Iterator

from mowfrost import f32
from mowfrost.text import cut_short, quoted, unmarked, whole

# Names, looks, texture and drawing: none of these changes a vertex or a face.
PASSED_OVER = frozenset(
    "vt vn vp o g s mg usemtl mtllib usemap maplib l p lod bevel c_interp d_interp shadow_obj trace_obj".split()
)
# Curves and curved surfaces. What they bound has no triangles in the file, so the mesh would lack it.
FREE_FORM = frozenset(
    "cstype deg bmat step curv curv2 surf parm trim hole scrv sp end con ctech stech bsp bzp cdc cdp res".split()
)

# Another file, or the output of a command.
ELSEWHERE = frozenset(("call", "csh"))

CORNER = re.compile(r"(-?[0-9]+)(?:/-?[0-9]+|//-?[0-9]+|/-?[0-9]+/-?[0-9]+)?")

# Behind x, y and z: nothing, w, a colour, or a colour with one number more (w before it or alpha behind it).
VERTEX_LENGTHS = (3, 4, 6, 7)

Origin = tuple[int, int, int]  # whole numbers, taken off x, y and z


@dataclass(frozen=True)
class Vertex:
    """x, y and z: as they stand in their line, as exact numbers, and less the origin as f32 bits."""

    line: int
    words: tuple[str, ...]
    exact: tuple[Fraction, ...]
    bits: tuple[int, ...]


@dataclass(frozen=True)
class Face:
    """The corners as ids from 0, and as the indices that stand in the line."""

    line: int
    ids: list[int]
    indices: list[str]


@dataclass
class Mesh:
    """All vertices and all faces, in their order."""

    vertices: list[Vertex] = field(default_factory=list)
    faces: list[Face] = field(default_factory=list)


@dataclass(frozen=True, order=True)
class Fault:
    """A line that cannot be read, or has something to be said of it, and what."""

    line: int
    reason: str


def read(data: bytes, origin: Origin = (0, 0, 0)) -> tuple[Mesh, list[Fault]]:
    """The mesh, and the faults by rising line; the mesh counts for something only where there is none."""
    reader = Reader(origin)
    for line, words in statements(data):
        try:
            reader.take(line, words)
        except ValueError as reason:
            reader.faults.append(Fault(line, str(reason)))
    return reader.finish()


def statements(data: bytes) -> Iterator[tuple[int, list[str] | None]]:
    """Each statement's first line and its words, without comments; None where the file ends in the middle of one."""
    first = 0
    words: list[str] = []
    for number, raw in enumerate(unmarked(data).splitlines(), 1):
        first = first or number
        text, comment, _ = raw.decode("utf-8", "replace").partition("#")
        # In a comment a backslash says nothing: else a comment that ends in a Windows path would swallow a vertex.
        goes_on = not comment and text.endswith("\\")
        words += (text[:-1] if goes_on else text).split()
        if not goes_on:
            yield first, words
            first, words = 0, []
    if first:
        yield first, None


class Reader:
    """Takes one statement after the other."""

    def __init__(self, origin: Origin) -> None:
        self.origin = origin
        self.declared = 0  # vertices so far, those that cannot be read included, so that later indices still fit
        self.mesh = Mesh()
        self.faults: list[Fault] = []

    def take(self, line: int, words: list[str] | None) -> None:
        """One statement; a ValueError says why it cannot be read."""
        if words is None:
            raise ValueError("a backslash says that the line goes on, but the file ends")
        if not words:
            return
        keyword, values = words[0], words[1:]
        if keyword == "v":
            self.declared += 1
            self.mesh.vertices.append(vertex(line, values, self.origin))
        elif keyword == "f":
            self.mesh.faces.append(face(line, values, self.declared))
        elif keyword not in PASSED_OVER:
            raise ValueError(why_not(keyword))

    def finish(self) -> tuple[Mesh, list[Fault]]:
        """An index may name a vertex further down, so only now is it known which are too large."""
        for made in self.mesh.faces:
            beyond = [index for corner, index in zip(made.ids, made.indices) if corner >= self.declared]
            if beyond:
                reason = f"index {cut_short(beyond[0])}, but the file has {self.declared} vertices"
                self.faults.append(Fault(made.line, reason))
        return self.mesh, sorted(self.faults)


def why_not(keyword: str) -> str:
    """Why a statement with this keyword is not read."""
    if keyword in FREE_FORM:
        return f"'{keyword}' is of a free-form curve or surface; only polygons are read"
    if keyword in ELSEWHERE:
        return f"'{keyword}' takes in something from outside this file; that is not followed"
    return f"{quoted(keyword)} is no statement that is known here"


def vertex(line: int, values: list[str], origin: Origin) -> Vertex:
    """A vertex. Weight and colour have to be numbers, and are ignored."""
    if len(values) not in VERTEX_LENGTHS:
        raise ValueError(f"a vertex has 3 numbers, 4 with a weight, 6 or 7 with a colour; here are {len(values)}")
    for word in values[3:]:
        if not f32.is_number(word):
            raise ValueError(f"{quoted(word)} is not a number")
    words = tuple(values[:3])
    bits = tuple(f32.from_text(word, less) for word, less in zip(words, origin))
    return Vertex(line, words, tuple(map(f32.exact, words)), bits)


def face(line: int, values: list[str], above: int) -> Face:
    """A face, with so many vertices above it."""
    indices = [index_of(word) for word in values]
    if len(indices) < 3:
        raise ValueError(f"a face has at least 3 corners; here {'is' if len(indices) == 1 else 'are'} {len(indices)}")
    return Face(line, [id_of(index, above) for index in indices], indices)


def index_of(word: str) -> str:
    """The index of a corner, as it stands there."""
    match = CORNER.fullmatch(word)
    if match is None:
        raise ValueError(f"{quoted(word)} is no corner; it would be v, v/vt, v//vn or v/vt/vn")
    return match[1]


def id_of(index: str, above: int) -> int:
    """The id that an index names; a negative one counts back from the last vertex above the face."""
    number = whole(index)
    if number == 0:
        raise ValueError(f"index {cut_short(index)}; the first vertex is 1")
    if number < -above:
        raise ValueError(f"index {cut_short(index)}, but above it are {above} vertices")
    return number - 1 if number > 0 else above + number
