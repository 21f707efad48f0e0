"""The faces of an OBJ as triangles, the lines of polygons that have none, and of those that are not flat."""

from __future__ import annotations

from dataclasses import dataclass, field

from mowfrost import polygon
from mowfrost.obj import Face, Fault, Mesh
from mowfrost.text import cut_short, rough


@dataclass
class Triangles:
    """Ids, three a triangle; faults, which leave nothing to use; notes on what is used all the same."""

    ids: list[int] = field(default_factory=list)
    faults: list[Fault] = field(default_factory=list)
    notes: list[Fault] = field(default_factory=list)


def count(mesh: Mesh) -> int:
    """How many triangles the faces have, however they are cut."""
    return sum(len(face.ids) - 2 for face in mesh.faces)


def triangles(mesh: Mesh) -> Triangles:
    """Every face cut into triangles, in their order."""
    made = Triangles()
    for face in mesh.faces:
        try:
            cut = polygon.cut([mesh.vertices[id_].exact for id_ in face.ids], names(face))
        except ValueError as reason:
            made.faults.append(Fault(face.line, str(reason)))
            continue
        made.ids += (face.ids[number] for triangle in cut.triangles for number in triangle)
        if not cut.is_flat():
            made.notes.append(Fault(face.line, not_flat(cut)))
    return made


def names(face: Face) -> list[str]:
    """The corners by the indices in their line."""
    return [cut_short(index) for index in face.indices]


def not_flat(cut: polygon.Cut) -> str:
    """What to think of a polygon that bends."""
    more = f"its triangles have {rough(100 * cut.growth)}% more area than it has as a whole"
    return f"the polygon is not flat: {more}; cut otherwise it would give other numbers"
