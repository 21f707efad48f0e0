"""The text of an OBJ for a mesh file, made to be corrected by hand, and what of a mesh file an OBJ cannot carry."""

from __future__ import annotations

from dataclasses import dataclass
from fractions import Fraction

from mowfrost import back, f32, meshfile, place
from mowfrost.meshfile import MeshFile

STEP = 10  # a comment with the number stands before each tenth vertex and triangle


@dataclass
class Text:
    """The lines of an OBJ, and what has to be said of triangles that the way back refuses as they are."""

    lines: list[str]
    notes: list[str]


def faults(mesh: MeshFile) -> list[str]:
    """What would be lost, or could not come back: nothing is written then."""
    found = []
    if not meshfile.unit_fits(mesh.unit):
        found.append(f"the unit is {shown(mesh.unit)}, not a number from 2^-20 to 16; obj_to_mesh.py takes no other")
    floats, ids = len(mesh.vertices), len(mesh.ids)
    if floats % 3:
        found.append(f"of its {floats} floats the last {rest(floats)} no whole vertex; an OBJ has x, y and z of each")
    if ids % 3:
        found.append(f"of its {ids} ids the last {rest(ids)} no triangle; an OBJ has three a face")
    if ids < 3:
        found.append("it has no triangles; obj_to_mesh.py takes no OBJ without faces")
    for at, bits in enumerate(mesh.vertices):
        if not f32.is_finite(bits):
            found.append(f"vertex {at // 3} from 0: its {'xyz'[at % 3]} is {shown(bits)}, and an OBJ has numbers alone")
    return found


def rest(number: int) -> str:
    """How many are left over from threes."""
    return "is" if number % 3 == 1 else "two are"


def shown(bits: int) -> str:
    """An f32 in a message, also one that is no number."""
    if f32.is_finite(bits):
        return f32.to_text(bits)
    if bits & ~f32.SIGN == f32.INFINITE:
        return "-infinity" if bits & f32.SIGN else "infinity"
    return f"a NaN ({bits:08x})"


def text(mesh: MeshFile) -> Text:
    """The OBJ of a mesh file without faults: comments, a line a vertex, a line a triangle, in their order."""
    made = Text(head(mesh), [])
    # As near as obj_to_mesh.py passes over without a word: else it would advise an origin against its own rounding.
    farthest = place.FARTHEST / Fraction(f32.value(mesh.unit))
    for at, corner in enumerate(threes(mesh.vertices)):
        if at % STEP == 0:
            made.lines.append(f"# vertex {at + 1}, id {at}")
        made.lines.append(" ".join(["v", *(f32.to_text(bits, farthest) for bits in corner)]))
    for at, ids in enumerate(threes(mesh.ids)):
        if at % STEP == 0:
            made.lines.append(f"# triangle {at}")
        add_face(made, at, ids, len(mesh.vertices) // 3)
    return made


def head(mesh: MeshFile) -> list[str]:
    """The comments at the top: how to count, what an OBJ has no place for, and the way back."""
    vertices, triangles = len(mesh.vertices) // 3, len(mesh.ids) // 3
    clip = "a clip was not applied" if mesh.clip else "no clip is missing"
    profile = f"the profile is {mesh.defect}" if mesh.defect is not None else "no defect of the profile"
    count = "an index of a face is the id + 1, and triangles count from 0"
    return [
        f"# A mesh file of {vertices} vertices and {triangles} triangles; {count}.",
        f"# unit {f32.to_text(mesh.unit)} (metres a model unit); {clip}; {profile}",
        back.line(back.options(mesh.unit, mesh.clip, mesh.defect, mesh.flag_record)),
    ]


def threes(values: list[int]) -> list[list[int]]:
    """Three and three."""
    return [values[at : at + 3] for at in range(0, len(values), 3)]


def add_face(made: Text, at: int, ids: list[int], vertices: int) -> None:
    """A triangle; where an id names no vertex it stands there all the same, so that it can be corrected."""
    face = " ".join(["f", *(str(id_ + 1) for id_ in ids)])
    beyond = [id_ for id_ in ids if id_ >= vertices]
    if not beyond:
        made.lines.append(face)
        return
    made.lines.append(f"{face} # triangle {at}: there is no vertex {beyond[0] + 1}")
    why = f"id {beyond[0]} names no vertex, there are {vertices}"
    then = f"obj_to_mesh.py refuses line {len(made.lines)} of the OBJ until it is corrected"
    made.notes.append(f"triangle {at}: {why}; {then}")
