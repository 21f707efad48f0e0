#!/usr/bin/env python3
"""Makes a mesh file for `takeoff` from a Wavefront OBJ: obj_to_mesh.py --help tells how."""

from __future__ import annotations

import argparse
import re
import sys

from mowfrost import back, console, f32, faces, meshfile, obj, place
from mowfrost.text import quoted

TOOL = "obj_to_mesh"

ORIGIN = re.compile(",".join([r"([+-]?[0-9]{1,40})"] * 3))

DESCRIPTION = "Makes a mesh file for takeoff from a Wavefront OBJ."

EPILOG = """\
Each coordinate becomes the f32 nearest to the number in the text. All vertices are kept, in their order, used or not.
An index may be negative (-1 is the last vertex above the face); a positive one may also name a vertex further down.
Weights, colours, texture, normals, names and materials are passed over. For takeoff z is up: of a model with y up it
mixes up the top, bottom and side areas.

A polygon becomes a fan of triangles from its first corner, (1, 2, 3), (1, 3, 4) and so on, if in that fan, seen along
the polygon's area vector, no triangle lies upside down and no two overlap. A fan has the polygon's area vector in any
case, so each triangle is looked at by itself, in exact numbers. Where the fan of a polygon with a dent will not do,
corners are cut off one after the other so that the triangles fill just what the polygon goes round; a hole may be
joined to the rim by a side that is walked both ways. A polygon that crosses itself is refused, with its line. So is one
with a dent that is not flat: whose triangles have over a hundredth more area than it has as a whole, the length of
its area vector. A fan that is not flat is used, with a warning: cut otherwise, the polygon would give other numbers.

An OBJ that mesh_to_obj.py made goes back to the same bytes by the command at its top, which has the unit and the flags.
Where other options are given, a warning says so. --flag-record is for a file with a record of flags in which none is
set, as the library writes it; for takeoff it says the same with the record and without.

Warnings come on standard error, and the file is written all the same. A warning names each coordinate that rounding
moves by more than 0.0001 m, and each that the program refuses (above 8589934592), by its line. --origin takes whole
numbers off all coordinates, exactly and before they are rounded: for models on a national grid. Where a model of whole
numbers stands changes no verdict and, if it closes, no number (README.md, the third demand); rounding changes both.

A line that cannot be read is named with the reason, and nothing is written; so it is where there are no faces. The
program takes at most 1536 floats (512 vertices) and 1536 ids (512 triangles).

example:
  obj_to_mesh.py --unit 0.001 --out foot.mesh foot.obj                   a model in millimetres
  obj_to_mesh.py --origin=597000,6643000,0 --out wall.mesh wall.obj      a model on a national grid, in metres
  takeoff foot.mesh

exit status: 0 written; 1 the OBJ cannot be read, has no faces or is too large; 2 wrong usage, or a file that cannot
be used
"""


def unit(text: str) -> int:
    """The unit as f32 bits, within document 01's range."""
    try:
        bits = f32.from_text(text)
    except ValueError as reason:
        raise argparse.ArgumentTypeError(str(reason)) from None
    if not meshfile.unit_fits(bits):
        raise argparse.ArgumentTypeError(f"{quoted(text)} is not between 2^-20 (0.00000095367431640625) and 16")
    return bits


def origin(text: str) -> obj.Origin:
    """Three whole numbers; others could not be taken off an f32 exactly, and would change results."""
    match = ORIGIN.fullmatch(text)
    if match is None:
        raise argparse.ArgumentTypeError(f"{quoted(text)} is not three whole numbers, as 597000,6643000,0 is")
    x, y, z = map(int, match.groups())
    return x, y, z


def arguments(words: list[str] | None = None) -> argparse.Namespace:
    """These words, or those of the command line; wrong usage ends with status 2."""
    parser = argparse.ArgumentParser(
        description=DESCRIPTION,
        epilog=EPILOG,
        formatter_class=argparse.RawDescriptionHelpFormatter,
        allow_abbrev=False,
    )
    defects = ", ".join(meshfile.DEFECTS)
    add = parser.add_argument
    add("file", metavar="FILE.obj", help="the OBJ, or - for standard input")
    add("--unit", metavar="U", type=unit, default="1.0", help="metres a unit, 2^-20 to 16 (default 1.0)")
    least = "whole numbers to take off x, y and z, in units of the model (default 0,0,0); write --origin=-5,0,0"
    add("--origin", metavar="X,Y,Z", type=origin, default="0,0,0", help=least)
    add("--clip", action="store_true", help="flag: a clip was not applied to this mesh")
    add("--defect", metavar="NAME", choices=meshfile.DEFECTS, help=f"flag: a defect of the profile; one of {defects}")
    add("--flag-record", action="store_true", help="write the record of flags (kind 4) also where no flag is set")
    add("--out", metavar="FILE", help="where to write; standard output without it, or for -")
    return parser.parse_args(words)


def converted(data: bytes, args: argparse.Namespace) -> bytes:
    """The mesh file of an OBJ, or a stop that names every bad line; warnings are told."""
    name = console.shown(args.file)
    mesh, faults = obj.read(data, args.origin)
    stop_at(faults, name)
    if not mesh.faces:
        raise console.Stop(1, f"{name} has no {'faces' if mesh.vertices else 'vertices and no faces'}")
    over = meshfile.too_many(3 * len(mesh.vertices), 3 * faces.count(mesh))
    if over:
        raise console.Stop(1, f"{name} has {over}")
    cut = faces.triangles(mesh)
    stop_at(cut.faults, name)
    warn(mesh, [*otherwise(data, args), *cut.notes], args, name)
    bits = [bits for vertex in mesh.vertices for bits in vertex.bits]
    return meshfile.mesh_file(args.unit, bits, cut.ids, args.clip, args.defect, args.flag_record)


def stop_at(faults: list[obj.Fault], name: str) -> None:
    """A stop where there are faults, with the lines."""
    if faults:
        raise console.Stop(1, *console.capped(by_line(faults, name)))


def otherwise(data: bytes, args: argparse.Namespace) -> list[obj.Fault]:
    """Where the OBJ was made from a mesh file, and says so: whether other options are given than make it again."""
    found = back.asked_for(data)
    given = back.options(args.unit, args.clip, args.defect, args.flag_record)
    if found is None or found[1] == given:
        return []
    number, asked = found
    return [obj.Fault(number, f"the mesh file that this OBJ is from is made by {asked}, but here by {given}")]


def warn(mesh: obj.Mesh, notes: list[obj.Fault], args: argparse.Namespace, name: str) -> None:
    """Tells what the file has all the same: other options, polygons not flat, coordinates that are moved or refused."""
    lines, all_told = place.notes(mesh.vertices, args.origin, args.unit)
    told = console.capped(by_line(notes, name)) + console.capped(by_line(lines, name)) + all_told
    console.tell(TOOL, *(f"warning: {message}" for message in told))


def by_line(faults: list[obj.Fault], name: str) -> list[str]:
    """Each with its line before it."""
    return [f"{name}, line {fault.line}: {fault.reason}" for fault in faults]


def check_target(args: argparse.Namespace) -> None:
    """Stops where the bytes must not go: to a terminal, which they would upset, or over the OBJ itself."""
    console.check_target(args.file, args.out, "the OBJ")
    if args.out is None and sys.stdout.isatty():
        raise console.Stop(2, "a mesh file is bytes, which a terminal cannot show; use --out FILE or a pipe")


def main() -> None:
    """Reads all, then writes; so a bad OBJ leaves an older file as it was."""
    args = arguments()
    args.out = None if args.out == "-" else args.out
    check_target(args)
    console.write_output(converted(console.read_input(args.file), args), args.out)


if __name__ == "__main__":
    console.run(TOOL, main)
