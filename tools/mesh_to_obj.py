#!/usr/bin/env python3
"""Makes a Wavefront OBJ from a mesh file, to be corrected by hand: mesh_to_obj.py --help tells how."""

from __future__ import annotations

import argparse

from mowfrost import console, meshfile, objtext

TOOL = "mesh_to_obj"

DESCRIPTION = "Makes a Wavefront OBJ from a mesh file, to be corrected by hand and brought back with obj_to_mesh.py."

EPILOG = """\
A line a vertex (v) and a line a triangle (f), in the order of the file. An index of the OBJ is the id + 1. A comment
before each tenth vertex and triangle has its number. Comments at the top have what an OBJ has no place for, the unit
and the flags, and the command that makes the mesh file again. As long as nothing is changed that file is the same,
byte for byte.

Each coordinate is the shortest decimal that goes back to the same f32 and lies within 0.0001 m of it, so that
obj_to_mesh.py finds no rounding to warn of.

A triangle with an id that names no vertex (takeoff counts it under 'range') is written as it is, with a comment in its
line and a warning on standard error: obj_to_mesh.py refuses that line until it is corrected.

What an OBJ cannot carry there and back is named, and nothing is written: floats that are no whole vertex, ids that are
no triangle, a coordinate that is infinite or no number, a unit not from 2^-20 to 16, a file without triangles. A file
that takeoff refuses by 5 or 6 is refused here by the same number, with the reason.

Correct the OBJ as text. A modelling program that opens and saves it may put vertices into another order, and drops the
comments.

example:
  mesh_to_obj.py --out foot.obj foot.mesh
  obj_to_mesh.py --unit 0.001 --out corrected.mesh foot.obj      as the top of foot.obj says
  takeoff corrected.mesh

exit status: 0 written; 1 the mesh file is refused, or an OBJ cannot carry it; 2 wrong usage, or a file that cannot be
used
"""


def arguments() -> argparse.Namespace:
    """The command line; wrong usage ends with status 2."""
    parser = argparse.ArgumentParser(
        description=DESCRIPTION,
        epilog=EPILOG,
        formatter_class=argparse.RawDescriptionHelpFormatter,
        allow_abbrev=False,
    )
    parser.add_argument("file", metavar="FILE.mesh", help="the mesh file, or - for standard input")
    parser.add_argument("--out", metavar="FILE", help="where to write; standard output without it, or for -")
    return parser.parse_args()


def converted(data: bytes, name: str) -> bytes:
    """The OBJ of a mesh file, or a stop that says why there is none; warnings are told."""
    try:
        mesh = meshfile.read(data)
    except meshfile.Refused as refused:
        raise console.Stop(1, f"{name}: refused {refused.number}: {refused}") from None
    faults = objtext.faults(mesh)
    if faults:
        raise console.Stop(1, *console.capped([f"{name}: {fault}" for fault in faults]))
    made = objtext.text(mesh)
    console.tell(TOOL, *(f"warning: {note}" for note in console.capped([f"{name}, {note}" for note in made.notes])))
    return "".join(f"{line}\n" for line in made.lines).encode()


def main() -> None:
    """Reads all, then writes; so a bad file leaves an older OBJ as it was."""
    args = arguments()
    out = None if args.out == "-" else args.out
    console.check_target(args.file, out, "the mesh file")
    console.write_output(converted(console.read_input(args.file), console.shown(args.file)), out)


if __name__ == "__main__":
    console.run(TOOL, main)
