#!/usr/bin/env python3
"""Shows a listing of `takeoff` in square and cubic metres and in words: show_listing.py --help tells how."""

from __future__ import annotations

import argparse

from mowfrost import console, f32
from mowfrost.listing import NotAListing, Refused, parse

DESCRIPTION = "Shows a listing of takeoff in square and cubic metres and in words."

EPILOG = """\
Each number is the shortest decimal that names the same f32. m2 and m3 are square and cubic metres. The volume of an
open shell depends on where it is measured from, also where the listing says 'reliable 1'. Triangles that were left
out are counted, with the reason; nothing is said of them where none was. A listing does not say the edition of the
slope rule (README.md) that tells top, bottom, side and inclined apart: takeoff names edition 1.

example:
  takeoff foot.mesh | show_listing.py

exit status: 0 shown, also for a refusal; 1 not a listing; 2 wrong usage, or a file that cannot be used
"""

CLOSED = "closed. No edge is left open, so the mesh encloses a volume."
OPEN = "open shell. The mesh does not close, as when a face is missing, doubled or turned."
# Of an open mesh the volume is the sum of cones from a point to its faces, and another point gives another sum.
OPEN_TOO = "So its volume depends on where it is measured from, whatever 'reliable' says."
METHODS = {
    "mesh": "the volume that the mesh encloses",
    "mesh_open": "the volume summed over the open mesh, which keeps within its bounds",
    "prism_fallback": "the prism bound, since the mesh itself gives no volume to use",
    "mesh_unclipped": "the volume of the mesh, which lacks a clip that should have been applied",
    "mesh_profile_invalid": "the volume of the mesh, which was made from a profile with a defect",
}
RELIABLE = {"0": "not to be relied on", "1": "to be relied on"}
OPEN_RELIABLE = {"0": RELIABLE["0"], "1": "reliable only in that it keeps within its bounds"}
PROFILES = {
    "self_intersecting": "its edges cross each other",
    "degenerate": "it has collapsed to a line",
    "hole_outside": "a hole lies outside it",
    "overlapping": "two of its regions overlap",
}
# Document 01, 'Order of checks' and 'The program `takeoff`'; 02, A4 and A6.
REFUSALS = {
    1: "more than 98304 vertex floats or more than 98304 ids",
    2: "the unit is not finite, or outside its range (2^-20 to 16 metres a unit)",
    3: "the work area, the raster or the surface area is too short for this mesh",
    4: "a vertex float is not finite or too large (its magnitude is above 8589934592)",
    5: "not a mesh file: a header missing or cut, a wrong kind or length, a payload cut, a flag value unknown, "
    "or bytes after the end; from --stl not a binary STL, which has 84 bytes and 50 for each triangle",
    6: "too many: the file has more than 1536 floats or more than 1536 ids; from --stl a count above 170 triangles, "
    "or text in its place",
    7: "the edition of the slope rule is neither 1 nor 2",
}


def number(bits: str) -> str:
    """f32 bits as a decimal."""
    return f32.shortest(int(bits, 16))


def is_zero(bits: str) -> bool:
    """Whether the bits are 0 or -0."""
    return number(bits) == "0"


def verdict(values: dict[str, str]) -> str:
    """The verdict, and for a mesh without a solid why there is none, as far as the listing tells."""
    if values["quality"] == "closed":
        return CLOSED
    if values["quality"] == "open_shell":
        return OPEN
    if not is_zero(values["aabb"]):
        why = "its faces cancel each other"
    elif not is_zero(values["surface"]):
        why = "it is flat, its box has no volume"
    else:
        why = "it is empty, or no triangle of it has an area"
    return f"degenerate. The mesh has no solid: {why}."


def best(values: dict[str, str]) -> str:
    """The best volume and what to think of it. The 0 of a degenerate mesh measures nothing."""
    reliable = OPEN_RELIABLE if values["quality"] == "open_shell" else RELIABLE
    none = ": there is no volume that can be taken off" if values["quality"] == "degenerate" else ""
    return f"{number(values['best'])} m3, {reliable[values['reliable']]}{none}"


def method(values: dict[str, str]) -> str:
    """Which volume the best one is."""
    name = values["method"]
    if values["quality"] == "degenerate":
        return f"{name}: here no volume at all, neither the mesh's nor a prism's"
    return f"{name}: {METHODS[name]}"


def signed_volume(bits: str) -> str:
    """The volume with its sign, and what a minus says."""
    text = number(bits)
    return f"{text} m3" + (" (negative: on the whole the faces look inwards)" if text.startswith("-") else "")


def smallest(bits: str) -> str:
    """The smallest surface; 0 says that there is none above the limit."""
    text = number(bits)
    return "none above 0.000001 m2" if text == "0" else f"{text} m2"


def prism(values: dict[str, str]) -> str:
    """The prism bound, where it was computed."""
    if values["prism"] == "none":
        return "not computed; only an open shell needs it"
    is_set = values["quality"] == "degenerate"
    how = "set so for a degenerate mesh, not computed" if is_set else "least footprint times extent"
    return f"{number(values['prism'])} m3 ({how})"


def profile(value: str) -> str:
    """What is wrong with the profile, if anything is known."""
    return "no defect recorded" if value == "none" else f"{value}: {PROFILES[value]}"


def left_out(values: dict[str, str]) -> list[tuple[str, str]]:
    """How many triangles were left out, and why; nothing where none was."""
    used, out_of_range, slivers = (int(values[name]) for name in ("used", "range", "sliver"))
    left = out_of_range + slivers
    total = used + left
    of_all = f"{left} of {total} triangle{'' if total == 1 else 's'}, in no area and not in the signed volume"
    lines = [
        (left, "Left out", of_all),
        (out_of_range, "  out of range", f"{out_of_range} with an id that names no vertex"),
        (slivers, "  slivers", f"{slivers} with no area, or next to none"),
    ]
    return [(name, text) for number_of, name, text in lines if number_of > 0]


def heading(values: dict[str, str]) -> list[tuple[str, str]]:
    """What a person asks first."""
    too = [("", OPEN_TOO)] if values["quality"] == "open_shell" else []
    return [
        ("Verdict", verdict(values)),
        *too,
        ("Best volume", best(values)),
        ("  method", method(values)),
        ("  profile", profile(values["profile"])),
        ("Pieces", values["pieces"]),
        *left_out(values),
    ]


def amounts(values: dict[str, str]) -> list[tuple[str, str]]:
    """Volumes and areas."""
    names = ("surface", "top", "bottom", "side", "inclined", "largest")
    areas = {name: f"{number(values[name])} m2" for name in names}
    return [
        ("Signed volume", signed_volume(values["volume"])),
        ("Box volume", f"{number(values['aabb'])} m3"),
        ("Prism bound", prism(values)),
        ("Surface area", f"{areas['surface']}; by slope, under edition 1 of the slope rule:"),
        ("  top", areas["top"]),
        ("  bottom", areas["bottom"]),
        ("  side", areas["side"]),
        ("  inclined", areas["inclined"]),
        ("Largest surface", areas["largest"]),
        ("Smallest surface", smallest(values["smallest"])),
    ]


def labelled(pairs: list[tuple[str, str]]) -> list[str]:
    """A line for each name and its text, the texts under each other; no name where a text goes on."""
    return [(f"{name}:" if name else "").ljust(18) + text for name, text in pairs]


def table(rows: list[list[str]]) -> list[str]:
    """The surfaces, each number under its name."""
    if not rows:
        return ["Surfaces: none"]
    cells = [["area m2", "nx", "ny", "nz"]] + [[number(n) for n in row] for row in rows]
    widths = [max(len(row[column]) for row in cells) for column in range(4)]
    lines = ["  " + "   ".join(cell.rjust(width) for cell, width in zip(row, widths)) for row in cells]
    return [f"Surfaces: {len(rows)}. A row has all faces whose normal rounds to the same tenths.", *lines]


def words(data: bytes) -> str:
    """The whole text for a person; NotAListing where there is none."""
    answer = parse(data)
    if isinstance(answer, Refused):
        if answer.number not in REFUSALS:
            raise NotAListing(1, f"there is no refusal {answer.number}")
        return f"Refused ({answer.number}): {REFUSALS[answer.number]}.\n"
    parts = [labelled(heading(answer.values)), labelled(amounts(answer.values)), table(answer.rows)]
    return "\n\n".join("\n".join(part) for part in parts) + "\n"


def main() -> None:
    """Reads all, then shows."""
    parser = argparse.ArgumentParser(
        description=DESCRIPTION,
        epilog=EPILOG,
        formatter_class=argparse.RawDescriptionHelpFormatter,
        allow_abbrev=False,
    )
    help_text = "the listing; without it, or for -, standard input"
    parser.add_argument("file", metavar="FILE", nargs="?", default="-", help=help_text)
    name = parser.parse_args().file
    data = console.read_input(name)
    try:
        text = words(data)
    except NotAListing as fault:
        raise console.Stop(1, f"{console.shown(name)}, {fault}") from None
    print(text, end="")


if __name__ == "__main__":
    console.run("show_listing", main)
