"""The comment at the top of an OBJ from mesh_to_obj.py that has the command for the way back: its text, where it is."""

# An OBJ has no place for the unit and the flags. A unit of 0.001 that is forgotten becomes 1, and the volume a billion
# times itself. So the OBJ tells the whole command, and obj_to_mesh.py warns where it is given other options.

from __future__ import annotations

import re

from mowfrost import f32
from mowfrost.text import unmarked

# Behind the options stand the names of the files, which everybody chooses.
LINE = re.compile(rb"# back: obj_to_mesh\.py ([-+.\w ]{1,100}?) --out ")


def options(unit: int, clip: bool, defect: str | None, flag_record: bool) -> str:
    """The options of obj_to_mesh.py for what an OBJ cannot carry; the unit is f32 bits."""
    words = ["--unit", f32.to_text(unit)]
    if clip:
        words.append("--clip")
    if defect is not None:
        words += ["--defect", defect]
    # A flag that is set has its record in any case.
    if flag_record and not clip and defect is None:
        words.append("--flag-record")
    return " ".join(words)


def line(asked: str) -> str:
    """The comment for these options."""
    return f"# back: obj_to_mesh.py {asked} --out FILE.mesh FILE.obj"


def asked_for(data: bytes) -> tuple[int, str] | None:
    """The first such comment of an OBJ: its line and the options; None where there is none."""
    for number, text in enumerate(unmarked(data).splitlines(), 1):
        found = LINE.match(text)
        if found is not None:
            return number, found[1].decode()
    return None
