"""The static libraries: which is there and fresh, which this machine can link, what is compiled over them, and what the
header declares."""

from __future__ import annotations

import os
import platform
import re
import shutil
import subprocess
import unittest
from pathlib import Path

from tests.common import ROOT

HEADER = ROOT / "include" / "mowfrost.h"

# A crate's library where tools/staticlib writes it: x86-64 code.
BUILT = ROOT / "target" / "staticlib"


def crates_of(name: str) -> set[str]:
    """The crates of the repository that a crate is made from, itself among them."""
    lines = re.findall(r"^(\w+)(?: staticlib)?:(.*)$", (ROOT / "crates.txt").read_text(), re.MULTILINE)
    leans = {crate: needs.split() for crate, needs in lines}
    found: set[str] = set()
    todo = [name]
    while todo:
        crate = todo.pop()
        if crate in leans and crate not in found:
            found.add(crate)
            todo += leans[crate]
    return found


def why_not(name: str, folder: Path = BUILT) -> str:
    """Why a crate's library cannot be used: it is not there, or older than its code. Else nothing."""
    library = folder / f"lib{name}.a"
    if not library.exists():
        return f"lib{name}.a is not built (tools/staticlib {name})"
    made = library.stat().st_mtime
    sources = [path for crate in crates_of(name) for path in (ROOT / "crates" / crate / "src").rglob("*.rt")]
    if any(path.stat().st_mtime > made for path in sources):
        return f"lib{name}.a is older than the crates that it is made from (tools/staticlib {name})"
    return ""


def to_link() -> tuple[Path, str]:
    """Where a library is that this machine can link, or why there is none. MOWFROST_PORT may name one, as for oracle/."""
    named = os.environ.get("MOWFROST_PORT")
    if named:
        folder = ROOT / "oracle" / named
        return folder, why_not("capi", folder)
    if platform.machine() not in ("x86_64", "AMD64"):
        return BUILT, f"libcapi.a is x86-64 code, this machine {platform.machine()}, and MOWFROST_PORT names no other"
    return BUILT, why_not("capi")


def tool(name: str) -> str | None:
    """Where a program is, if it is there."""
    return shutil.which(name)


COMPILER = tool(os.environ.get("CC", "cc"))
STRICT = ["-std=c11", "-Wall", "-Wextra", "-pedantic", "-Werror", f"-I{HEADER.parent}"]


def said(*words: str) -> tuple[int, str, str]:
    """Status, standard output and standard error of a command."""
    ended = subprocess.run(words, capture_output=True, check=False, text=True, cwd=ROOT, timeout=60)
    return ended.returncode, ended.stdout, ended.stderr


def compiled(source: Path, folder: Path) -> str:
    """A C text as a program over the library, in this folder; the test is left out where there is none to link."""
    libraries, reason = to_link()
    if reason or not COMPILER:
        raise unittest.SkipTest(f"C is compiled and not run: {reason}" if reason else "C: there is no C compiler")
    program = folder / f"{source.stem}_c"
    if not program.exists():
        words = [COMPILER, *STRICT, str(source), str(libraries / "libcapi.a"), "-o", str(program)]
        status, out, errors = said(*words)
        if (status, out, errors) != (0, "", ""):
            raise AssertionError(f"{source.name}: {out}{errors}")
    return str(program)


def declared() -> dict[str, str]:
    """The functions that the header declares: from each name to its declaration, in one line and without comments."""
    text = re.sub(r"/\*.*?\*/", " ", HEADER.read_text(), flags=re.DOTALL)
    text = re.sub(r"^\s*#(?:\\\n|.)*$", "", text, flags=re.MULTILINE)
    text = text.replace('extern "C" {', "").replace("}", "")
    found: dict[str, str] = {}
    for declaration in (" ".join(part.split()) for part in text.split(";")):
        if declaration:
            name = re.match(r"\w+ (\w+)\(", declaration)
            if name is None or name[1] in found:
                raise ValueError(f"include/mowfrost.h: not one declaration of a function: {declaration}")
            found[name[1]] = declaration
    return found
