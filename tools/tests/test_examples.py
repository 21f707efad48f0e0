"""The examples: the files that are kept, and, where the programs are fresh, the whole road from OBJ or STL to words."""

from __future__ import annotations

import subprocess
import unittest

import show_listing
from tests.common import CUBE_BYTES, CUBE_LISTING, EXAMPLES, MADE_WITH, SCRIPT, Case, needs_program, run
from tests.stl import MOUNT, MOUNT_FILE, triangles_of, uneven

# The examples that are binary STL, and what they have to be.
STL = {"mount": MOUNT_FILE, "mount-cut": MOUNT_FILE[:-30]}

# What the words have to say of each example.
SAYS = {
    "cube": ["closed.", "8 m3, to be relied on", "Surface area:     24 m2"],
    "open-plinth": ["The mesh does not close", "24 m3, reliable only in", "mesh_open:", "bottom:         0 m2"],
    "two-plinths": ["closed.", "4.125 m3, to be relied on", "Pieces:           2", "Box volume:       10.5 m3"],
    "corner-plinths": ["closed.", "13 m3, to be relied on", "Pieces:           2", "Box volume:       30 m3"],
    "mast-foot-mm": ["closed.", "0.53780186 m3, to be relied on", "inclined:       1.0715294 m2"],
    "hut": ["closed.", "345.3125 m3, to be relied on", "top:            0 m2", "inclined:       122.4375 m2"],
    "mount": ["closed.", "0.0009280002 m3, to be relied on", "Pieces:           44", "inclined:       0.022000002 m2"],
    "mount-cut": ["Refused (5)"],
}


class Kept(Case):
    def test_every_example_is_here(self) -> None:
        self.assertEqual({path.stem for path in EXAMPLES.glob("*.obj")}, set(MADE_WITH))
        self.assertEqual({path.stem for path in EXAMPLES.glob("*.stl")}, set(STL))
        self.assertEqual({path.stem for path in EXAMPLES.glob("*.listing")}, {*MADE_WITH, *STL})

    def test_document_01s_cube(self) -> None:
        self.assertEqual((EXAMPLES / "cube.mesh").read_bytes(), CUBE_BYTES)
        self.assertEqual((EXAMPLES / "cube.listing").read_text(), CUBE_LISTING)

    def test_mesh_files_are_what_the_tool_makes(self) -> None:
        for name, args in MADE_WITH.items():
            self.check(run("obj_to_mesh.py", *args, f"{name}.obj", folder=EXAMPLES), 0, "", mesh(name))

    def test_the_mount(self) -> None:
        for name, data in STL.items():
            self.assertEqual((EXAMPLES / f"{name}.stl").read_bytes(), data)
        self.assertEqual((len(MOUNT), len(MOUNT_FILE), len(STL["mount-cut"])), (44, 2284, 2254))
        self.assertEqual(triangles_of(MOUNT_FILE), MOUNT)
        self.assertEqual(uneven(MOUNT), [])
        self.assertEqual(len(uneven(MOUNT[1:])), 3)

    def test_words(self) -> None:
        for name in [*MADE_WITH, *STL]:
            words = show_listing.words(listing(name))
            for part in SAYS[name]:
                self.assertIn(part, words)

    def test_readme_has_the_commands(self) -> None:
        readme = (EXAMPLES / "README.md").read_text()
        for name, args in MADE_WITH.items():
            self.assertIn(" ".join(["../tools/obj_to_mesh.py", *args, "--out", f"{name}.mesh", f"{name}.obj"]), readme)
        for name in STL:
            self.assertIn(f"../takeoff --stl {name}.stl", readme)


@needs_program("the whole road")
class WholeRoad(Case):
    def test_obj_to_file_to_listing_to_words(self) -> None:
        for name, args in MADE_WITH.items():
            with self.subTest(name=name):
                self.check(run("obj_to_mesh.py", *args, "--out", str(self.out), f"{name}.obj", folder=EXAMPLES), 0, "")
                printed = subprocess.run([str(SCRIPT), str(self.out)], capture_output=True, check=False, timeout=60)
                self.assertEqual(printed.stdout, listing(name), printed.stderr.decode())
                words = show_listing.words(listing(name)).encode()
                self.check(run("show_listing.py", given=printed.stdout), 0, "", words)

    def test_stl_to_listing_to_words(self) -> None:
        for name in STL:
            with self.subTest(name=name):
                command = [str(SCRIPT), "--stl", str(EXAMPLES / f"{name}.stl")]
                printed = subprocess.run(command, capture_output=True, check=False, timeout=60)
                self.assertEqual((printed.stdout, printed.stderr), (listing(name), b""))
                words = show_listing.words(listing(name)).encode()
                self.check(run("show_listing.py", given=printed.stdout), 0, "", words)


def mesh(name: str) -> bytes:
    """The mesh file that is kept for an example."""
    return (EXAMPLES / f"{name}.mesh").read_bytes()


def listing(name: str) -> bytes:
    """The listing that is kept for an example."""
    return (EXAMPLES / f"{name}.listing").read_bytes()


if __name__ == "__main__":
    unittest.main()
