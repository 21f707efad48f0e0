//! What A1 counts (02): triangles that are used beside some that are left out, and both sides of each question.

use super::examples::{corners, ids, of, tilted, CLOSED, DEGENERATE, PRISM};
use super::List;
use crate::file::{write, Flags, MeshFile};
use crate::record::plain;
use crate::solids::Shape;

/// Used, out of range and sliver, one each: 8 is the first id out of range, and 004 has an edge of no length.
const EACH: &str = "013 128 004";

/// A tetrahedron, and triangles that repeat an id, so that it stays closed.
const SHELL: &str = "021 013 032 123 088 004";

pub fn left_out(list: &mut List) {
    for (says, name, triangles) in [
        (PRISM, "a sliver beside a used triangle", "013 004"),
        (PRISM, "one id out of range, the first", "013 812"),
        (PRISM, "one id out of range, the second", "013 182"),
        (PRISM, "one id out of range, the third", "013 128"),
        (PRISM, "one of each", EACH),
        (PRISM, "out of range, and with a repeated id", "013 088 880 808 888"),
        (PRISM, "one of each and a leftover id", "013 128 004 8"),
        (PRISM, "one of each and two leftover ids", "013 128 004 01"),
        (PRISM, "all left out", "128 004"),
        (PRISM, "all slivers", "004 040 400 444"),
        (CLOSED, "both in a closed shell", SHELL),
    ] {
        list.mesh(says, format!("a1: {name}: {triangles}"), &plain(1.0, &corners(), &ids(triangles)));
    }
    let mut wrong = Shape::cube(2.0);
    wrong.ids[..6].copy_from_slice(&ids("028 001"));
    list.mesh("open_shell 1 mesh_open", "a1: the cube with two wrong ids: 028 001", &of(1.0, &wrong));
    let cut = corners()[..23].to_vec();
    list.mesh(PRISM, "a1: the last vertex cut short by a float: 013 127", &plain(1.0, &cut, &ids("013 127")));
    let line = [[0.0; 3], [1.0; 3], [3.0; 3], [0.0, 0.0, 2.0]].concat();
    list.mesh("open_shell", "a1: in a line, no id repeated: 012 013", &plain(1.0, &line, &ids("012 013")));
    for (says, clip, defect) in [
        ("closed 0 mesh_unclipped", true, 0),
        ("closed 0 mesh_profile_invalid", false, 3),
        ("closed 0 mesh_unclipped", true, 4),
    ] {
        let mesh = MeshFile { flags: Flags { clip, defect }, ..plain(1.0, &corners(), &ids(SHELL)) };
        list.file(
            says,
            format!("a1: both in a closed shell, clip {}, defect {defect}", clip as u8),
            write(&mesh, true),
        );
    }

    // the length is the corners' own at a corner of the box, and rebased by another corner of it another one
    for (name, step) in [("a step under 1e-12", -1), ("1e-12", 0), ("a step above 1e-12", 1)] {
        let limit = Shape::at_limit(step);
        list.mesh(DEGENERATE, format!("a1: a length of {name}"), &of(1.0, &limit));
        let beside = Shape::cube(2.0).with(limit.clone().rolled(1)).with(limit.rolled(2).flipped());
        list.mesh(CLOSED, format!("a1: a length of {name}, twice, in a cube"), &of(1.0, &beside));
    }
    for (name, step, low) in [("above 1e-12, rebased under it", 1, -0.75), ("under 1e-12, rebased above it", -1, -1.0)]
    {
        let beside = Shape::cuboid([low; 3], [2.0; 3]).with(Shape::at_limit(step));
        list.mesh(CLOSED, format!("a1: a length {name}"), &of(1.0, &beside));
    }

    list.mesh(DEGENERATE, "a1: a zero record, 8 floats and bad ids", &plain(1.0, &tilted().vertices[..8], &ids(EACH)));
    let flags = Flags { clip: true, defect: 1 };
    let zero = MeshFile { flags, ..plain(1.0, &corners(), &[8, 8]) };
    list.mesh(DEGENERATE, "a1: a zero record, 2 ids out of range, flags", &zero);

    // demand 3: the same counts in another place, of an open shell
    let there = Shape { vertices: corners(), ids: ids(EACH) }.moved([8_388_608.0, -16_777_210.0, 1.0]);
    list.mesh("open_shell", "a1: one of each, moved", &of(1.0, &there));
}
