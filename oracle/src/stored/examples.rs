//! Document 01's checked examples as meshes, and every flag on every sort of record.

use super::List;
use crate::file::{write, Flags, MeshFile};
use crate::record::{plain, FARTHEST, GREATEST_UNIT, LEAST_UNIT};
use crate::solids::Shape;

pub const CLOSED: &str = "closed 1 mesh";
pub const OPEN: &str = "open_shell 1 mesh_open";
/// The volume of an open shell is not taken.
pub const PRISM: &str = "open_shell 0 prism_fallback";
/// A zero record says the same.
pub const DEGENERATE: &str = "degenerate 0 prism_fallback";

pub fn of(unit: f32, shape: &Shape) -> MeshFile {
    plain(unit, &shape.vertices, &shape.ids)
}

/// "023 031" as ids.
pub fn ids(text: &str) -> Vec<u32> {
    text.bytes().filter(u8::is_ascii_digit).map(|digit| (digit - b'0') as u32).collect()
}

/// Eight corners, no four of them in one plane.
pub fn corners() -> Vec<f32> {
    let corners = [[0, 0, 0], [2, 0, 0], [0, 2, 0], [0, 0, 2], [1, 4, 4], [5, 1, 4], [3, 2, 5], [1, 3, 1]];
    corners.as_flattened().iter().map(|k| *k as f32).collect()
}

/// Corners on a lattice of 4 by 4 by as many as it takes.
fn lattice(corners: usize) -> Vec<f32> {
    (0..corners).flat_map(|i| [i % 4, i / 4 % 4, i / 16].map(|k| k as f32)).collect()
}

/// One triangle that no axis is level with.
pub fn tilted() -> MeshFile {
    plain(1.0, &[1.0, 0.0, 0.0, 0.0, 1.0, 0.0, 0.0, 0.0, 1.0], &[0, 1, 2])
}

fn level() -> MeshFile {
    plain(1.0, &[0.0, 0.0, 5.0, 1.0, 0.0, 5.0, 0.0, 1.0, 5.0], &[0, 1, 2])
}

/// A tetrahedron without one of its faces.
fn without(face: usize) -> MeshFile {
    let mut shape = Shape::tetrahedron(1.0);
    shape.remove(face);
    of(1.0, &shape)
}

pub(super) fn examples(list: &mut List) {
    let cube = of(1.0, &Shape::cube(2.0));
    list.mesh(CLOSED, "the cube", &cube);
    list.file(CLOSED, "the cube with kind 4", write(&cube, true));
    let mut open = Shape::cube(2.0);
    open.remove(2);
    list.mesh(OPEN, "the cube without 457", &of(1.0, &open));
    list.mesh(DEGENERATE, "one triangle with all z equal", &level());
    list.mesh(OPEN, "9 floats and 3 ids", &tilted());
    list.mesh(DEGENERATE, "8 floats", &plain(1.0, &tilted().vertices[..8], &[0, 1, 2]));
    list.mesh(DEGENERATE, "2 ids", &plain(1.0, &tilted().vertices, &[0, 1]));
    list.mesh(DEGENERATE, "no floats and no ids", &plain(1.0, &[], &[]));

    for (says, name, triangles) in [
        (CLOSED, "one piece", "012 023 031 132"),
        (DEGENERATE, "faces that cancel", "012 210 333"),
        (PRISM, "faces that cancel, six ids", "012 210"),
        (PRISM, "nine zeros", "000 000 000"),
        ("open_shell", "each face twice", "012 023 031 132 012 023 031 132"),
        (PRISM, "ten ids", "012 023 031 1"),
        (CLOSED, "two tetrahedra sharing one id", "012 023 031 132 345 356 364 465"),
        (CLOSED, "two tetrahedra apart", "012 023 031 132 456 467 475 576"),
    ] {
        list.mesh(says, format!("{name}: {triangles}"), &plain(1.0, &corners(), &ids(triangles)));
    }
    for edges in [50, 49] {
        let ids = with_one_bad_edge(edges);
        let corners = ids.iter().max().map_or(0, |id| *id as usize + 1);
        list.mesh("open_shell", format!("one bad edge of {edges}"), &plain(1.0, &lattice(corners), &ids));
    }

    for (axis, name) in ["x", "y", "z"].into_iter().enumerate() {
        for sign in [1.0, -1.0] {
            for (says, far) in [("open_shell", FARTHEST), ("refused 4", FARTHEST.next_up())] {
                let mut mesh = tilted();
                mesh.vertices[axis] = sign * far;
                list.mesh(says, format!("{name} of {:.0}", sign * far), &mesh);
            }
        }
    }
    for unit in [LEAST_UNIT, GREATEST_UNIT] {
        let all = Shape::cuboid([-FARTHEST; 3], [FARTHEST; 3]);
        list.mesh(CLOSED, format!("the whole domain at unit {unit:?}"), &of(unit, &all));
    }
    for (says, unit) in [
        (OPEN, GREATEST_UNIT),
        ("refused 2", GREATEST_UNIT.next_up()),
        (OPEN, LEAST_UNIT),
        ("refused 2", LEAST_UNIT.next_down()),
    ] {
        list.mesh(says, format!("unit {unit:?}"), &MeshFile { unit, ..tilted() });
    }
}

/// One bad edge (two triangles that walk it the same way) among `edges` edges.
pub fn with_one_bad_edge(edges: u32) -> Vec<u32> {
    let mut ids = vec![0, 1, 2, 0, 1, 3];
    let (mut have, mut next) = (5, 4);
    while have + 3 <= edges {
        ids.extend([next, next + 1, next + 2]);
        (have, next) = (have + 3, next + 3);
    }
    while have < edges {
        // a repeated id: one edge, walked once each way
        ids.extend([next, next, next + 1]);
        (have, next) = (have + 1, next + 2);
    }
    ids
}

/// Every clip with every defect, on every sort of record.
pub(super) fn flags(list: &mut List) {
    const CLIPPED: [&str; 2] = ["closed 0 mesh_unclipped", "open_shell 0 mesh_unclipped"];
    const INVALID: [&str; 2] = ["closed 0 mesh_profile_invalid", "open_shell 0 mesh_profile_invalid"];
    for (name, mesh, says, taken) in [
        ("closed", of(1.0, &Shape::tetrahedron(1.0)), CLOSED, Some(0)),
        ("open", without(0), OPEN, Some(1)),
        ("open, volume not taken", without(3), PRISM, None),
        ("degenerate", level(), DEGENERATE, None),
        ("a zero record", plain(1.0, &[1.0; 9], &[0, 1]), DEGENERATE, None),
    ] {
        for (clip, defect) in (0..10).map(|i| (i / 5 == 1, i % 5)) {
            // the third sort is labelled as the fourth is: a few will do
            if name.ends_with("taken") && ![(true, 0), (false, 2), (true, 3)].contains(&(clip, defect)) {
                continue;
            }
            let says = match (taken, clip, defect) {
                (Some(open), true, _) => CLIPPED[open],
                (Some(open), false, 1..) => INVALID[open],
                _ => says,
            };
            let mesh = MeshFile { flags: Flags { clip, defect }, ..mesh.clone() };
            list.file(says, format!("{name}: clip {}, defect {defect}", clip as u8), write(&mesh, true));
        }
    }
}
