//! Pairs for demand 3: a cube of side 1 with triangles gone, here at the origin and there 2^23 units off along x and y. What
//! differs shows that each of its four exceptions in the record is needed. Seen from above, half of a square is left. Here 257/512 of
//! the cells are covered: the half and its diagonal. There an f32 has no digit behind the point, so that every centre falls on a
//! corner of the square; three of the four corners lie in the half, and 3/4 of the cells are covered. Then pairs in which nothing
//! but cells beside the record differs (02, A3).

use super::examples::{of, OPEN, PRISM};
use super::readings::shape;
use super::List;
use crate::file::{Flags, MeshFile};
use crate::solids::Shape;

/// The move, a whole number an axis.
const FAR: [f32; 3] = [8_388_608.0, 8_388_608.0, 0.0];

/// Half of the floor, the half of the ceiling above it, the rest of the ceiling, and half of a wall.
const FLOOR: [u32; 3] = [0, 3, 1];
const ABOVE: [u32; 3] = [4, 5, 7];
const REST: [u32; 3] = [4, 7, 6];
const WALL: [u32; 3] = [2, 6, 7];

/// From above a half of 256 by 128 cells. Its long edge goes up one cell in two and meets no centre, until far off the centres have no
/// digit behind 1/16: then 512 lie on an edge. None but this one number differs.
const RIM: [[f32; 3]; 3] = [[0.0, 1.0, 2.0], [2.0, 2.0, 0.0], [2.0, 1.0, 0.0]];
const RIM_FAR: [f32; 3] = [-1_048_576.0, 0.0, 0.0];

/// From above a half of 256 by 256 cells and its diagonal. Far off a centre's y has no digit behind 1/256: 128 cells fewer are covered,
/// and as many are rim cells as before. The bound is the prism along y, where nothing differs.
const COVERED: [[f32; 3]; 3] = [[0.0, 2.0, 2.0], [1.0, 2.0, 0.0], [0.0, 1.0, 1.0]];
const COVERED_FAR: [f32; 3] = [0.0, -65_536.0, 0.0];

fn without(gone: &[[u32; 3]]) -> Shape {
    let mut shape = Shape::cube(1.0);
    let kept = shape.ids.chunks_exact(3).filter(|triangle| gone.iter().all(|other| other != triangle));
    shape.ids = kept.flatten().copied().collect();
    shape
}

pub fn places(list: &mut List) {
    let (none, clip) = (Flags::default(), Flags { clip: true, defect: 0 });
    for (name, gone, flags, says) in [
        // a volume of 1/2, within both bounds: of the record the bound alone
        ("bound", &[FLOOR, ABOVE, REST, WALL][..], none, [OPEN, OPEN]),
        // a volume of 5/6, above both bounds: of the record the bound, and with it the best volume
        ("best", &[FLOOR, ABOVE], none, [PRISM, PRISM]),
        // a volume of 2/3, above the one and within the other: all four
        ("trust", &[FLOOR, ABOVE, REST], none, [PRISM, OPEN]),
        // the same with a clip not applied, where neither is to be relied on: all but trust
        ("clip", &[FLOOR, ABOVE, REST], clip, [PRISM, "open_shell 0 mesh_unclipped"]),
        // nothing is missing from any side: here a diagonal is the rim, there every cell, and all else is the same
        ("rims", &[WALL], none, [OPEN, OPEN]),
    ] {
        for (place, by, says) in [("here", [0.0; 3], says[0]), ("there", FAR, says[1])] {
            let mesh = MeshFile { flags, ..of(1.0, &without(gone).moved(by)) };
            list.mesh(says, format!("place_{name}_{place}"), &mesh);
        }
    }
    for (name, corners, far) in [("rim", RIM, RIM_FAR), ("covered", COVERED, COVERED_FAR)] {
        for (place, by) in [("here", [0.0; 3]), ("there", far)] {
            list.mesh(OPEN, format!("place_{name}_{place}"), &of(1.0, &shape(&corners, "012").moved(by)));
        }
    }
}
