//! Pairs for the glove (02, A9): a mesh here, and there the same with the last two ids of every triangle swapped. Two
//! open ones show that each of the four exceptions is needed, a third that rims need theirs (A3). Each is one triangle with its
//! corners at few fractions, so that centres of cells lie on its edges: there the rounding of the point test decides, and not the
//! same way both ways round.

use super::examples::{corners, ids, of, CLOSED, DEGENERATE, OPEN, PRISM};
use super::readings::shape;
use super::List;
use crate::glove::meshes::reversed;
use crate::record::plain;
use crate::solids::Shape;

/// The corners of a triangle.
type Corners = [[f32; 3]; 3];

/// A volume of -1/27, within both bounds, so that of the record only these differ: along x 22,016 of 65,536 cells are covered, and
/// 21,984 when reversed.
const BOUND: Corners = [[1.0, 1.0, 1.0 / 3.0], [1.0 / 3.0, 0.0, 0.0], [0.0, 1.0, 1.0]];

/// From above 6,631 of 65,536 cells are covered, and 6,477 when reversed. A volume of 1/48 is within 1.05 of the one
/// bound and above 1.05 of the other: all four differ.
const TRUST: Corners = [[0.2, 0.8, 1.0], [0.6, 0.3, 0.2], [0.1, 0.8, 0.5]];

/// From above 32,811 cells are covered either way; 32 of them are on an edge by their values, and inside when reversed. Likewise
/// along x. All else is the same.
const RIM: Corners = [[0.0, 2.0 / 3.0, 0.0], [1.0, 0.0, 0.0], [1.0; 3]];

/// A block with a smaller top than bottom, one upright side and three inclined ones, of which two have one area.
fn block() -> Shape {
    let corners = [[0, 0, 0], [6, 0, 0], [6, 4, 0], [0, 4, 0], [0, 1, 2], [3, 1, 2], [3, 3, 2], [0, 3, 2]];
    shape(&corners.map(|corner| corner.map(|k| k as f32)), "032 021 456 467 015 054 126 165 237 276 304 347")
}

pub(super) fn gloves(list: &mut List) {
    let mut nan = of(1.0, &Shape::tetrahedron(3.0));
    nan.vertices[10] = f32::from_bits(0xffc0_0001);
    for (name, mesh, says) in [
        ("closed", of(0.5, &block()), [CLOSED; 2]),
        // three rows of one area, which come in the opposite order
        ("rows", of(1.0, &Shape::tetrahedron(2.0)), [CLOSED; 2]),
        ("degenerate", plain(1.0, &corners(), &ids("012 021 135 315")), [DEGENERATE; 2]),
        // two used, one id out of range, one sliver, and two ids left over, which stay
        ("left_out", plain(1.0, &corners(), &ids("134 281 004 625 38")), ["open_shell"; 2]),
        ("refused", nan, ["refused 4"; 2]),
        ("bound", of(1.0, &shape(&BOUND, "012")), [OPEN; 2]),
        ("trust", of(1.0, &shape(&TRUST, "012")), [OPEN, PRISM]),
        ("rim", of(1.0, &shape(&RIM, "012")), [OPEN; 2]),
    ] {
        let there = reversed(&mesh);
        list.mesh(says[0], format!("glove_{name}_here"), &mesh);
        list.mesh(says[1], format!("glove_{name}_there"), &there);
    }
}
