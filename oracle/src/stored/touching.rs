//! What A2 joins (02): plinths that touch, and triangles that repeat an id beside others. Two tetrahedra with one common
//! id are among the examples, two with a common edge among the mistakes ('an edge of four uses').

use super::examples::{corners, ids, of, CLOSED, PRISM};
use super::List;
use crate::record::plain;
use crate::solids::Shape;

/// The second beside the first; a corner of both in one place is one vertex.
fn touching(mut one: Shape, other: Shape) -> Shape {
    for id in other.ids {
        let corner = &other.vertices[3 * id as usize..3 * id as usize + 3];
        let there = one.vertices.chunks_exact(3).position(|vertex| vertex == corner);
        let name = there.map_or_else(|| one.vertex(corner[0], corner[1], corner[2]), |place| place as u32);
        one.ids.push(name);
    }
    one
}

/// Two plinths on one level, corner to corner; the second is so high.
fn plinths(height: f32) -> Shape {
    touching(Shape::cuboid([0.0; 3], [2.0, 2.0, 1.0]), Shape::cuboid([2.0, 2.0, 0.0], [4.0, 5.0, height]))
}

pub(super) fn touches(list: &mut List) {
    list.mesh(CLOSED, "a2: two plinths with one common corner", &of(1.0, &plinths(1.5)));
    list.mesh(CLOSED, "a2: two plinths with one common edge", &of(1.0, &plinths(1.0)));
    // 001 has the edge 01, 003 the edge 03, and both have 00
    let repeated = "012 034 001 003";
    list.mesh(PRISM, format!("a2: repeated ids between two: {repeated}"), &plain(1.0, &corners(), &ids(repeated)));
}
