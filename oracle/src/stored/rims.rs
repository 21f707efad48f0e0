//! What A3 counts (02): cells whose centres lie on edges, seen from above. Corners are whole numbers, and all but one of the boxes are
//! 4 by 4, so that there are 256 by 256 cells and the diagonals of squares run through centres exactly.

use super::examples::{of, OPEN, PRISM};
use super::readings::shape;
use super::List;
use crate::solids::Shape;

/// The corners of the square, one of them raised, so that the box is not flat.
const SQUARE: [[f32; 3]; 4] = [[0.0; 3], [4.0, 0.0, 0.0], [4.0, 4.0, 1.0], [0.0, 4.0, 0.0]];

/// More corners over the square.
fn square(more: &[[f32; 3]], triangles: &str) -> Shape {
    shape(&[&SQUARE[..], more].concat(), triangles)
}

/// A box of 512 by 2 is one row of 256 cells; its middle is an edge. Two of the corners are the box's alone.
const ROOF: [[f32; 3]; 5] = [[0.0, 1.0, 0.0], [512.0, 1.0, 0.0], [256.0, 0.0, 1.0], [0.0, 0.0, 0.0], [512.0, 2.0, 1.0]];

pub fn rims(list: &mut List) {
    for (says, name, mesh) in [
        // the diagonal is an edge of one triangle, and alone on it
        (PRISM, "one triangle", square(&[], "012")),
        (PRISM, "a common edge of two", square(&[], "012 023")),
        (PRISM, "a common edge of three", square(&[[1.0, 3.0, 1.0]], "012 023 024")),
        // half of the diagonal is inside the third
        (PRISM, "a common edge, and a third over it", square(&[], "012 023 013")),
        // each has half of the other's long edge inside
        (PRISM, "an edge through another's inside", square(&[], "012 013")),
        (PRISM, "a triangle and its reverse", square(&[], "012 021")),
        // cells in line with an edge, beyond its end: a zero, and both signs
        (PRISM, "in line with an edge", square(&[[3.0, 1.0, 0.0]], "024")),
        // 2 by 2 squares, each with its diagonal
        (OPEN, "squares", Shape::sheet(2, 2, |x, y| (x * y % 2) as f32).scaled([2.0, 2.0, 1.0])),
        (OPEN, "no cell but on an edge", shape(&ROOF, "012")),
    ] {
        list.mesh(says, format!("a3: {name}"), &of(1.0, &mesh));
    }
}
