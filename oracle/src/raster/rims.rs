//! Shapes whose edges run through the centres of cells. Corners lie at halves, sides of boxes are powers of two, and the longest is
//! 256, so that cells and their centres are exact; mostly the others are short, so that there are few cells.

use crate::random::Random;
use crate::solids::Shape;

/// The sides of a box, the longest first.
const SIDES: [[f32; 3]; 9] = [
    [256.0, 2.0, 1.0],
    [256.0, 4.0, 1.0],
    [256.0, 4.0, 4.0],
    [256.0, 8.0, 1.0],
    [256.0, 8.0, 2.0],
    [256.0, 16.0, 0.5],
    [256.0, 64.0, 1.0],
    [256.0, 256.0, 2.0],
    [256.0, 256.0, 256.0],
];

fn corner(random: &mut Random, sides: [f32; 3]) -> [f32; 3] {
    sides.map(|side| random.within(0, (2.0 * side) as i64) as f32 / 2.0)
}

/// The shape in a box from 0 to the sides, by two vertices that no triangle has.
fn framed(mut shape: Shape, sides: [f32; 3]) -> Shape {
    shape.vertices.extend([[0.0; 3], sides].as_flattened());
    shape
}

/// Triangles over one common edge: one, two, three or four.
fn fan(random: &mut Random) -> Shape {
    let sides = random.pick(&SIDES);
    let mut shape = Shape::default();
    let mut vertex = |random: &mut Random| {
        let [x, y, z] = corner(random, sides);
        shape.vertex(x, y, z)
    };
    let edge = [vertex(random), vertex(random)];
    let others: Vec<u32> = (0..random.within(1, 4)).map(|_| vertex(random)).collect();
    others.iter().for_each(|&other| shape.triangle(edge[0], edge[1], other));
    framed(shape, sides)
}

/// A floor of two triangles, and over it a few by chance: their edges run through the floor's inside, and its own through theirs.
fn over_a_floor(random: &mut Random) -> Shape {
    let sides = random.pick(&SIDES);
    let [x, y, z] = sides;
    let mut shape =
        Shape { vertices: vec![0.0, 0.0, 0.0, x, 0.0, 0.0, x, y, 0.0, 0.0, y, 0.0], ids: vec![0, 1, 2, 0, 2, 3] };
    for _ in 0..random.within(1, 3) {
        let corners = [0; 3].map(|_| corner(random, [x, y, 0.0]));
        let [a, b, c] = corners.map(|[x, y, _]| shape.vertex(x, y, z));
        shape.triangle(a, b, c);
    }
    if random.once_in(2) {
        shape.remove(random.below(2));
    }
    framed(shape, sides)
}

/// A box with a triangle or two gone.
fn open_box(random: &mut Random) -> Shape {
    let mut shape = Shape::cuboid([0.0; 3], random.pick(&SIDES));
    (0..random.within(1, 2)).for_each(|_| shape.remove(random.below(shape.triangles())));
    shape
}

/// A sheet of squares. Their diagonals run through centres, and where a square is an odd number of halves wide, so do its sides.
fn squares(random: &mut Random) -> Shape {
    let side = random.pick(&[4.0, 8.0, 16.0, 1.5, 2.5, 4.5]);
    let (wide, deep) = ((256.0 / side) as u32, random.within(1, 2) as u32);
    let shape = Shape::sheet(wide, deep, |_, _| random.within(0, 2) as f32).scaled([side, side, 0.5]);
    framed(shape, [256.0, random.pick(&[16.0, 32.0]), 1.0])
}

/// A few triangles, each with its reverse; one of them alone.
fn both_ways(random: &mut Random) -> Shape {
    let mut shape = fan(random);
    let all = shape.triangles();
    (random.below(2)..all).for_each(|t| shape.repeat(t, true));
    shape
}

/// Any of them, its axes in any order of turn and its triangles in any order.
pub fn shape(random: &mut Random) -> Shape {
    let make = random.pick(&[fan, over_a_floor, open_box, squares, both_ways] as &[fn(&mut Random) -> Shape]);
    make(random).rolled(random.below(3)).shuffled(random)
}
