//! Each threshold of document 01 from both sides: of verdict, best volume, slope, keys, weld and raster.

use super::examples::{of, CLOSED, DEGENERATE, OPEN, PRISM};
use super::readings::shape;
use super::List;
use crate::solids::{two_to, Shape};

/// A level rectangle; walked one way it looks up.
fn plate(to: &mut Shape, low: [f32; 2], size: [f32; 2], z: f32, up: bool) {
    let ([x, y], [w, d]) = (low, size);
    let corners = [[x, y], [x + w, y], [x + w, y + d], [x, y + d]];
    let [a, b, c, e] = corners.map(|[x, y]| to.vertex(x, y, z));
    let (b, e) = if up { (b, e) } else { (e, b) };
    to.triangle(a, b, c);
    to.triangle(a, c, e);
}

/// A level triangle with its right angle at the far corner, looking up.
fn far_corner(to: &mut Shape, [x, y, z]: [f32; 3], legs: [f32; 2]) {
    let (a, b, c) = (to.vertex(x, y, z), to.vertex(x - legs[0], y, z), to.vertex(x, y - legs[1], z));
    to.triangle(a, b, c);
}

/// A cube of side 1 and in it a tetrahedron: the volume is 1 and so many times 2^-23.
fn filled(steps: u32) -> Shape {
    let legs = [0.375, steps as f32 * two_to(-14), two_to(-5)];
    Shape::cube(1.0).with(Shape::tetrahedron(1.0).scaled(legs).moved([0.25; 3]))
}

/// Two triangles that cancel once welded, apart by a gap at two corners: a volume of a sixth of it, in a box of 1.
fn cleft(gap: f32) -> Shape {
    let low = |z: f32| [[0.0, 0.0, z], [1.0, 0.0, z], [0.0, 1.0, 1.0]];
    shape(&[low(0.0), low(gap)].concat(), "012 435 000")
}

/// A floor and a corner so high above it: the prism is the whole box, the volume almost nothing.
fn room([wide, deep]: [f32; 2], height: f32) -> Shape {
    let mut room = Shape::default();
    plate(&mut room, [0.0; 2], [wide, deep], 0.0, true);
    far_corner(&mut room, [wide, deep, height], [two_to(-5); 2]);
    room
}

/// In a box of side 4 plates of 1,024 cells in all, a prism of 1. The second plate lies on the first, so that it adds
/// surface alone; at a depth of 991/2048 all surface is a half. The volume is a third of 2^-10.
fn near(depth: f32) -> Shape {
    let mut plates = Shape::default();
    plate(&mut plates, [0.0; 2], [0.5, 31.0 / 64.0], 0.0, true);
    plate(&mut plates, [0.0; 2], [0.5, depth], 0.0, true);
    let far = [4.0 - 8.0 / 64.0, 4.0 - 4.0 / 64.0];
    plate(&mut plates, far, [8.0 / 64.0, 4.0 / 64.0], 4.0, true);
    plate(&mut plates, far, [8.0 / 64.0, 4.0 / 64.0], 4.0, false);
    far_corner(&mut plates, [4.0; 3], [2.0 / 64.0, 1.0 / 64.0]);
    plates
}

/// A tetrahedron of separate corners, moved by so many cells of the weld, and one of the three corners at its right angle
/// by another number. At the unit of `CELL` a cell is 2^-13.
fn parted(cells: f32, one: f32) -> Shape {
    let mut shape = Shape::tetrahedron(1.0).exploded().moved([cells * two_to(-13), 0.0, 0.0]);
    shape.vertices[0] = one * two_to(-13);
    shape
}

const CELL: f32 = 1e-4 * 8192.0;

pub fn thresholds(list: &mut List) {
    list.mesh(CLOSED, "a volume of 1.001 of the box", &of(1.0, &filled(8389)));
    list.mesh("open_shell", "a step above 1.001 of the box", &of(1.0, &filled(8390)));
    list.mesh(DEGENERATE, "cancels, a volume of 1e-6 of the box", &of(1.0, &cleft(6e-6)));
    list.mesh(CLOSED, "cancels, a step above 1e-6 of the box", &of(1.0, &cleft(6e-6f32.next_up())));
    list.mesh(PRISM, "collapsed, a prism of 1e-3", &of(1.0, &room([1.0; 2], 1e-3)));
    list.mesh(OPEN, "a prism a step under 1e-3", &of(1.0, &room([1.0; 2], 1e-3f32.next_down())));
    list.mesh(PRISM, "a prism a step above the box", &of(1.0, &room([3.0, 9.0], 1.0)));
    let depth = 991.0 / 2048.0;
    list.mesh(OPEN, "8s³ is p²", &of(1.0, &near(depth)));
    list.mesh(PRISM, "8s³ is above p², by a step of s", &of(1.0, &near(depth + two_to(-23))));
    list.mesh(OPEN, "8s³ is under p², by a step of s", &of(1.0, &near(depth - two_to(-24))));
    for area in [1e-6f32, 1e-6f32.next_up()] {
        let narrow = shape(&[[0.0; 3], [2.0 * area, 0.0, 0.0], [0.0, 1.0, 0.0]], "012");
        list.mesh(DEGENERATE, format!("a smallest surface of {area:e}"), &of(1.0, &narrow));
    }

    for (name, direction) in [
        ("nz of 0.940 and of its opposite", [43, 12, 123]),
        ("nz a step above 0.940", [170, 132, 593]),
        ("nz of 0.342", [542, 413, 248]),
        ("nz a step under 0.342", [288, 130, 115]),
        ("nz of 0.25, a half in the key", [540, 3929, 1024]),
        ("nz of 0.45, a half in the key once rounded", [580, 2524, 1305]),
    ] {
        list.mesh("open_shell", name, &of(1.0, &Shape::facing(direction)));
    }

    for (says, cells, one) in [
        (OPEN, 0.0, 0.5),
        (OPEN, 0.0, -0.5),
        (CLOSED, 0.0, 0.25),
        (CLOSED, 3.0, 2.5),
        (OPEN, 2.0, 2.5),
        (CLOSED, -3.0, -2.5),
    ] {
        list.mesh(says, format!("welding {one} of a cell with {cells}"), &of(CELL, &parted(cells, one)));
    }

    // an edge through the centres of cells: 101 by 101 of them count
    let mut floor = Shape::default();
    plate(&mut floor, [0.0; 2], [100.5; 2], 0.0, true);
    far_corner(&mut floor, [256.0, 256.0, 2.0], [0.25; 2]);
    list.mesh("open_shell", "edges through centres", &of(1.0, &floor));
}
