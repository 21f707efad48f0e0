//! Shapes of as many triangles as are wanted, up to what a call may hold.

use crate::random::Random;
use crate::record::MOST;
use crate::solids::Shape;
use std::f64::consts::TAU;

/// A shape of so many triangles, or of the nearest number below that it can have.
pub type Make = fn(usize) -> Shape;

/// The most triangles by ids, and where each corner has a vertex of its own.
pub const TRIANGLES: usize = MOST / 3;
pub const APART: usize = MOST / 9;

fn side(squares: usize) -> usize {
    squares.isqrt().max(3)
}

/// Closed. Two triangles a square, some rows of squares and a fan at each end.
pub fn sphere(triangles: usize) -> Shape {
    let around = side(triangles / 2);
    Shape::sphere(5.0, (triangles / 2 / around).max(2) as u32 + 1, around as u32).turned(0.3, 0.2)
}

/// Less two triangles: three footprints are asked.
pub fn open_sphere(triangles: usize) -> Shape {
    let mut shape = sphere(triangles);
    shape.remove(triangles / 3);
    shape.remove(triangles / 2);
    shape
}

/// Closed, and of one hole.
pub fn torus(triangles: usize) -> Shape {
    let around = side(triangles / 2);
    let across = (triangles / 2 / around).max(3);
    let mut shape = Shape::default();
    for i in 0..around {
        for j in 0..across {
            let (turn, tilt) = (TAU * i as f64 / around as f64, TAU * j as f64 / across as f64);
            let out = 4.0 + 1.5 * tilt.cos();
            shape.vertex((out * turn.cos()) as f32, (out * turn.sin()) as f32, (1.5 * tilt.sin()) as f32);
        }
    }
    let at = |i: usize, j: usize| (i % around * across + j % across) as u32;
    for i in 0..around {
        for j in 0..across {
            let [a, b, c, d] = [at(i, j), at(i + 1, j), at(i + 1, j + 1), at(i, j + 1)];
            shape.triangle(a, b, c);
            shape.triangle(a, c, d);
        }
    }
    shape
}

/// Separate boxes of several sizes, on a lattice.
pub fn boxes(triangles: usize) -> Shape {
    let mut shape = Shape::default();
    for n in 0..triangles / 12 {
        let low = [n % 16, n / 16 % 16, n / 256].map(|k| 2.0 * k as f32);
        let size = [n % 7, n % 5, n % 3].map(|k| 0.5 + 0.2 * k as f32);
        let solid = Shape::cuboid(low, [0, 1, 2].map(|k| low[k] + size[k]));
        shape.ids.extend(solid.ids.iter().map(|id| 8 * n as u32 + id));
        shape.vertices.extend(solid.vertices);
    }
    shape
}

/// A wall of 10 m by 3 m by 0.3 m, closed: two faces of many squares and a rim. All triangles have one of six normals.
pub fn wall(triangles: usize) -> Shape {
    let high = side(triangles / 8);
    let wide = (triangles.saturating_sub(4 * high) / (4 * high + 4)).max(1);
    let mut shape = Shape::default();
    for y in [0.0, 0.3] {
        for k in 0..=high {
            for i in 0..=wide {
                shape.vertex((10.0 * i as f64 / wide as f64) as f32, y, (3.0 * k as f64 / high as f64) as f32);
            }
        }
    }
    let at = |back: usize, i: usize, k: usize| (back * (high + 1) * (wide + 1) + k * (wide + 1) + i) as u32;
    let mut square = |[a, b, c, d]: [u32; 4]| {
        shape.triangle(a, b, c);
        shape.triangle(a, c, d);
    };
    for k in 0..high {
        for i in 0..wide {
            square([at(0, i, k), at(0, i + 1, k), at(0, i + 1, k + 1), at(0, i, k + 1)]);
            square([at(1, i, k), at(1, i, k + 1), at(1, i + 1, k + 1), at(1, i + 1, k)]);
        }
        square([at(0, 0, k), at(0, 0, k + 1), at(1, 0, k + 1), at(1, 0, k)]);
        square([at(0, wide, k), at(1, wide, k), at(1, wide, k + 1), at(0, wide, k + 1)]);
    }
    for i in 0..wide {
        square([at(0, i, 0), at(1, i, 0), at(1, i + 1, 0), at(0, i + 1, 0)]);
        square([at(0, i, high), at(0, i + 1, high), at(1, i + 1, high), at(1, i, high)]);
    }
    shape
}

/// A sphere that only the weld closes.
pub fn unwelded(triangles: usize) -> Shape {
    sphere(triangles).exploded()
}

/// Separate small triangles by chance, each with three ids of its own: open, and welded in vain.
pub fn soup(triangles: usize) -> Shape {
    let (mut shape, random) = (Shape::default(), &mut Random::new(3));
    for _ in 0..triangles {
        let at = [0; 3].map(|_| random.between(0.0, 100.0));
        let [a, b, c] = [0; 3].map(|_| {
            let [x, y, z] = at.map(|x| (x + random.between(0.0, 0.3)) as f32);
            shape.vertex(x, y, z)
        });
        shape.triangle(a, b, c);
    }
    shape
}

/// A sphere with each face twice: the faces are asked, and the sums are 2.
pub fn duplicated(triangles: usize) -> Shape {
    let mut shape = sphere(triangles / 2);
    (0..shape.triangles()).for_each(|t| shape.repeat(t, false));
    shape
}

/// A sheet, not level.
pub fn sheet(triangles: usize) -> Shape {
    let wide = side(triangles / 2);
    let deep = (triangles / 2 / wide).max(1);
    Shape::sheet(wide as u32, deep as u32, |x, y| ((7 * x + 3 * y) % 5) as f32).scaled([0.1; 3])
}

/// A sheet from both sides: boundary-free, and its faces cancel.
pub fn double_sheet(triangles: usize) -> Shape {
    let mut shape = sheet(triangles / 2);
    (0..shape.triangles()).for_each(|t| shape.repeat(t, true));
    shape
}

/// Each with the most triangles that a call can hold of it.
pub const SHAPES: [(&str, Make, usize); 10] = [
    ("closed sphere", sphere, TRIANGLES),
    ("torus", torus, TRIANGLES),
    ("wall", wall, TRIANGLES),
    ("boxes", boxes, TRIANGLES),
    ("sphere, each face twice", duplicated, TRIANGLES),
    ("sheet from both sides", double_sheet, TRIANGLES),
    ("open sphere", open_sphere, TRIANGLES),
    ("sheet", sheet, TRIANGLES),
    ("sphere to be welded", unwelded, APART),
    ("soup, ids distinct", soup, APART),
];
