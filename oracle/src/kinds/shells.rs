//! What areas, surfaces and the best volume of an open shell hang on.

use super::{filed, filed_at, some_triangle, unit};
use crate::random::Random;
use crate::record::original;
use crate::solids::Shape;

// ---- areas and surfaces

/// Heights of a normal: the thresholds of slope, and halves of the key's grid.
const HEIGHTS: [f64; 14] = [0.940, 0.342, -0.940, -0.342, 0.05, 0.15, 0.25, 0.35, 0.45, 0.75, 0.85, 0.95, -0.05, -0.25];

/// The thresholds of edition 2 (02, A6), those of edition 1, and between them.
const SECOND_HEIGHTS: [f64; 16] =
    [0.866, 0.866, -0.866, -0.866, 0.5, 0.5, -0.5, -0.5, 0.940, -0.940, 0.342, -0.342, 0.9, -0.9, 0.42, -0.42];

/// Roofs whose normal's z is about a threshold of slope, or a component about a half of the key's grid.
pub fn slopes(random: &mut Random) -> Vec<u8> {
    let mut shape = roofs(random, &HEIGHTS);
    // exact normals too: whole-number legs with 0.6 and 0.8
    let (a, b, c) = (shape.vertex(0.0, 0.0, 0.0), shape.vertex(4.0, 0.0, 3.0), shape.vertex(0.0, 5.0, 0.0));
    shape.triangle(a, b, c);
    let unit = unit(random);
    filed_at(random, unit, shape)
}

/// Roofs about the thresholds of edition 2. The programs name edition 1, so it is none of their kinds: `compute` has it.
pub fn second_slopes(random: &mut Random) -> Shape {
    roofs(random, &SECOND_HEIGHTS)
}

/// Some roofs, the z of each normal about one of these.
fn roofs(random: &mut Random, heights: &[f64]) -> Shape {
    let mut shape = Shape::default();
    for _ in 0..random.within(2, 20) {
        let about = random.pick(heights);
        let z = (about + random.pick(&[0.0, 1e-8, -1e-8, 6e-8, -6e-8, 1e-6, -1e-6])).clamp(-1.0, 1.0);
        let (turn, level) = (random.between(0.0, 7.0), (1.0 - z * z).sqrt());
        let normal = [level * turn.cos(), level * turn.sin(), z];
        let along = [-turn.sin(), turn.cos(), 0.0];
        let up = [
            normal[1] * along[2] - normal[2] * along[1],
            normal[2] * along[0] - normal[0] * along[2],
            normal[0] * along[1] - normal[1] * along[0],
        ];
        let big = random.pick(&[1.0, 3.0, 100.0]);
        let a = shape.vertex(0.0, 0.0, 0.0);
        let b = shape.vertex((big * along[0]) as f32, (big * along[1]) as f32, (big * along[2]) as f32);
        let c = shape.vertex((big * up[0]) as f32, (big * up[1]) as f32, (big * up[2]) as f32);
        shape.triangle(a, b, c);
    }
    shape
}

/// More than 64 keys, where the original changes its container.
pub fn many_surfaces(random: &mut Random) -> Vec<u8> {
    let shape = Shape::sphere(random.between(0.5, 5.0), random.within(7, 15) as u32, random.within(10, 16) as u32);
    let mut shape = shape.turned(random.between(0.0, 1.0), random.between(0.0, 1.0)).shuffled(random);
    if random.once_in(3) {
        let t = some_triangle(random, &shape);
        shape.remove(t);
    }
    filed(random, shape)
}

pub fn equal_areas(random: &mut Random) -> Vec<u8> {
    let mut shape = Shape::cube(random.pick(&[1.0f32, 2.0, 3.0, 0.1]));
    for i in 0..random.below(6) {
        shape = shape.with(Shape::tetrahedron(1.0).turned(i as f64, 0.5).moved([4.0 * i as f32, 0.0, 9.0]));
    }
    let shape = shape.shuffled(random);
    let unit = random.pick(&[1.0, 0.001, 0.3048, 0.7]);
    filed_at(random, unit, shape)
}

// ---- best volume of an open shell

/// Shells whose volume is about nothing against a real prism.
pub fn collapsed(random: &mut Random) -> Vec<u8> {
    let side = random.pick(&[0.05f32, 0.1, 0.2, 1.0, 3.0]);
    let mut shape = Shape::cube(side);
    match random.below(3) {
        // six triangles that all meet the corner of the box, where the sum counts from
        0 => shape.ids = [[0, 2, 3], [0, 3, 1], [0, 1, 5], [0, 5, 4], [0, 4, 6], [0, 6, 2]].concat(),
        1 => shape.ids = [[0, 2, 3], [0, 3, 1], [0, 1, 5]].concat(),
        // a box and its opposite, each open at one face
        _ => {
            let mut other = Shape::cube(side * random.pick(&[1.0, 1.0001, 1.01])).flipped();
            other.remove(0);
            shape.remove(0);
            shape = shape.with(other.moved([2.0 * side, 0.0, 0.0]));
        }
    }
    let shape = shape.shuffled(random);
    let unit = random.pick(&[1.0, 1.0, 0.5, 2.0]);
    filed_at(random, unit, shape)
}

/// Shells without volume whose 8s³ is about p². Two small tilted triangles at opposite corners of a wide box, each in
/// a plane through the corner that the sum counts from, give a great prism for little surface; a third one, on top of
/// the first, adds surface and no footprint, as much as is wanted.
pub fn near_exception(random: &mut Random) -> Vec<u8> {
    let e = random.pick(&[1.0f32, 2.0, 4.0, 64.0]);
    let l = (e as f64 * random.between(0.08, 0.12)) as f32;
    let mut shape = Shape::default();
    // a little off the plane: some volume, so that the test decides
    let off_plane = random.pick(&[0.0, e / 16384.0]);
    for [x, y, z] in [
        [0.0, 0.0, 0.0],
        [l, l / 2.0, 0.0],
        [0.0, l / 2.0, l],
        [e, e, e],
        [e - l, e - l / 2.0, e],
        [e * 0.875, e * 0.875, e * 0.875 + off_plane],
    ] {
        shape.vertex(x, y, z);
    }
    shape.triangle(0, 1, 2);
    shape.triangle(3, 4, 5);
    let far = original(&shape.vertices, &[0, 1, 2, 3, 4, 5], 1.0);
    let near = original(&shape.vertices, &[0, 1, 2], 1.0);
    let prism = far.prism.unwrap_or(0.0) as f64;
    let off = random.pick(&[0.0, 3e-8, -3e-8, 1e-7, -1e-7, 1e-6, -1e-6, 1e-5, -1e-5, 1e-3, -1e-3]);
    let missing = (prism * prism / 8.0).cbrt() * (1.0 + off) - far.surface as f64;
    let share = missing / near.surface as f64;
    let c = shape.vertex(0.0, (l as f64 / 2.0 * share) as f32, (l as f64 * share) as f32);
    shape.triangle(0, 1, c);
    filed_at(random, 1.0, shape)
}

/// Volumes above the prism and within the box: parts of the shell twice, faces turned in.
pub fn above_prism(random: &mut Random) -> Vec<u8> {
    let mut shape = match random.below(3) {
        0 => Shape::tetrahedron(2.0),
        1 => Shape::cube(2.0),
        _ => Shape::sphere(2.0, 5, 8),
    };
    let all = shape.triangles();
    let share = random.within(1, 4) as usize;
    for t in 0..all {
        if random.below(4) < share {
            shape.repeat(t, false);
        }
    }
    if random.once_in(2) {
        // a small far corner makes the box large and the prism not
        let a = shape.vertex(6.0, 6.0, 6.0);
        let b = shape.vertex(6.0, 5.9, 6.0);
        let c = shape.vertex(5.9, 6.0, 5.9);
        shape.triangle(a, b, c);
    }
    let unit = random.pick(&[1.0, 0.25]);
    filed_at(random, unit, shape)
}

pub fn above_box(random: &mut Random) -> Vec<u8> {
    let mut shape = Shape::cuboid([0.0; 3], [1.0, 2.0, random.between(0.5, 4.0) as f32]);
    let all = shape.triangles();
    for t in 0..all {
        (0..random.within(1, 3)).for_each(|_| shape.repeat(t, false));
    }
    filed(random, shape)
}

/// Huge against tiny sides, for the raster.
pub fn thin(random: &mut Random) -> Vec<u8> {
    let mut side = || 10f64.powf(random.between(-4.0, 6.0)) as f32;
    let sides = [side(), side(), side()];
    let mut shape = Shape::sphere(1.0, 6, 9).scaled(sides);
    let t = some_triangle(random, &shape);
    shape.remove(t);
    filed(random, shape)
}
