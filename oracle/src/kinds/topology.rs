//! What the verdict hangs on: solids, holes, flips, faces twice, sheets, welds, ids that are bad or repeated.

use super::{filed, filed_at, solid, some_triangle};
use crate::file::MOST;
use crate::random::Random;
use crate::record::FARTHEST;
use crate::solids::Shape;

pub fn closed(random: &mut Random) -> Vec<u8> {
    let shape = solid(random);
    filed(random, shape)
}

pub fn several(random: &mut Random) -> Vec<u8> {
    let mut shape = Shape::default();
    for _ in 0..random.within(2, 5) {
        let by = [random.between(-9.0, 9.0) as f32, random.between(-9.0, 9.0) as f32, random.between(-9.0, 9.0) as f32];
        shape = shape.with(solid(random).moved(by));
        if shape.ids.len() > MOST / 2 {
            break;
        }
    }
    filed(random, shape)
}

pub fn hole(random: &mut Random) -> Vec<u8> {
    let mut shape = solid(random);
    for _ in 0..random.within(1, 3) {
        let t = some_triangle(random, &shape);
        shape.remove(t);
    }
    filed(random, shape)
}

pub fn flips(random: &mut Random) -> Vec<u8> {
    let mut shape = solid(random);
    for _ in 0..random.within(1, 4) {
        let t = some_triangle(random, &shape);
        shape.flip(t);
    }
    filed(random, shape)
}

pub fn duplicated(random: &mut Random) -> Vec<u8> {
    let mut shape = solid(random);
    let all = shape.triangles();
    match random.below(3) {
        0 => (0..all).for_each(|t| shape.repeat(t, false)),
        1 => {
            let t = some_triangle(random, &shape);
            shape.repeat(t, false);
        }
        _ => (0..all).filter(|t| t % 3 == 0).for_each(|t| shape.repeat(t, false)),
    }
    filed(random, shape)
}

pub fn cancelling(random: &mut Random) -> Vec<u8> {
    let mut shape = solid(random);
    let all = shape.triangles();
    match random.below(3) {
        0 => (0..all).for_each(|t| shape.repeat(t, true)),
        1 => {
            let t = some_triangle(random, &shape);
            shape.repeat(t, true);
        }
        // twice as many one way as the other: a sum of 1 on every face, and over-incident
        _ => (0..all).for_each(|t| {
            shape.repeat(t, true);
            shape.repeat(t, false);
        }),
    }
    filed(random, shape)
}

pub fn sheet(random: &mut Random) -> Vec<u8> {
    let (wide, deep) = (random.within(1, 8) as u32, random.within(1, 8) as u32);
    let rough = random.pick(&[0.0, 0.0, 0.1, 1.0, 4.0]);
    let shape = Shape::sheet(wide, deep, |_, _| random.between(0.0, rough) as f32);
    let shape = if random.once_in(3) { shape.turned(1.0, random.between(0.0, 3.0)) } else { shape };
    filed(random, shape)
}

/// Both sides of a sheet: boundary-free, encloses nothing.
pub fn double_sheet(random: &mut Random) -> Vec<u8> {
    let mut shape = Shape::sheet(random.within(1, 6) as u32, random.within(1, 6) as u32, |x, y| (x * y % 3) as f32);
    (0..shape.triangles()).for_each(|t| shape.repeat(t, true));
    if random.once_in(3) {
        shape = shape.exploded();
    }
    if random.once_in(3) {
        let t = some_triangle(random, &shape);
        shape.remove(t);
    }
    filed(random, shape)
}

// ---- shells that touch themselves

pub fn touching(random: &mut Random) -> Vec<u8> {
    let other = random.pick(&[[1.0f32, 1.0, 0.0], [1.0, 0.0, 0.0], [1.0, 1.0, 1.0], [0.5, 0.5, 0.5]]);
    let mut shape = Shape::cube(1.0).with(Shape::cube(1.0).moved(other));
    if random.once_in(2) {
        // one id for equal corners: an edge of four uses, or a face that cancels
        for n in 8..16 {
            let same = (0..8).find(|&m| (0..3).all(|k| shape.vertices[3 * m + k] == shape.vertices[3 * n + k]));
            if let Some(m) = same {
                shape.ids.iter_mut().filter(|i| **i == n as u32).for_each(|i| *i = m as u32);
            }
        }
    }
    if random.once_in(2) {
        shape = shape.exploded();
    }
    filed(random, shape)
}

/// Closed, and its parts' volumes cancel: near zero with no face sum of 0.
pub fn cancelling_volumes(random: &mut Random) -> Vec<u8> {
    let side = random.pick(&[1.0f32, 2.0]);
    let by = random.pick(&[[0.0f32, 0.0, 0.0], [3.0, 0.0, 0.0], [3.0, 2.0, 1.0]]);
    let mut shape = Shape::cube(side).with(Shape::cube(side).moved(by).flipped());
    if random.once_in(3) {
        shape = shape.exploded();
    }
    filed(random, shape)
}

// ---- welding

pub fn soup(random: &mut Random) -> Vec<u8> {
    let mut shape = solid(random);
    if random.once_in(4) {
        let t = some_triangle(random, &shape);
        shape.remove(t);
    }
    shape.ids.truncate(MOST / 3);
    shape.ids.truncate(shape.ids.len() / 3 * 3);
    filed(random, shape.exploded())
}

/// Corners apart by about the weld distance, and on either side of a cell's rim.
pub fn gaps(random: &mut Random) -> Vec<u8> {
    let unit = random.pick(&[1.0f32, 0.001, 0.01, 0.5, 4.0]);
    let distance = (1e-4f32 / unit) as f64;
    let size = (distance * random.pick(&[30.0, 1000.0, 30_000.0])) as f32;
    let mut shape = if random.once_in(2) { Shape::cube(size) } else { Shape::tetrahedron(size) }.exploded();
    let share = random.pick(&[0.2, 0.45, 0.499, 0.5, 0.501, 0.55, 0.9, 1.0, 1.1]);
    let start = random.pick(&[0.0, 0.25, 0.5]);
    for v in shape.vertices.iter_mut() {
        let step = random.within(0, 1) as f64;
        *v = (*v as f64 + distance * (start + share * step)) as f32;
    }
    filed_at(random, unit, shape)
}

/// A soup that, once welded, has every face twice or cancels.
pub fn welded_twice(random: &mut Random) -> Vec<u8> {
    let side = random.between(0.5, 3.0) as f32;
    let base = if random.once_in(2) { Shape::cube(side) } else { Shape::tetrahedron(side) };
    let again = if random.once_in(2) { base.clone() } else { base.clone().flipped() };
    let shape = base.exploded().with(again.exploded());
    filed(random, shape)
}

// ---- ids

pub fn bad_ids(random: &mut Random) -> Vec<u8> {
    let mut shape = solid(random);
    let count = (shape.vertices.len() / 3) as u32;
    if random.once_in(3) {
        // a vertex cut short: its id is out of range by one float or two
        let cut = random.within(1, 2) as usize;
        shape.vertices.truncate(shape.vertices.len() - cut);
    }
    for _ in 0..random.within(1, 4) {
        let at = random.below(shape.ids.len());
        shape.ids[at] =
            random.pick(&[count - 1, count, count + 1, 511, 65_535, 0x5555_5555, 0x5555_5556, u32::MAX - 1, u32::MAX]);
    }
    if random.once_in(3) {
        // all of it out of range, and still boundary-free
        shape.ids.iter_mut().for_each(|i| *i = i.wrapping_add(count));
    }
    filed(random, shape)
}

pub fn repeated_ids(random: &mut Random) -> Vec<u8> {
    let mut shape = solid(random);
    for _ in 0..random.within(1, 5) {
        let (a, b) = (random.below(4) as u32, random.below(4) as u32);
        match random.below(4) {
            0 => shape.triangle(a, a, b),
            1 => shape.triangle(a, b, a),
            2 => shape.triangle(b, a, a),
            _ => shape.triangle(a, a, a),
        }
    }
    if random.once_in(4) {
        shape.ids.truncate(3 * random.within(1, 4) as usize);
    }
    let shape = shape.shuffled(random);
    filed(random, shape)
}

pub fn leftovers(random: &mut Random) -> Vec<u8> {
    let mut shape = solid(random);
    for _ in 0..random.within(0, 2) {
        shape.ids.push(random.below(9) as u32);
    }
    for _ in 0..random.within(0, 2) {
        shape.vertices.push(random.pick(&[0.0, -500.0, 1e9, FARTHEST, f32::NAN, f32::INFINITY]));
    }
    filed(random, shape)
}
