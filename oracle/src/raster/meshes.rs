//! Meshes and boxes to try the footprint on: solids with a hole, points on edges, slivers, thin boxes, and any bits.

use super::cells::reach;
use super::rims;
use crate::random::Random;
use crate::solids::Shape;

pub struct Scene {
    pub vertices: Vec<f32>,
    pub ids: Vec<u32>,
    pub axes: [usize; 2],
    /// The box, from least to greatest, on the two axes.
    pub u: [f32; 2],
    pub v: [f32; 2],
}

/// The mesh in its own box, as `compute` asks for it.
pub fn in_its_box(shape: Shape, axes: [usize; 2]) -> Scene {
    let [u, v] = axes.map(|axis| reach(&shape.vertices, axis));
    Scene { vertices: shape.vertices, ids: shape.ids, axes, u, v }
}

/// Any number, infinity or quiet NaN. What Rust's `min` and `max` make of a signalling one they leave open (DIFFERENCES.md,
/// d17).
fn any_float(random: &mut Random) -> f32 {
    match random.below(6) {
        0 => random.pick(&[0.0, -0.0, f32::NAN, f32::INFINITY, f32::NEG_INFINITY, f32::MAX, f32::MIN, 1e-45, 1e-38]),
        1 | 2 => match f32::from_bits(random.bits() as u32) {
            x if x.is_nan() => f32::NAN,
            x => x,
        },
        3 => random.within(-4, 4) as f32,
        _ => random.between(-10.0, 10.0) as f32,
    }
}

/// A solid or a sheet, a few triangles of it gone.
fn a_solid(random: &mut Random) -> Shape {
    let size = |random: &mut Random| random.pick(&[1.0, 0.3, 2.5, 7.0]) * random.pick(&[1.0, 1.0, 1.0, 1e-3, 1e4]);
    let mut shape = match random.below(6) {
        0 => Shape::cuboid([0.0; 3], [size(random), size(random), size(random)]),
        1 => Shape::tetrahedron(size(random)),
        2 => Shape::cylinder(size(random) as f64, size(random) as f64, random.within(3, 12) as u32),
        3 => Shape::sphere(size(random) as f64, random.within(3, 8) as u32, random.within(3, 8) as u32),
        _ => {
            let (wide, deep) = (random.within(1, 5) as u32, random.within(1, 5) as u32);
            Shape::sheet(wide, deep, |_, _| random.within(0, 3) as f32)
        }
    };
    if random.once_in(2) {
        shape = shape.turned(random.between(0.0, 6.3), random.between(0.0, 6.3));
    }
    if random.once_in(3) {
        shape = shape.moved([0; 3].map(|_| random.between(-1e4, 1e4) as f32));
    }
    (0..random.below(3)).for_each(|_| {
        if shape.triangles() > 1 {
            shape.remove(random.below(shape.triangles()));
        }
    });
    shape
}

/// Corners at halves of a cell of a box of 256 or fewer by 256: centres fall on edges and corners.
fn on_centres(random: &mut Random) -> Scene {
    let (wide, deep) = (random.pick(&[256, 255, 16, 3, 1]), random.pick(&[256, 128, 7, 2]));
    let mut shape = Shape::default();
    for _ in 0..random.within(1, 4) {
        let mut corner = |random: &mut Random| {
            let at = |cells: i64, random: &mut Random| random.within(0, 2 * cells) as f32 / 2.0;
            shape.vertex(at(wide, random), at(deep, random), random.within(0, 2) as f32)
        };
        let [a, b, c] = [0; 3].map(|_| corner(random));
        shape.triangle(a, b, c);
    }
    Scene { vertices: shape.vertices, ids: shape.ids, axes: [0, 1], u: [0.0, wide as f32], v: [0.0, deep as f32] }
}

/// Triangles with a doubled area about 1e-12, and such that are all but a line.
fn slivers(random: &mut Random) -> Shape {
    let mut shape = Shape::default();
    let scale = random.pick(&[1e-6, 1e-6, 1e-3, 1.0, 1e3]);
    for _ in 0..random.within(1, 6) {
        let (x, y) = (random.between(-1.0, 1.0), random.between(-1.0, 1.0));
        let thin = random.pick(&[1.0, 1e-3, 1e-6, 1e-12, 0.0]);
        for (u, v) in [(0.0, 0.0), (x, y), (2.0 * x - thin * y, 2.0 * y + thin * x)] {
            let z = random.between(0.0, scale);
            shape.vertex((scale * u) as f32, (scale * v) as f32, z as f32);
        }
        let last = (shape.vertices.len() / 3) as u32;
        shape.triangle(last - 3, last - 2, last - 1);
    }
    shape
}

/// Coordinates of any bits, or few that meet often.
fn of_any_bits(random: &mut Random) -> Scene {
    let count = random.within(1, 8) as usize;
    let vertices: Vec<f32> = (0..3 * count + random.below(3)).map(|_| any_float(random)).collect();
    let ids = (0..random.below(16)).map(|_| random.below(count + 1) as u32).collect();
    let [u, v] = [0; 2].map(|_| [any_float(random), any_float(random)]);
    Scene { vertices, ids, axes: [0; 2].map(|_| random.below(3)), u, v }
}

/// Ids out of range, repeated, or left over at the end.
fn spoilt(shape: &mut Shape, random: &mut Random) {
    if shape.ids.is_empty() {
        return;
    }
    let vertices = (shape.vertices.len() / 3) as u32;
    let at = random.below(shape.ids.len());
    match random.below(6) {
        0 => shape.ids[at] = vertices,
        1 => shape.ids[at] = random.pick(&[u32::MAX, 0x5555_5555, 0x5555_5556, 0x8000_0000]),
        2 => shape.ids[at] = shape.ids[at / 2],
        3 => shape.ids.extend((0..random.within(1, 2)).map(|_| 0)),
        4 => shape.vertices.extend((0..random.within(1, 2)).map(|_| 1.0)),
        _ => drop(shape.vertices.pop()),
    }
}

pub fn by_chance(random: &mut Random) -> Scene {
    let mut shape = match random.below(10) {
        0 | 1 => return of_any_bits(random),
        2 | 3 => return on_centres(random),
        4 => slivers(random),
        5 | 6 => rims::shape(random).scaled([random.pick(&[1.0, 1.0, 1.0 / 1024.0, 3.0, 0.1]); 3]),
        _ => a_solid(random),
    };
    if random.once_in(3) {
        let thin = random.pick(&[0.0, 1e-30, 1e-6, 1e-3, 1e3, 1e6]);
        let mut by = [1.0; 3];
        by[random.below(3)] = thin;
        shape = shape.scaled(by);
    }
    if random.once_in(3) {
        spoilt(&mut shape, random);
    }
    let axes = if random.once_in(8) { [0; 2].map(|_| random.below(3)) } else { random.pick(&[[0, 1], [0, 2], [1, 2]]) };
    let mut scene = in_its_box(shape, axes);
    if random.once_in(6) {
        // a box that is not the mesh's own
        let side = if random.once_in(2) { &mut scene.u } else { &mut scene.v };
        side[random.below(2)] = any_float(random);
    }
    scene
}

// ---- large

/// A sphere of 31,752 triangles, less two.
pub fn open_sphere() -> Shape {
    let mut shape = Shape::sphere(5.0, 127, 126);
    shape.remove(9000);
    shape.remove(20_000);
    shape
}

/// Separate small triangles, no two on one spot but by chance.
pub fn small_soup(triangles: usize, random: &mut Random) -> Shape {
    let mut shape = Shape::default();
    for _ in 0..triangles {
        let at = [0; 3].map(|_| random.between(0.0, 100.0));
        let [a, b, c] = [0; 3].map(|_| {
            let [x, y, z] = at.map(|x| (x + random.between(0.0, 0.3)) as f32);
            shape.vertex(x, y, z)
        });
        shape.triangle(a, b, c);
    }
    shape
}

/// A sheet of 128 by 128 quads, not level.
pub fn fine_sheet() -> Shape {
    Shape::sheet(128, 128, |x, y| ((7 * x + 3 * y) % 5) as f32 * 0.1).scaled([0.1; 3])
}

/// A box with one triangle gone: few triangles, each over much of the raster.
pub fn open_box() -> Shape {
    let mut shape = Shape::cuboid([0.0; 3], [4.0, 3.0, 2.5]).turned(0.3, 0.2);
    shape.remove(2);
    shape
}
