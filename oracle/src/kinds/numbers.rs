//! Places, limits and numbers: each limit and its neighbour, far coordinates, slivers, -0, subnormals, NaN, any bits.

use super::{filed, filed_at, flags, solid, unit, whole};
use crate::file::{write, Flags, MeshFile, MOST};
use crate::random::Random;
use crate::record::{FARTHEST, GREATEST_UNIT, LEAST_UNIT};
use crate::solids::Shape;

// ---- places and limits

pub fn far(random: &mut Random) -> Vec<u8> {
    let far = random.pick(&[1e3, 1e5, 6.7e6, 16_777_216.0 - 64.0, 1e8, 6e8, 8.58e9]);
    let by = [far, -far / 3.0, random.pick(&[0.0, far])].map(|x: f64| x.round() as f32);
    let grown = random.pick(&[1.0f32, 1.0, 8.0, 4096.0]);
    let shape = solid(random).scaled([grown; 3]);
    let shape = if random.once_in(2) { whole(shape) } else { shape }.moved(by);
    filed(random, shape)
}

pub fn unit_limits(random: &mut Random) -> Vec<u8> {
    let unit = random.pick(&[
        LEAST_UNIT,
        LEAST_UNIT.next_down(),
        LEAST_UNIT.next_up(),
        GREATEST_UNIT,
        GREATEST_UNIT.next_up(),
        GREATEST_UNIT.next_down(),
        0.0,
        -0.0,
        -1.0,
        f32::MIN_POSITIVE,
        f32::from_bits(1),
        f32::INFINITY,
        f32::NEG_INFINITY,
        f32::NAN,
        f32::from_bits(0x7f80_0001),
        f32::from_bits(0xffc1_2345),
    ]);
    let shape = solid(random);
    filed_at(random, unit, shape)
}

pub fn coordinate_limits(random: &mut Random) -> Vec<u8> {
    let mut shape = solid(random).scaled([random.pick(&[1.0f32, 1e9]); 3]);
    for _ in 0..random.within(1, 3) {
        let at = random.below(shape.vertices.len());
        let edge =
            random.pick(&[FARTHEST, FARTHEST, FARTHEST, FARTHEST.next_down(), FARTHEST.next_up(), 8_589_935_616.0]);
        shape.vertices[at] = if random.once_in(2) { edge } else { -edge };
    }
    filed(random, shape)
}

pub fn size_limits(random: &mut Random) -> Vec<u8> {
    let mut mesh = MeshFile { unit: 1.0, flags: flags(random), ..MeshFile::default() };
    let floats = random.pick(&[0, 8, 9, 10, MOST - 1, MOST, MOST + 1]);
    let ids = random.pick(&[0, 2, 3, 8, 9, MOST - 1, MOST, MOST + 1]);
    mesh.vertices = (0..floats).map(|_| random.within(-4, 4) as f32).collect();
    mesh.ids = (0..ids).map(|_| random.below(floats / 3 + 1) as u32).collect();
    write(&mesh, random.once_in(2))
}

pub fn zero_record(random: &mut Random) -> Vec<u8> {
    let mut shape = solid(random);
    if random.once_in(2) {
        shape.vertices.truncate(random.below(9));
    } else {
        shape.ids.truncate(random.below(3));
    }
    // what would be refusal 2 or 4 comes too late
    if random.once_in(2) {
        shape.vertices.iter_mut().for_each(|v| *v = f32::NAN);
    }
    let unit = random.pick(&[1.0, f32::NAN, 0.0, 17.0]);
    let mesh = MeshFile {
        unit,
        vertices: shape.vertices,
        ids: shape.ids,
        flags: Flags { clip: random.once_in(2), defect: random.below(5) as u8 },
    };
    write(&mesh, true)
}

// ---- numbers

/// Triangles whose cross product's length is about 1e-12, just that, a step beside it, or 0; some beside ids out of range. At a
/// corner of the box, where the length is that of the given corners, and elsewhere, where the rebase rounds it.
pub fn slivers(random: &mut Random) -> Vec<u8> {
    let mut shape = match random.below(4) {
        0 | 1 => Shape::default(),
        2 => Shape::cuboid([0.0; 3], [random.within(1, 9) as f32; 3]),
        _ => solid(random),
    };
    for _ in 0..random.within(1, 6) {
        let sliver = match random.below(4) {
            0 | 1 => near_limit(random),
            2 => Shape::at_limit(random.within(-1, 1) as i32).rolled(random.below(3)),
            _ => in_a_line(random),
        };
        shape = shape.with(if random.once_in(2) { sliver } else { sliver.flipped() });
    }
    for _ in 0..random.pick(&[0, 0, 1, 3]) {
        out_of_range(random, &mut shape);
    }
    let shape = if random.once_in(2) { shape } else { shape.shuffled(random) };
    let unit = unit(random);
    filed_at(random, unit, shape)
}

fn near_limit(random: &mut Random) -> Shape {
    let long = random.pick(&[1e-6f32, 1e-3, 1.0, 1e3]);
    let across = 1e-12 / long * random.pick(&[0.5f32, 0.999, 1.0, 1.001, 2.0]);
    let mut shape = Shape::default();
    let a = shape.vertex(0.0, 0.0, 0.0);
    let b = shape.vertex(long, 0.0, 0.0);
    let c = if random.once_in(2) { shape.vertex(0.0, across, 0.0) } else { shape.vertex(long / 2.0, 0.0, across) };
    shape.triangle(a, b, c);
    shape
}

/// Three corners in a line, or two or three of them in one place.
fn in_a_line(random: &mut Random) -> Shape {
    let mut shape = Shape::default();
    let step = [0; 3].map(|_| random.within(0, 3) as f32);
    let [a, b, c] =
        random.pick(&[[0.0, 1.0, 2.0], [3.0, 1.0, 2.0], [1.0, 1.0, 4.0], [2.0, 2.0, 2.0]]).map(|times: f32| {
            let [x, y, z] = step.map(|x| times * x);
            shape.vertex(x, y, z)
        });
    shape.triangle(a, b, c);
    shape
}

/// One triangle more, with an id out of range at one corner, or now and then at more; the others may be one id.
fn out_of_range(random: &mut Random, shape: &mut Shape) {
    let count = (shape.vertices.len() / 3) as u32;
    let mut corners = [0; 3].map(|_| random.below(count as usize) as u32);
    let far = random.pick(&[count, count, count + 1, 0x5555_5555, 0xaaaa_aaab, u32::MAX]);
    corners[random.below(3)] = far;
    if random.once_in(4) {
        corners[random.below(3)] = far;
    }
    shape.ids.extend(corners);
}

pub fn negative_zero(random: &mut Random) -> Vec<u8> {
    let mut shape = solid(random);
    for v in shape.vertices.iter_mut() {
        if v.abs() < 0.5 && random.once_in(2) {
            *v = random.pick(&[-0.0, 0.0]);
        }
    }
    let unit = unit(random);
    filed_at(random, unit, shape)
}

pub fn subnormal(random: &mut Random) -> Vec<u8> {
    let shrink = random.pick(&[1e-42f32, 1e-38, 1e-30, 1e-20, 1e-13, 1e-7]);
    let unit = random.pick(&[1.0, LEAST_UNIT, GREATEST_UNIT]);
    let flat = random.pick(&[[shrink; 3], [1.0, 1.0, shrink], [4096.0, shrink, shrink]]);
    let shape = solid(random).scaled(flat);
    filed_at(random, unit, shape)
}

pub fn not_finite(random: &mut Random) -> Vec<u8> {
    let mut shape = solid(random);
    let at = random.below(shape.vertices.len());
    let bits = random.pick(&[
        0x7f80_0000,
        0xff80_0000,
        0x7fc0_0000,
        0xffc0_0000,
        0x7f80_0001,
        0x7fff_ffff,
        0xffbf_ffff,
        0x7f7f_ffff,
    ]);
    shape.vertices[at] = f32::from_bits(bits);
    filed(random, shape)
}

pub fn all_flags(random: &mut Random) -> Vec<u8> {
    let mut shape = solid(random);
    match random.below(3) {
        0 => {}
        1 => shape.remove(0),
        _ => shape = shape.with(Shape::cube(1.0)).scaled([1.0, 1.0, random.pick(&[0.0f32, 1.0])]),
    }
    let flags = Flags { clip: random.once_in(2), defect: random.below(5) as u8 };
    write(&MeshFile { unit: unit(random), vertices: shape.vertices, ids: shape.ids, flags }, true)
}

// ---- no shape at all

pub fn noise(random: &mut Random) -> Vec<u8> {
    let (vertices, triangles) = (random.within(3, 12) as usize, random.within(1, 40) as usize);
    let wide = random.pick(&[2i64, 5, 1000]);
    let reached = vertices + random.pick(&[0, 0, 1]);
    let shape = Shape {
        vertices: (0..3 * vertices).map(|_| random.within(-wide, wide) as f32).collect(),
        ids: (0..3 * triangles).map(|_| random.below(reached) as u32).collect(),
    };
    filed(random, shape)
}

pub fn any_bits(random: &mut Random) -> Vec<u8> {
    let mut shape = Shape::default();
    let spoil = random.once_in(4);
    for _ in 0..3 * random.within(3, 12) {
        let x = f32::from_bits(random.bits() as u32);
        shape.vertices.push(if spoil || x.abs() <= FARTHEST {
            x
        } else {
            f32::from_bits(random.bits() as u32 % 0x5000_0000)
        });
    }
    shape.ids = (0..3 * random.within(3, 20)).map(|_| random.below(13) as u32).collect();
    let unit = unit(random);
    filed_at(random, unit, shape)
}
