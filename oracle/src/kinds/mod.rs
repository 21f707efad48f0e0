//! Meshes of every kind that matters, as files of the program's format: one function a kind, in a file for each idea.

mod files;
mod numbers;
mod shells;
mod topology;

use crate::file::{write, Flags, MeshFile, MOST};
use crate::random::Random;
use crate::record::{GREATEST_UNIT, LEAST_UNIT};
use crate::solids::Shape;
use files::*;
use numbers::*;
pub use shells::second_slopes;
use shells::*;
use topology::*;

pub struct Kind {
    pub name: &'static str,
    pub make: fn(&mut Random) -> Vec<u8>,
}

/// The i-th mesh of a seed: the kinds in turn, each mesh by its own chance, whatever came before it. (Sines come from
/// the machine's library: the last digit of a round shape may differ between machines.)
pub fn mesh(seed: u64, i: u64) -> Vec<u8> {
    let kind = &KINDS[(i % KINDS.len() as u64) as usize];
    (kind.make)(&mut Random::new(seed.wrapping_mul(0x1_0000_0001).wrapping_add(i)))
}

macro_rules! kinds {
    ($($name:ident),* $(,)?) => { &[$(Kind { name: stringify!($name), make: $name }),*] };
}

pub const KINDS: &[Kind] = kinds![
    closed,
    several,
    hole,
    flips,
    duplicated,
    cancelling,
    sheet,
    double_sheet,
    soup,
    gaps,
    welded_twice,
    bad_ids,
    repeated_ids,
    leftovers,
    far,
    unit_limits,
    coordinate_limits,
    size_limits,
    zero_record,
    slivers,
    negative_zero,
    subnormal,
    not_finite,
    all_flags,
    slopes,
    many_surfaces,
    equal_areas,
    collapsed,
    near_exception,
    above_prism,
    above_box,
    touching,
    cancelling_volumes,
    thin,
    noise,
    any_bits,
    damaged,
    cut_file,
];

// ---- what the kinds share

fn solid(random: &mut Random) -> Shape {
    let size = random.between(0.2, 6.0);
    let shape = match random.below(5) {
        0 => Shape::cube(size as f32),
        1 => Shape::tetrahedron(size as f32),
        2 => Shape::cuboid([0.0; 3], [size as f32, random.between(0.1, 9.0) as f32, random.between(0.1, 3.0) as f32]),
        3 => Shape::cylinder(size, random.between(0.1, 5.0), random.within(3, 24) as u32),
        _ => Shape::sphere(size, random.within(3, 8) as u32, random.within(3, 12) as u32),
    };
    let shape =
        if random.once_in(2) { shape.turned(random.between(0.0, 7.0), random.between(0.0, 7.0)) } else { shape };
    let shape = shape.shuffled(random);
    if random.once_in(4) {
        shape.flipped()
    } else {
        shape
    }
}

/// Now and then whole numbers only, as formwork drawings have them.
fn whole(shape: Shape) -> Shape {
    let mut shape = shape.scaled([16.0; 3]);
    shape.vertices.iter_mut().for_each(|v| *v = v.round() + 0.0);
    shape
}

fn some_triangle(random: &mut Random, shape: &Shape) -> usize {
    random.below(shape.triangles().max(1))
}

fn unit(random: &mut Random) -> f32 {
    match random.below(6) {
        0..=2 => 1.0,
        3 => 0.001,
        4 => random.pick(&[0.01, 0.0254, 0.3048, LEAST_UNIT, GREATEST_UNIT, 0.5]),
        _ => (2f64.powf(random.between(-20.0, 4.0)) as f32).clamp(LEAST_UNIT, GREATEST_UNIT),
    }
}

fn flags(random: &mut Random) -> Flags {
    if random.once_in(8) {
        Flags { clip: random.once_in(2), defect: random.below(5) as u8 }
    } else {
        Flags::default()
    }
}

fn filed_at(random: &mut Random, unit: f32, mut shape: Shape) -> Vec<u8> {
    shape.vertices.truncate(MOST);
    shape.ids.truncate(MOST);
    let mesh = MeshFile { unit, vertices: shape.vertices, ids: shape.ids, flags: flags(random) };
    write(&mesh, random.once_in(4))
}

fn filed(random: &mut Random, shape: Shape) -> Vec<u8> {
    let shape = if random.once_in(5) { whole(shape) } else { shape };
    let unit = unit(random);
    filed_at(random, unit, shape)
}
