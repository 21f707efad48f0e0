//! STL files by chance: meshes of every kind as triangle soups, and between any two of them a damaged file.

use super::damage::DAMAGED;
use super::dress::dressed;
use super::file::{corners, Stl, MOST, UNIT};
use crate::compute::meshes::{self, affordable};
use crate::compute::nans::nan;
use crate::random::Random;
use crate::record::{plain, FARTHEST};
use crate::solids::Shape;
use std::sync::LazyLock;

type Own = (&'static str, fn(&mut Random) -> Shape);

/// Beside the kinds of `compute`: what a mount has, and what STL files hold that those do not, or too seldom.
const OWN: [Own; 14] = [
    ("none", |_| Shape::default()),
    ("one", |random| lattice(random, 1)),
    ("two or three", |random| {
        let n = random.within(2, 3) as usize;
        lattice(random, n)
    }),
    ("a mount", mount),
    ("full", full),
    ("whole numbers", whole_numbers),
    ("floors", floors),
    ("flat", flat),
    ("gaps of 0.1", gaps),
    ("nan corners", |random| spoilt(random, |random| f32::from_bits(nan(random)))),
    ("infinite corners", |random| spoilt(random, |random| random.pick(&[f32::INFINITY, f32::NEG_INFINITY]))),
    ("huge corners", |random| spoilt(random, huge)),
    ("zeros of both signs", |random| spoilt(random, |random| random.pick(&[0.0, -0.0]))),
    ("any corners", any_corners),
];

/// Kinds of `compute` that are about what no STL file holds: units, flags, ids, leftovers, lengths, other files.
const LEFT_OUT: [&str; 13] = [
    "damaged",
    "cut_file",
    "unit_limits",
    "unit_ends",
    "all_flags",
    "size_limits",
    "zero_record",
    "nothing_to_measure",
    "leftovers",
    "ragged",
    "wild_ids",
    "bad_ids",
    "many_faults",
];

/// Those that are taken, by their place in `compute`'s list.
static TAKEN: LazyLock<Vec<(usize, &str)>> = LazyLock::new(|| {
    let all = meshes::kinds().into_iter().enumerate();
    all.filter(|(_, name)| !LEFT_OUT.contains(name)).collect()
});

/// The names of the kinds in turn: every other one is damaged.
pub fn kinds() -> Vec<&'static str> {
    (0..turn()).map(name).collect()
}

/// After so many files every kind has had its turn.
pub fn turn() -> u64 {
    2 * (TAKEN.len() + OWN.len()).max(DAMAGED.len()) as u64
}

/// The name of the kind that a number is of. Damaged kinds come more than once in a turn.
pub fn name(number: u64) -> &'static str {
    let at = (number / 2) as usize;
    match number % 2 {
        0 => match OWN.get(at % (OWN.len() + TAKEN.len())) {
            Some((name, _)) => name,
            None => TAKEN[at % (OWN.len() + TAKEN.len()) - OWN.len()].1,
        },
        _ => DAMAGED[at % DAMAGED.len()].0,
    }
}

/// The file of a number, whatever came before it.
pub fn file(seed: u64, number: u64) -> Vec<u8> {
    let random = &mut Random::new(seed.wrapping_mul(0x1_0000_0001).wrapping_add(number));
    let at = (number / 2) as usize;
    match number % 2 {
        0 => whole(random, at % (OWN.len() + TAKEN.len())).bytes(),
        _ => DAMAGED[at % DAMAGED.len()].1(random),
    }
}

/// A file of any kind that is not damaged.
pub fn some(random: &mut Random) -> Stl {
    let kind = random.below(OWN.len() + TAKEN.len());
    whole(random, kind)
}

fn whole(random: &mut Random, kind: usize) -> Stl {
    let (name, shape) = match OWN.get(kind) {
        Some((name, make)) => (*name, make(random)),
        None => {
            let (kind, name) = TAKEN[kind - OWN.len()];
            (name, taken(random, kind, name))
        }
    };
    let mut corners = corners(&shape);
    corners.truncate(MOST);
    // few of those that take many point tests stay as they are; gaps and floors do
    if !name.starts_with("gaps") && name != "floors" {
        let vertices = corners.as_flattened();
        let soup = plain(UNIT, vertices, &(0..vertices.len() as u32 / 3).collect::<Vec<_>>());
        corners = affordable(soup, random).vertices.as_chunks().0.to_vec();
    }
    dressed(random, &corners)
}

/// A mesh of `compute`'s, as it is, as large in metres, or a thousand times as large.
fn taken(random: &mut Random, kind: usize, name: &str) -> Shape {
    let mesh = meshes::by_chance(kind, random.bits());
    let same = mesh.unit / UNIT;
    let by = if name == "gaps" { same } else { random.pick(&[1.0, same, 1000.0]) };
    Shape { vertices: mesh.vertices, ids: mesh.ids }.scaled([by; 3])
}

// ---- kinds of their own, in millimetres

/// So many triangles with corners at whole numbers.
fn lattice(random: &mut Random, triangles: usize) -> Shape {
    let wide = random.pick(&[1i64, 3, 500]);
    Shape {
        vertices: (0..9 * triangles).map(|_| random.within(-wide, wide) as f32).collect(),
        ids: (0..3 * triangles as u32).collect(),
    }
}

/// A pole, a plate and one clamp or two, some of them turned; closed, but now and then a triangle is missing.
fn mount(random: &mut Random) -> Shape {
    let sides = random.within(5, 24) as u32;
    let mut shape = Shape::cylinder(random.between(10.0, 60.0), random.between(100.0, 3000.0), sides);
    for _ in 0..random.within(1, 3) {
        let [long, wide, thick] =
            [(50.0, 800.0), (20.0, 300.0), (3.0, 30.0)].map(|(low, high)| random.between(low, high));
        let part = Shape::cuboid([0.0; 3], [long, wide, thick].map(|x| x as f32));
        let part =
            if random.once_in(2) { part.turned(random.between(0.0, 7.0), random.between(0.0, 7.0)) } else { part };
        shape = shape.with(part.moved([0; 3].map(|_| random.between(-500.0, 500.0) as f32)));
    }
    let shape = shape.shuffled(random);
    cut(random, shape, 4)
}

/// Once in so often without one triangle.
fn cut(random: &mut Random, mut shape: Shape, once_in: usize) -> Shape {
    if random.once_in(once_in) {
        shape.remove(random.below(shape.triangles()));
    }
    shape
}

/// 170 triangles, or 169.
fn full(random: &mut Random) -> Shape {
    let shape = if random.once_in(2) {
        Shape::sphere(random.between(20.0, 900.0), 6, 17).turned(random.between(0.0, 1.0), random.between(0.0, 1.0))
    } else {
        let boxes = (0..14).map(|i| Shape::cube(random.within(1, 90) as f32).moved([100.0 * i as f32, 0.0, 0.0]));
        let boxes = boxes.fold(Shape::default(), Shape::with);
        boxes.with(lattice(random, 2))
    };
    let shape = shape.shuffled(random);
    cut(random, shape, 3)
}

/// Closed solids with whole numbers for corners, anywhere.
fn whole_numbers(random: &mut Random) -> Shape {
    let mut shape = Shape::default();
    for _ in 0..random.within(1, 4) {
        let sides = [0; 3].map(|_| random.within(1, 400) as f32);
        let solid = if random.once_in(2) { Shape::cuboid([0.0; 3], sides) } else { Shape::tetrahedron(sides[0]) };
        shape = shape.with(solid.moved([0; 3].map(|_| random.within(-2000, 2000) as f32)));
    }
    let far = random.pick(&[0.0, 0.0, 1e5, 16_000_000.0]);
    let shape = shape.moved([far, -far, far]).shuffled(random);
    cut(random, shape, 4)
}

/// A floor and a small level triangle above a corner of it: the prism is the box, up to its roundings.
fn floors(random: &mut Random) -> Shape {
    let [wide, deep, high] = [0; 3].map(|_| random.between(30.0, 900.0) as f32);
    let mut shape = Shape::default();
    for [x, y, z] in [[0.0, 0.0, 0.0], [wide, 0.0, 0.0], [wide, deep, 0.0], [0.0, deep, 0.0]] {
        shape.vertex(x, y, z);
    }
    let [a, b, c] = [[0.0, 0.0], [9.0, 0.0], [0.0, 9.0]].map(|[x, y]| shape.vertex(x, y, high));
    shape.ids = vec![0, 1, 2, 0, 2, 3, a, b, c];
    shape.rolled(random.below(3)).shuffled(random)
}

/// All corners at one height, in one line, or in one place.
fn flat(random: &mut Random) -> Shape {
    let squeeze = random.pick(&[[1.0f32, 1.0, 0.0], [1.0, 0.0, 0.0], [0.0; 3]]);
    let base = if random.once_in(2) { Shape::sheet(3, 4, |_, _| 0.0) } else { Shape::cube(8.0) };
    base.scaled(squeeze).rolled(random.below(3)).moved([5.0, -3.0, random.within(-9, 9) as f32])
}

/// Solids whose triangles stand apart by about the weld distance, 0.1, on either side of a cell's rim.
fn gaps(random: &mut Random) -> Shape {
    let size = random.pick(&[3.0f32, 40.0, 900.0]);
    let solid = if random.once_in(2) { Shape::cube(size) } else { Shape::tetrahedron(size) };
    let mut shape = solid.moved([random.pick(&[0.0, 0.025, 0.05, 0.06]); 3]).exploded();
    let gap = random.pick(&[0.02, 0.04, 0.0499, 0.05, 0.0501, 0.09, 0.1, 0.11]);
    for v in shape.vertices.iter_mut() {
        *v = (*v as f64 + gap * random.within(0, 1) as f64) as f32;
    }
    shape
}

/// A closed solid in which one coordinate or some are other ones.
fn spoilt(random: &mut Random, by: fn(&mut Random) -> f32) -> Shape {
    let mut shape = whole_numbers(random).exploded();
    let times = random.pick(&[1, 1, 2, 9, 40]);
    for _ in 0..times {
        let at = random.below(shape.vertices.len());
        shape.vertices[at] = by(random);
    }
    shape
}

/// As large as may be, a step larger, and beyond.
fn huge(random: &mut Random) -> f32 {
    let x = random.pick(&[FARTHEST, FARTHEST, FARTHEST, FARTHEST.next_down(), FARTHEST.next_up(), 1e20, f32::MAX]);
    random.pick(&[x, -x])
}

/// Any bits for every float, mostly none that is refused.
fn any_corners(random: &mut Random) -> Shape {
    let (triangles, any) = (random.within(1, 60) as usize, random.once_in(3));
    let float = |random: &mut Random| {
        let bits = random.bits() as u32;
        f32::from_bits(if any { bits } else { bits & 0x8000_0000 | (bits % 0x5000_0000) })
    };
    Shape { vertices: (0..9 * triangles).map(|_| float(random)).collect(), ids: (0..3 * triangles as u32).collect() }
}
