//! Pairs of meshes that demand 3 speaks of: all floats whole numbers up to 2^24 and none -0, the same ids, flags, unit and
//! areas, and the vertices of the second mesh those of the first one moved by a whole number an axis. Floats left over behind
//! the last vertex are as many in both, and often others.

use crate::compute::meshes::{self, affordable};
use crate::compute::shapes::SHAPES;
use crate::pairs::Pair;
use crate::random::Random;
use crate::raster::rims;
use crate::record::{plain, GREATEST_UNIT, MOST};
use crate::solids::Shape;

/// Coordinates have this magnitude at most: 2^24.
pub const LIMIT: i64 = 1 << 24;

/// The least unit that demand 3 speaks of: 0.001 as an f32.
pub const LEAST_UNIT: f32 = f32::from_bits(0x3a83_126f);

/// Kinds of `compute`, their coordinates made whole.
const SHARED: [&str; 31] = [
    "closed",
    "several",
    "hole",
    "flips",
    "duplicated",
    "cancelling",
    "sheet",
    "double_sheet",
    "soup",
    "gaps",
    "welded_twice",
    "bad_ids",
    "repeated_ids",
    "leftovers",
    "zero_record",
    "slopes",
    "many_surfaces",
    "equal_areas",
    "collapsed",
    "near_exception",
    "above_prism",
    "above_box",
    "touching",
    "cancelling_volumes",
    "thin",
    "noise",
    "wild_ids",
    "few",
    "medium",
    "rims",
    "second_slopes",
];

type Own = (&'static str, fn(&mut Random) -> Shape);

const OWN: [Own; 12] = [
    ("boxes", boxes),
    ("tetrahedra", tetrahedra),
    ("open boxes", open_boxes),
    ("one apart", one_apart),
    ("terrain", terrain),
    ("triangles", triangles),
    ("slivers", slivers),
    ("flat", flat),
    ("wide", wide),
    ("on edges", on_edges),
    ("thresholds", meshes::thresholds),
    ("large", large),
];

/// The names of all kinds.
pub fn kinds() -> Vec<&'static str> {
    SHARED.into_iter().chain(OWN.map(|(name, _)| name)).collect()
}

/// A pair of a kind; the same for the same turn.
pub fn pair(kind: usize, turn: u64) -> Pair {
    let random = &mut Random::new(!turn);
    let (mut vertices, mut ids) = match SHARED.get(kind) {
        Some(name) => {
            let shared = meshes::kinds().iter().position(|other| other == name).expect("a kind of `compute`");
            let mesh = meshes::by_chance(shared, turn);
            (whole(&mesh.vertices, growth(&mesh.vertices, random)), mesh.ids)
        }
        None => {
            let shape = OWN[kind - SHARED.len()].1(random);
            let mesh = affordable(plain(1.0, &shape.vertices, &shape.ids), random);
            (whole(&mesh.vertices, 1.0), mesh.ids)
        }
    };
    if random.once_in(12) {
        (0..random.within(1, 2)).for_each(|_| vertices.push(leftover(random)));
    }
    if random.once_in(16) {
        (0..random.within(1, 2)).for_each(|_| ids.push(random.below(9) as u32));
    }
    let complete = vertices.len() / 3 * 3;
    let rooms = [0, 1, 2].map(|axis| room(&vertices[..complete], axis));
    let here = rooms.map(|room| place(random, room));
    let there = [0, 1, 2].map(|axis| other_place(random, here[axis], rooms[axis]));
    let unit = unit(random);
    let at = |place: [i64; 3]| {
        let moved = vertices.iter().enumerate().map(|(i, x)| (x + place[i % 3]).clamp(-LIMIT, LIMIT) as f32);
        plain(unit, &moved.collect::<Vec<_>>(), &ids)
    };
    let mut pair = Pair::new(at(here), at(there), random);
    if complete < vertices.len() && random.once_in(2) {
        pair.there.vertices[complete..].fill_with(|| leftover(random) as f32);
    }
    pair
}

// ---- whole numbers

/// By how much a mesh grows, so that its least side is some whole units long.
fn growth(vertices: &[f32], random: &mut Random) -> f64 {
    let side = |axis: usize| {
        let all = vertices.chunks_exact(3).map(|v| v[axis] as f64);
        let (low, high) = all.fold((f64::INFINITY, f64::NEG_INFINITY), |(low, high), x| (low.min(x), high.max(x)));
        high - low
    };
    let least = [0, 1, 2].map(side).into_iter().filter(|side| *side > 0.0).fold(f64::INFINITY, f64::min);
    let wanted = random.pick(&[1.0, 2.0, 3.0, 7.0, 20.0, 100.0, 1000.0, 4096.0, 1e5, 1e9]);
    wanted / least
}

/// The coordinates grown, or as much of it as the range allows, and rounded. A leftover float may end at the limit.
fn whole(vertices: &[f32], growth: f64) -> Vec<i64> {
    let most = vertices.chunks_exact(3).flatten().fold(0.0f64, |most, x| most.max(x.abs() as f64));
    let by = growth.min(LIMIT as f64 / most);
    vertices.iter().map(|x| ((*x as f64 * by).round() as i64).clamp(-LIMIT, LIMIT)).collect()
}

fn leftover(random: &mut Random) -> i64 {
    let any = random.within(-1000, 1000);
    random.pick(&[0, 7, -500, any, any, LIMIT, -LIMIT])
}

// ---- places

/// The least and the greatest move along an axis that keeps all vertices in range.
fn room(vertices: &[i64], axis: usize) -> [i64; 2] {
    let all = || vertices.iter().skip(axis).step_by(3).copied();
    [-LIMIT - all().min().unwrap_or(0), LIMIT - all().max().unwrap_or(0)]
}

/// As it is, at an end of the range, near one, at a power of two, or anywhere.
fn place(random: &mut Random, [least, greatest]: [i64; 2]) -> i64 {
    let off = random.pick(&[0, 0, 1, 2, 5]);
    let at = match random.below(8) {
        0 => 0,
        1 => least + off,
        2 => greatest - off,
        3 => random.within(-1000, 1000),
        4 => (1 << random.below(25)) - off,
        5 => off - (1 << random.below(25)),
        _ => random.within(least, greatest),
    };
    at.clamp(least, greatest)
}

/// Not moved along this axis, a little, or to another place.
fn other_place(random: &mut Random, here: i64, room: [i64; 2]) -> i64 {
    match random.below(5) {
        0 => here,
        1 => (here + random.pick(&[-3, -2, -1, 1, 2, 3])).clamp(room[0], room[1]),
        _ => place(random, room),
    }
}

// ---- units

/// From the least that demand 3 speaks of up to the greatest; now and then beyond that, which is refusal 2.
fn unit(random: &mut Random) -> f32 {
    match random.below(16) {
        0..=2 => LEAST_UNIT,
        3 => LEAST_UNIT.next_up(),
        4..=6 => 1.0,
        7..=10 => random.pick(&[0.01, 0.1, 3.280_84, GREATEST_UNIT.next_down(), GREATEST_UNIT, GREATEST_UNIT]),
        11 => random.pick(&[GREATEST_UNIT.next_up(), GREATEST_UNIT.next_up(), f32::MAX, f32::INFINITY]),
        _ => (2f64.powf(random.between(-10.0, 4.0)) as f32).clamp(LEAST_UNIT, GREATEST_UNIT),
    }
}

// ---- kinds of their own

fn size(random: &mut Random) -> f32 {
    let most = random.pick(&[1, 3, 20, 1000, 4096]);
    if random.once_in(4) {
        (1u32 << random.below(13)) as f32
    } else {
        random.within(1, most) as f32
    }
}

fn point(random: &mut Random, [x, y, z]: [f32; 3]) -> [f32; 3] {
    [x, y, z].map(|side| random.within(0, side as i64) as f32)
}

/// Some pieces, each one way or the other, with corners of their own or not.
fn some(random: &mut Random, piece: fn(&mut Random) -> Shape) -> Shape {
    let mut shape = Shape::default();
    for _ in 0..random.pick(&[1, 1, 1, 2, 3]) {
        let one = piece(random);
        shape = shape.with(if random.once_in(3) { one.flipped() } else { one });
    }
    let shape = shape.shuffled(random);
    if random.once_in(3) {
        shape.exploded()
    } else {
        shape
    }
}

fn boxes(random: &mut Random) -> Shape {
    some(random, |random| {
        let low = point(random, [9.0; 3]);
        Shape::cuboid(low, low.map(|x| x + size(random)))
    })
}

fn tetrahedra(random: &mut Random) -> Shape {
    some(random, |random| {
        let sides = [0; 3].map(|_| size(random));
        let corners = [0; 4].map(|_| point(random, sides));
        Shape { vertices: corners.concat(), ..Shape::tetrahedron(1.0) }
    })
}

fn open_boxes(random: &mut Random) -> Shape {
    let mut shape = boxes(random);
    for _ in 0..random.within(1, 6) {
        shape.remove(random.below(shape.triangles()));
    }
    shape
}

/// Small solids of separate corners, which a weld that joined neighbours would ruin; half of them with some corners off by
/// one, which it would close.
fn one_apart(random: &mut Random) -> Shape {
    let small = |random: &mut Random| random.within(1, 3) as u32;
    let shape = match random.below(3) {
        0 => Shape::blocks([small(random), small(random), 1]),
        1 => Shape::tetrahedron(small(random) as f32),
        _ => Shape::cuboid([0.0; 3], [0; 3].map(|_| small(random) as f32)),
    };
    let mut shape = shape.exploded();
    if random.once_in(2) {
        for _ in 0..random.within(1, 3) {
            let at = random.below(shape.vertices.len());
            shape.vertices[at] += random.pick(&[-1.0, 1.0]);
        }
    }
    shape.shuffled(random)
}

fn terrain(random: &mut Random) -> Shape {
    let (wide, deep, rough) = (random.within(1, 6) as u32, random.within(1, 6) as u32, size(random) as i64);
    let shape = Shape::sheet(wide, deep, |_, _| random.within(0, rough) as f32);
    shape.scaled([size(random), size(random), 1.0])
}

/// Single triangles in space.
fn triangles(random: &mut Random) -> Shape {
    let sides = [0; 3].map(|_| size(random));
    let mut shape = Shape::default();
    for _ in 0..random.pick(&[1, 1, 2, 5, 20]) {
        let [a, b, c] = [0; 3].map(|_| {
            let [x, y, z] = point(random, sides);
            shape.vertex(x, y, z)
        });
        shape.triangle(a, b, c);
    }
    shape
}

/// Triangles in a line or nearly so, beside a box or alone.
fn slivers(random: &mut Random) -> Shape {
    let mut shape = if random.once_in(2) { boxes(random) } else { Shape::default() };
    for _ in 0..random.within(1, 5) {
        let step = point(random, [4096.0, 64.0, 8.0]);
        let [x, y, z] = step.map(|x| 2.0 * x + random.pick(&[0.0, 0.0, 0.0, 1.0]));
        let a = shape.vertex(0.0, 0.0, 0.0);
        let b = shape.vertex(step[0], step[1], step[2]);
        let c = shape.vertex(x, y, z);
        shape.triangle(a, b, c);
    }
    shape
}

fn flat(random: &mut Random) -> Shape {
    let shape = random.pick(&[boxes, tetrahedra, terrain, triangles])(random);
    let mut by = [1.0; 3];
    by[random.below(3)] = 0.0;
    shape.scaled(by)
}

/// As wide as the range or nearly so along some axis, where a side can need more digits than an f32 has.
fn wide(random: &mut Random) -> Shape {
    let far = LIMIT as f32;
    let mut ends = || {
        let off = random.within(0, 9) as f32;
        random.pick(&[
            [-far, far],
            [-far, far - off],
            [off - far, far - 1.0],
            [-far, off],
            [-off, 700.0],
            [0.0, 65_535.0],
        ])
    };
    let [[x0, x1], [y0, y1], [z0, z1]] = [ends(), ends(), ends()];
    let mut shape = Shape::cuboid([x0, y0, z0], [x1, y1, z1]);
    (0..random.pick(&[0, 1, 2])).for_each(|_| shape.remove(random.below(shape.triangles())));
    shape.shuffled(random)
}

/// Edges through the centres of cells, at whole numbers: where these are large enough, the centres are not where they were.
fn on_edges(random: &mut Random) -> Shape {
    rims::shape(random).scaled([random.pick(&[2.0, 2.0, 4.0, 64.0]); 3])
}

/// Seldom as large as can be, and seldom too large, which is refusal 1.
fn large(random: &mut Random) -> Shape {
    let (_, make, most) = random.pick(&SHAPES);
    let seldom = random.below(100);
    let triangles = if seldom == 0 { most } else { random.within(40, 300) as usize };
    let mut shape = make(triangles).scaled([random.pick(&[1.0, 10.0, 1000.0]); 3]);
    if seldom == 1 {
        let more = MOST + random.within(1, 3) as usize;
        let which = random.below(3);
        shape.vertices.resize(if which == 0 { shape.vertices.len() } else { more }, 1.0);
        shape.ids.resize(if which == 1 { shape.ids.len() } else { more }, 0);
    }
    shape
}
