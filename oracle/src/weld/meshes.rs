//! Vertices, ids and ε to try the weld on: by the edge of a cell, far out, and any bits.

use crate::random::Random;

pub const MOST_FLOATS: usize = 98_304;

pub struct Welding {
    pub vertices: Vec<f32>,
    pub ids: Vec<u32>,
    pub eps: f32,
}

/// 0.1 mm in some unit, mostly; else an ε that no unit gives.
fn an_epsilon(random: &mut Random) -> f32 {
    match random.below(12) {
        0 => random.pick(&[
            0.0,
            -0.0,
            -1e-4,
            f32::NAN,
            f32::INFINITY,
            f32::NEG_INFINITY,
            f32::MAX,
            f32::MIN_POSITIVE,
            1e-45,
        ]),
        1 => f32::from_bits(random.bits() as u32),
        2 => random.pick(&[1.0, 0.5, 2.0, 0.25, 1e-12, 1e12, 3.0]),
        3..=6 => 1e-4 / random.pick(&[1.0, 0.001, 0.01, 0.3048, 0.0254, 16.0, 1.0 / 1_048_576.0]),
        _ => 1e-4 / random.between(1.0 / 1_048_576.0, 16.0) as f32,
    }
}

fn nudged(x: f32, random: &mut Random) -> f32 {
    f32::from_bits(x.to_bits().wrapping_add_signed(random.within(-2, 2) as i32))
}

/// A coordinate, mostly by the edge between two cells: k + 1/2 of ε, a few last digits up or down.
fn a_coordinate(eps: f32, random: &mut Random) -> f32 {
    let cells = random.within(-6, 6) as f64;
    match random.below(16) {
        0 => random.pick(&[0.0, -0.0]),
        1 => f32::from_bits(random.bits() as u32),
        2 => random.pick(&[f32::NAN, f32::INFINITY, f32::NEG_INFINITY, f32::MAX, f32::MIN, 1e-45, -1e-45]),
        3 => random.between(-8_589_934_592.0, 8_589_934_592.0) as f32,
        4 => nudged((random.pick(&[9.223_372e18f64, -9.223_372e18, 4.503_599_6e15]) * eps as f64) as f32, random),
        5 => random.within(-4, 4) as f32,
        6..=10 => nudged(((cells + 0.5) * eps as f64) as f32, random),
        11..=13 => nudged((cells * eps as f64) as f32, random),
        _ => random.between(-3.0, 3.0) as f32 * eps,
    }
}

/// So many vertices, each new or by an earlier one: the same, or a coordinate moved by about a cell.
fn some_vertices(count: usize, eps: f32, random: &mut Random) -> Vec<f32> {
    let mut vertices: Vec<f32> = Vec::with_capacity(3 * count + 2);
    for v in 0..count {
        if v == 0 || random.once_in(3) {
            (0..3).for_each(|_| vertices.push(a_coordinate(eps, random)));
            continue;
        }
        let from = 3 * random.below(v);
        vertices.extend_from_within(from..from + 3);
        if random.once_in(2) {
            let at = 3 * v + random.below(3);
            let by = random.pick(&[0.25, 0.499, 0.5, 0.501, 1.0]) * random.pick(&[1.0, -1.0]);
            vertices[at] = match random.below(3) {
                0 => nudged(vertices[at], random),
                1 => -vertices[at],
                _ => (vertices[at] as f64 + by * eps as f64) as f32,
            };
        }
    }
    (0..random.below(3)).for_each(|_| vertices.push(a_coordinate(eps, random)));
    vertices
}

/// Mostly of the vertices; some just past them, some far.
fn some_ids(count: usize, vertices: usize, random: &mut Random) -> Vec<u32> {
    (0..count)
        .map(|_| match random.below(20) {
            0 => vertices as u32 + random.below(3) as u32,
            1 => random.pick(&[u32::MAX, 0x8000_0000, 65_536, 32_768, 98_304]),
            _ => random.below(vertices.max(1)) as u32,
        })
        .collect()
}

pub fn by_chance(random: &mut Random) -> Welding {
    let count = match random.below(1000) {
        0 => random.below(4000),
        1..=20 => random.below(300),
        _ => random.below(16),
    };
    let eps = an_epsilon(random);
    let vertices = some_vertices(count, eps, random);
    let length = random.below(3 * count + 9);
    let ids = some_ids(length, vertices.len() / 3, random);
    Welding { vertices, ids, eps }
}

// ---- large, as many vertices as there may be

/// So many vertices by chance in a box of a hundred metres: all distinct, almost surely.
pub fn scattered(count: usize, random: &mut Random) -> Vec<f32> {
    (0..3 * count).map(|_| random.between(-50.0, 50.0) as f32).collect()
}

/// The points of a lattice with 32 points a side.
pub fn lattice(count: usize) -> Vec<f32> {
    (0..count).flat_map(|v| [v % 32, v / 32 % 32, v / 1024].map(|k| k as f32 * 0.5)).collect()
}

/// Places on a sphere, ring by ring.
pub fn globe(count: usize) -> Vec<f32> {
    let at = |v: usize| {
        let (turn, up) = (v % 256, v / 256);
        let (turn, up) =
            (turn as f64 * std::f64::consts::TAU / 256.0, (up as f64 + 0.5) * std::f64::consts::PI / 128.0);
        [turn.cos() * up.sin(), turn.sin() * up.sin(), up.cos()].map(|x| (5.0 * x) as f32)
    };
    (0..count).flat_map(at).collect()
}

/// So many vertices in so many cells of 0.1 mm, in turn; each `spread` of a cell from its middle at most.
pub fn crowded(count: usize, cells: usize, spread: f64, random: &mut Random) -> Vec<f32> {
    let middles: Vec<f64> = (0..3 * cells).map(|_| (random.between(-1e5, 1e5)).round() / 1e4).collect();
    let mut near = |at: usize| (middles[at] + random.between(-spread, spread) * 1e-4) as f32;
    (0..count).flat_map(|v| [0, 1, 2].map(|k| near(3 * (v % cells) + k))).collect()
}

/// Each vertex three times, in an order that jumps about.
pub fn ids_of(count: usize) -> Vec<u32> {
    (0..3 * count).map(|i| (i * 7919 % count) as u32).collect()
}

pub fn large(random: &mut Random) -> Vec<Welding> {
    let most = MOST_FLOATS / 3;
    let mut all: Vec<Welding> = [
        scattered(most, random),
        lattice(most),
        globe(most),
        crowded(most, 5461, 0.0, random),
        crowded(most, 5461, 0.3, random),
        crowded(most, 1, 0.3, random),
        vec![-0.0; MOST_FLOATS],
        (0..MOST_FLOATS).map(|i| if i % 2 == 0 { f32::MAX } else { f32::MIN }).collect(),
    ]
    .into_iter()
    .map(|vertices| Welding { ids: ids_of(vertices.len() / 3), vertices, eps: 1e-4 })
    .collect();
    // one float too many, and fewer than three
    for floats in [MOST_FLOATS + 1, MOST_FLOATS - 1, 0, 1, 2, 3] {
        all.push(Welding { vertices: vec![1.0; floats], ids: some_ids(99, floats / 3, random), eps: 1e-4 });
    }
    all
}
