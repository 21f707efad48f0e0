//! `oracle speed weld`: how long a weld takes, and how long the original's, in one process.

use super::capi;
use super::meshes::{crowded, globe, ids_of, lattice, scattered, MOST_FLOATS};
use crate::mesh::qto::probe;
use crate::random::Random;
use std::hint::black_box;
use std::time::Instant;

const BEST_OF: usize = 15;

const CELLS: usize = 5461;

pub struct Row {
    pub on: String,
    pub vertices: usize,
    pub port: f64,
    pub rust: f64,
}

pub fn rows() -> Vec<Row> {
    let most = MOST_FLOATS / 3;
    let random = &mut Random::new(5);
    let mut rows: Vec<Row> =
        [64, 16, 4].iter().map(|share| race("distinct, by chance", scattered(most / share, random))).collect();
    for (on, vertices) in [
        ("distinct, by chance", scattered(most, random)),
        ("distinct, a lattice", lattice(most)),
        ("distinct, a sphere", globe(most)),
        ("six a cell, the same", crowded(most, CELLS, 0.0, random)),
        ("six a cell, apart by up to 0.06 mm", crowded(most, CELLS, 0.3, random)),
        ("all in one cell", crowded(most, 1, 0.3, random)),
        ("cells against the hash", against_hash(most)),
    ] {
        rows.push(race(on, vertices));
    }
    rows
}

/// Cells whose searches all start at one row: numbers x, y and z with one hash. It weighs them by three odd numbers.
fn against_hash(count: usize) -> Vec<f32> {
    const ODD: [u32; 3] = [1_640_531_527, 1_052_792_407, 779_470_673];
    let inverse = (0..5).fold(ODD[2], |x, _| x.wrapping_mul(2u32.wrapping_sub(ODD[2].wrapping_mul(x))));
    let places = (0..4096 * 4096u32).map(|i| (i / 4096, i % 4096));
    let all = places.filter_map(|(x, y)| {
        let others = x.wrapping_mul(ODD[0]).wrapping_add(y.wrapping_mul(ODD[1]));
        // a cell from zero up counts twice, so that the hash knows z up to 2^31
        let z = 0u32.wrapping_sub(others).wrapping_mul(inverse) & 0x7fff_ffff;
        (z < 1 << 22).then(|| [x, y, z].map(|k| k as f32))
    });
    all.take(count).flatten().collect()
}

/// Milliseconds, the best of several runs that take turns.
fn race(on: &str, vertices: Vec<f32>) -> Row {
    let count = vertices.len() / 3;
    let ids = ids_of(count);
    let eps = if on.contains("hash") { 1.0 } else { 1e-4 };
    let mut part = vec![1; 8 * count + ids.len()];
    let mut row = Row { on: on.into(), vertices: count, port: f64::INFINITY, rust: f64::INFINITY };
    for _ in 0..BEST_OF {
        row.port = row.port.min(time(|| capi::welded_indices(&vertices, &ids, eps, &mut part)));
        row.rust = row.rust.min(time(|| probe::welded_indices(&vertices, &ids, eps)));
    }
    row
}

fn time<T>(f: impl FnOnce() -> T) -> f64 {
    let start = Instant::now();
    black_box(f());
    start.elapsed().as_secs_f64() * 1e3
}
