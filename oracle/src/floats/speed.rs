//! `oracle speed floats`: how long a helper takes, and how long Rust's own operation, in one process.
//!
//! Both are called through a function pointer, so neither is inlined, on the same patterns and on one answer each: the
//! sum keeps the compiler from leaving a call out.

use super::helpers::{Helper, Width, HELPERS};
use super::patterns::by_chance;
use crate::random::Random;
use std::hint::black_box;
use std::time::Instant;

/// So many that a processor cannot learn their branches by heart: with 4,096 it does.
const PATTERNS: usize = 1 << 16;
const ROUNDS: usize = 10;
const BEST_OF: usize = 25;

pub struct Row {
    pub name: &'static str,
    pub on: &'static str,
    pub port: f64,
    pub rust: f64,
}

pub fn rows() -> Vec<Row> {
    let mut rows = Vec::new();
    for helper in &HELPERS {
        for (on, make) in [("values of a mesh", of_a_mesh as fn(Width, &mut Random) -> u64), ("any bits", any_bits)] {
            let mut random = Random::new(7);
            // a root is only asked of what is not below zero
            let kept = if helper.name == "root64" { helper.width.sign() - 1 } else { u64::MAX };
            let mut one = || make(helper.width, &mut random) & kept;
            let pairs: Vec<(u64, u64)> = (0..PATTERNS).map(|_| (one(), one())).collect();
            let (port, rust) = race(helper, &pairs);
            rows.push(Row { name: helper.name, on, port, rust });
        }
    }
    rows
}

/// Numbers as they come up in a record: lengths, and areas and volumes made of them, of either sign.
fn of_a_mesh(width: Width, random: &mut Random) -> u64 {
    let x = random.between(-1.0, 1.0) * 10f64.powi(random.within(-3, 6) as i32);
    match width {
        Width::F32 => (x as f32).to_bits() as u64,
        Width::F64 => x.to_bits(),
    }
}

fn any_bits(width: Width, random: &mut Random) -> u64 {
    by_chance(width, random, 0)
}

/// Nanoseconds a call, the best of several runs that take turns.
fn race(helper: &Helper, pairs: &[(u64, u64)]) -> (f64, f64) {
    let mut best = (f64::INFINITY, f64::INFINITY);
    for _ in 0..BEST_OF {
        best.0 = best.0.min(time(helper.port, pairs));
        best.1 = best.1.min(time(helper.plain, pairs));
    }
    best
}

fn time(f: fn(u64, u64) -> u64, pairs: &[(u64, u64)]) -> f64 {
    let f = black_box(f);
    let start = Instant::now();
    let mut sum = 0u64;
    for _ in 0..ROUNDS {
        for &(x, y) in pairs {
            sum = sum.wrapping_add(f(x, y));
        }
    }
    black_box(sum);
    start.elapsed().as_secs_f64() * 1e9 / (ROUNDS * pairs.len()) as f64
}
