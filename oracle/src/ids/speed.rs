//! `oracle speed ids`: how long a routine takes on a list, and how long the original, in one process. For pieces the
//! other side is a plain union-find over a `HashMap` of edges.

use super::lists::{boxes, fan, mixed, soup, torus, Shape};
use super::routines::{Routine, MOST_IDS, ROUTINES};
use crate::random::Random;
use std::collections::HashSet;
use std::hint::black_box;
use std::time::Instant;

/// At least so many turns, and for so many seconds.
const BEST_OF: usize = 15;
const ENOUGH: f64 = 0.1;

pub struct Row {
    pub name: &'static str,
    pub on: String,
    pub ids: usize,
    pub port: f64,
    pub rust: f64,
}

const SHAPES: [(&str, Shape); 4] = [("torus", torus), ("soup", soup), ("fan", fan), ("boxes", boxes)];

/// Every routine on each shape below the limit, as it comes, and at the limit.
pub fn rows() -> Vec<Row> {
    let mut rows = Vec::new();
    for routine in &ROUTINES {
        for (name, shape) in SHAPES {
            for share in [64, 16, 4] {
                rows.push(race(routine, name.into(), &shape(MOST_IDS / 3 / share)));
            }
        }
        rows.extend(at_the_limit(routine));
    }
    rows
}

/// A routine on each shape at the limit, as it comes and with ids and triangles mixed up.
pub fn at_the_limit(routine: &Routine) -> impl Iterator<Item = Row> + '_ {
    SHAPES.into_iter().flat_map(|(name, shape)| {
        let ids = shape(MOST_IDS / 3);
        let apart = mixed(&ids, &mut Random::new(5));
        [race(routine, name.into(), &ids), race(routine, format!("{name}, mixed up"), &apart)]
    })
}

/// Ids chosen against the hashes.
pub fn worst() -> Vec<Row> {
    let lists = [
        ("edge_chain", "ids against the hash", against_edges()),
        ("pieces", "edges against the first pass's hash", against_first_pass()),
        ("pieces", "edges against every pass's hash", against_every_pass()),
    ];
    let named = |name: &str| ROUTINES.iter().find(|routine| routine.name == name).expect("a routine of that name");
    lists.iter().map(|(name, on, ids)| best_of(1, 0.0, named(name), (*on).into(), ids)).collect()
}

/// x with x * odd = 1 among the numbers below 2^32.
fn inverse(odd: u32) -> u32 {
    (0..5).fold(odd, |x, _| x.wrapping_mul(2u32.wrapping_sub(odd.wrapping_mul(x))))
}

/// Triangles whose edges all start their search within some rows of each other.
fn against_edges() -> Vec<u32> {
    let (low, high) = (517_785_211u32, 3_599_898_067u32);
    let both = low.wrapping_add(high);
    let step = inverse(both >> both.trailing_zeros());
    let (to_b, to_c) = (inverse(low), inverse(high));
    let mut ids = Vec::with_capacity(MOST_IDS);
    let mut a = 0u32;
    while ids.len() < MOST_IDS {
        a = a.wrapping_add(step);
        let b = a.wrapping_add(to_b);
        let c = b.wrapping_add(to_c);
        if a < b && b < c {
            ids.extend([a, b, c]);
        }
    }
    ids
}

/// What the piece count makes the factors of its hash with.
fn stirred(x: u32) -> u32 {
    let y = x.wrapping_mul(2_246_822_507);
    let z = y.wrapping_add(y / 8192);
    let w = z.wrapping_mul(3_266_489_909);
    w.wrapping_add(w / 65_536) | 1
}

/// The two factors of a pass of the piece count from a triangle on.
fn factors(from: usize) -> (u32, u32) {
    let low = stirred(from as u32 + 795);
    (low, stirred(low))
}

/// A triangle whose three edges start at the first of 32,768 rows in a pass with these factors, and are of the first class.
fn at_first_row((low, high): (u32, u32), random: &mut Random) -> [u32; 3] {
    const ROW: usize = 1 << 16;
    let first_class = |x: u32, y: u32| (x as u64 + y as u64) / 8 % 3 == 0;
    let both = low.wrapping_add(high);
    let even = both.trailing_zeros();
    loop {
        // a * low + b * high and b * (low + high) are below half a row's share of the hashes, and c lies so much behind b
        let (ab, b, on) = (random.below(ROW) as u32, random.below(ROW >> even) as u32, random.below(ROW) as u32);
        let b = b.wrapping_mul(inverse(both >> even));
        let c = b.wrapping_add(on.wrapping_mul(inverse(high)));
        let a = ab.wrapping_sub(b.wrapping_mul(high)).wrapping_mul(inverse(low));
        if a < b && b < c && first_class(a, b) && first_class(b, c) && first_class(a, c) {
            return [a, b, c];
        }
    }
}

/// All edges start at one row in the first pass.
fn against_first_pass() -> Vec<u32> {
    let mut random = Random::new(7);
    (0..MOST_IDS / 3).flat_map(|_| at_first_row(factors(0), &mut random)).collect()
}

/// Each pass meets more edges that start at one row than a search looks at rows, so that it stops there.
fn against_every_pass() -> Vec<u32> {
    const LIMIT: usize = 256;
    let mut random = Random::new(7);
    let mut triangles = vec![[0, 1, 2]];
    while triangles.len() < MOST_IDS / 3 {
        let hash = factors(triangles.len() - 1);
        let mut edges = HashSet::new();
        while edges.len() <= LIMIT {
            let [a, b, c] = at_first_row(hash, &mut random);
            edges.extend([(a, b), (b, c), (a, c)]);
            triangles.push([a, b, c]);
        }
    }
    triangles.truncate(MOST_IDS / 3);
    triangles.concat()
}

pub fn race(routine: &Routine, on: String, ids: &[u32]) -> Row {
    best_of(BEST_OF, ENOUGH, routine, on, ids)
}

/// Milliseconds, the best of several runs that take turns.
fn best_of(runs: usize, enough: f64, routine: &Routine, on: String, ids: &[u32]) -> Row {
    let mut work = vec![1; (routine.needed)(ids.len())];
    let mut row = Row { name: routine.name, on, ids: ids.len(), port: f64::INFINITY, rust: f64::INFINITY };
    let begun = Instant::now();
    let mut done = 0;
    while done < runs || begun.elapsed().as_secs_f64() < enough {
        row.port = row.port.min(time(|| (routine.port)(ids, &mut work)));
        row.rust = row.rust.min(time(|| (routine.rust)(ids)));
        done += 1;
    }
    row
}

/// So many calls of the port on a list.
pub fn repeat(routine: &Routine, ids: &[u32], times: usize) {
    let mut work = vec![1; (routine.needed)(ids.len())];
    for _ in 0..times {
        black_box((routine.port)(black_box(ids), &mut work));
    }
}

fn time(mut f: impl FnMut() -> u32) -> f64 {
    let start = Instant::now();
    black_box(f());
    start.elapsed().as_secs_f64() * 1e3
}
