//! `oracle speed stl`: how long reading a file takes, and how long a plain form in Rust that tries the same and fills the same two slices,
//! in one process.

use super::areas::Areas;
use super::capi;
use super::damage::many;
use super::file::{FRONT, HEADER, MOST, MOST_LARGE, RECORD};
use crate::random::Random;
use std::hint::black_box;
use std::time::Instant;

/// Seconds that a race takes at least, and how many turns.
const ENOUGH: f64 = 0.2;
const TURNS: usize = 15;
/// Seconds that a turn takes at least: a call on a small file is too short to be measured.
const TURN: f64 = 0.0005;

pub struct Row {
    pub routine: &'static str,
    pub triangles: usize,
    /// Seconds a call.
    pub port: f64,
    pub rust: f64,
}

/// The program's form on a small file and a full one; the large form there too, and at a quarter of its most triangles, a half and all.
pub fn rows() -> impl Iterator<Item = Row> {
    let large = [MOST, MOST_LARGE / 4, MOST_LARGE / 2, MOST_LARGE];
    let small = [12, MOST].map(|triangles| ("read_stl", MOST, triangles));
    let large = large.map(|triangles| ("read_stl_large", MOST_LARGE, triangles));
    small.into_iter().chain(large).map(|(routine, most, triangles)| race(routine, most, triangles))
}

/// The number of triangles, or the refusal.
pub fn plain(most: usize, bytes: &[u8], vertices: &mut [f32], ids: &mut [u32]) -> Result<u32, u32> {
    let (front, records) = bytes.split_at_checked(FRONT).ok_or(5u32)?;
    let count = u32::from_le_bytes([front[HEADER], front[HEADER + 1], front[HEADER + 2], front[HEADER + 3]]);
    let n = count as usize;
    if n > most {
        return Err(6);
    }
    if records.len() != RECORD * n {
        return Err(5);
    }
    if vertices.len() < 9 * n || ids.len() < 3 * n {
        return Err(3);
    }
    for (record, corners) in records.chunks_exact(RECORD).zip(vertices.chunks_exact_mut(9)) {
        for (word, to) in record[12..48].chunks_exact(4).zip(corners) {
            *to = f32::from_le_bytes([word[0], word[1], word[2], word[3]]);
        }
    }
    ids[..3 * n].iter_mut().zip(0..).for_each(|(id, i)| *id = i);
    Ok(count)
}

/// The best of several turns, one after the other.
fn race(routine: &'static str, most: usize, triangles: usize) -> Row {
    let mut bytes = many(&mut Random::new(triangles as u64), triangles).bytes();
    let file = bytes.clone();
    let (mut bits, mut ids) = (vec![1; 9 * triangles], vec![1; 3 * triangles]);
    let (mut floats, mut names) = (vec![1.0; 9 * triangles], vec![1; 3 * triangles]);
    let mut port = || capi::read(most, Areas { bytes: &mut bytes, vertices: &mut bits, ids: &mut ids });
    let mut rust = || plain(most, black_box(&file), &mut floats, &mut names);
    let once = time(1, &mut port).min(time(1, &mut rust));
    let calls = (TURN / once).ceil() as usize;
    let mut row = Row { routine, triangles, port: f64::INFINITY, rust: f64::INFINITY };
    let (begun, mut turns) = (Instant::now(), 0);
    while turns < TURNS || begun.elapsed().as_secs_f64() < ENOUGH {
        row.port = row.port.min(time(calls, &mut port));
        row.rust = row.rust.min(time(calls, &mut rust));
        turns += 1;
    }
    row
}

fn time<T>(calls: usize, mut f: impl FnMut() -> T) -> f64 {
    let start = Instant::now();
    for _ in 0..calls {
        black_box(f());
    }
    start.elapsed().as_secs_f64() / calls as f64
}
