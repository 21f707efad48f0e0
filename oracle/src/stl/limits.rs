//! Every limit of a reader by name, each once: lengths by counts, and files of a length that fits or is a little off.

use super::damage::{counted, many, COUNTS, LENGTHS, OFF};
use super::dress::dressed;
use super::file::{corners, Stl, MOST_LARGE};
use crate::random::Random;
use crate::solids::Shape;

/// Triangles of files whose length fits.
const FITTING: [usize; 6] = [0, 1, 2, 169, 170, 171];
const LARGE: [usize; 3] = [MOST_LARGE - 1, MOST_LARGE, MOST_LARGE + 1];

/// Each with its name: about 300, and always the same.
pub fn limits() -> impl Iterator<Item = (String, Vec<u8>)> {
    let cube = dressed(&mut Random::new(1), &corners(&Shape::cube(40.0)));
    let filled = cube.clone();
    let by_count = LENGTHS.into_iter().flat_map(move |long| {
        let filled = filled.clone();
        COUNTS.into_iter().map(move |count| {
            (format!("{long} bytes, count {count}"), counted(filled.bytes(), long, count.to_le_bytes()))
        })
    });
    let big_endian = [0u32, 1, 170].into_iter().map(move |n| {
        let name = format!("count {n} big-endian");
        (name, Stl { count: n.to_be_bytes(), ..sized(n as usize) }.bytes())
    });
    by_count.chain(big_endian).chain(FITTING.into_iter().chain(LARGE).flat_map(fitting))
}

fn sized(triangles: usize) -> Stl {
    many(&mut Random::new(triangles as u64), triangles)
}

/// At its length, and a little off. Those of the large form are long, so of them there are fewer.
fn fitting(triangles: usize) -> impl Iterator<Item = (String, Vec<u8>)> {
    let stl = sized(triangles);
    let bytes = stl.bytes();
    let off = OFF.into_iter().filter(move |off| triangles < 1000 || off.abs() == 1);
    [0].into_iter().chain(off).map(move |off| {
        let long = bytes.len().saturating_add_signed(off);
        (format!("{triangles} triangles, {off:+} bytes"), counted(bytes.clone(), long, stl.count))
    })
}
