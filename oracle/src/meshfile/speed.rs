//! `oracle speed mesh-file`: how long writing and reading a file take, and how long plain forms in Rust that try the same, in one process:
//! those that make new vectors, and those that fill the same slices.

use super::areas::{Reading, Writing};
use super::capi;
use super::meshes::words;
use super::promise::{counts, Call};
use crate::file::{length, parts, words as words_of, write_patterns, Flags, Parts, Patterns, MOST};
use crate::linked::bits;
use crate::random::Random;
use crate::solids::Shape;
use std::hint::black_box;
use std::time::Instant;

/// Seconds that a race takes at least, and how many turns.
const ENOUGH: f64 = 0.4;
const TURNS: usize = PAGE / STEP;
/// Seconds that a turn takes at least: a call on a small file is too short to be measured.
const TURN: f64 = 0.0005;

pub struct Row {
    pub routine: &'static str,
    pub floats: usize,
    pub ids: usize,
    /// Seconds a call.
    pub port: f64,
    /// Of the form that makes new vectors.
    pub vectors: f64,
    /// Of the form that fills the same slices.
    pub slices: f64,
}

/// A new file, or the refusal: a vector of the right length, filled as a slice is, which is quicker than to push word by word.
pub fn made(call: &Call) -> Result<Vec<u8>, u32> {
    let mut bytes = vec![0; call.asks()];
    write(call, &mut bytes)?;
    Ok(bytes)
}

/// A new mesh, or the refusal: vectors of the right lengths, filled likewise.
pub fn found(bytes: &[u8]) -> Result<Patterns, u32> {
    let Parts { floats, ids, flags, .. } = parts(bytes)?;
    let (mut vertices, mut names, mut counts) = (vec![0; floats.len() / 4], vec![0; ids.len() / 4], [0; 5]);
    read(bytes, &mut vertices, &mut names, &mut counts)?;
    Ok(Patterns { unit: counts[2], vertices, ids: names, flags })
}

/// The file's length, or the refusal.
pub fn write(call: &Call, bytes: &mut [u8]) -> Result<u32, u32> {
    let Call { unit, vertices, ids, clip, defect } = *call;
    if clip > 1 || defect > 4 {
        return Err(5);
    }
    if vertices.len() > MOST || ids.len() > MOST {
        return Err(6);
    }
    let long = length(vertices.len(), ids.len());
    let to = bytes.get_mut(..long).ok_or(3u32)?;
    let to = put_words(to, 1, &[unit]);
    let to = put_words(to, 2, vertices);
    let to = put_words(to, 3, ids);
    put_header(to, 4, 2).copy_from_slice(&[clip as u8, defect as u8]);
    Ok(long as u32)
}

/// What is left behind the header.
fn put_header(to: &mut [u8], kind: u16, length: usize) -> &mut [u8] {
    let (header, rest) = to.split_at_mut(6);
    header[..4].copy_from_slice(&(length as u32).to_le_bytes());
    header[4..].copy_from_slice(&kind.to_le_bytes());
    rest
}

/// What is left behind the record.
fn put_words<'a>(to: &'a mut [u8], kind: u16, words: &[u32]) -> &'a mut [u8] {
    let (payload, rest) = put_header(to, kind, 4 * words.len()).split_at_mut(4 * words.len());
    payload.chunks_exact_mut(4).zip(words).for_each(|(to, word)| to.copy_from_slice(&word.to_le_bytes()));
    rest
}

/// Nothing but what it leaves in the areas, or the refusal.
pub fn read(bytes: &[u8], vertices: &mut [u32], ids: &mut [u32], counts: &mut [u32; 5]) -> Result<(), u32> {
    let Parts { unit, floats, ids: names, flags: Flags { clip, defect } } = parts(bytes)?;
    let (n, m) = (floats.len() / 4, names.len() / 4);
    if vertices.len() < n || ids.len() < m {
        return Err(3);
    }
    vertices.iter_mut().zip(words_of(floats)).for_each(|(to, word)| *to = word);
    ids.iter_mut().zip(words_of(names)).for_each(|(to, word)| *to = word);
    let unit = words_of(unit).next().ok_or(5u32)?;
    *counts = [n as u32, m as u32, unit, clip as u32, defect as u32];
    Ok(())
}

/// What both sides of a race are passed and lent: the same slices. The file begins at another place in every turn: how far its bytes
/// are from the words that they are copied from or to, modulo a page, tells much.
struct Slices {
    mesh: Patterns,
    counts: [u32; 5],
    bytes: Vec<u8>,
    from: usize,
}

/// The places where a file may begin, and how far one is from the next.
const PAGE: usize = 4096;
const STEP: usize = 16;

type Side = fn(&mut Slices) -> u32;

impl Slices {
    fn new(mesh: &Patterns) -> Slices {
        let long = length(mesh.vertices.len(), mesh.ids.len());
        Slices { mesh: mesh.clone(), counts: counts(mesh), bytes: vec![1; PAGE + long], from: 0 }
    }

    /// All of them, the file's bytes last.
    fn parts(&mut self) -> (&mut Patterns, &mut [u32; 5], &mut [u8]) {
        let long = length(self.mesh.vertices.len(), self.mesh.ids.len());
        (&mut self.mesh, &mut self.counts, &mut self.bytes[self.from..self.from + long])
    }
}

fn port_writes(slices: &mut Slices) -> u32 {
    let (Patterns { unit, vertices, ids, flags: Flags { clip, defect } }, _, bytes) = slices.parts();
    capi::write(Writing { unit: *unit, vertices, ids, clip: *clip as u32, defect: *defect as u32, bytes })
}

fn rust_writes(slices: &mut Slices) -> u32 {
    let (mesh, _, bytes) = slices.parts();
    write(&Call::of(mesh), bytes).unwrap_or_else(|number| number)
}

fn port_reads(slices: &mut Slices) -> u32 {
    let (Patterns { vertices, ids, .. }, counts, bytes) = slices.parts();
    capi::read(Reading { bytes, vertices, ids, counts })
}

fn rust_reads(slices: &mut Slices) -> u32 {
    let (Patterns { vertices, ids, .. }, counts, bytes) = slices.parts();
    read(bytes, vertices, ids, counts).map_or_else(|number| number, |()| 0)
}

fn vectors_written(slices: &mut Slices) -> u32 {
    black_box(made(&Call::of(slices.parts().0))).map_or_else(|number| number, |file| file.len() as u32)
}

fn vectors_read(slices: &mut Slices) -> u32 {
    black_box(found(slices.parts().2)).map_or_else(|number| number, |_| 0)
}

/// A cube, a quarter of a full file and a full one; each written and read.
pub fn rows() -> impl Iterator<Item = Row> {
    let random = &mut Random::new(7);
    let full = [MOST / 4, MOST].map(|n| Patterns {
        unit: 1f32.to_bits(),
        vertices: words(random, n),
        ids: words(random, n),
        flags: Flags { clip: true, defect: 3 },
    });
    let Shape { vertices, ids } = Shape::cube(2.0);
    let cube = Patterns { vertices: bits(&vertices), ids, ..full[0].clone() };
    let meshes = [cube].into_iter().chain(full).collect::<Vec<_>>();
    meshes.into_iter().flat_map(|mesh| {
        let written = [port_writes as Side, vectors_written, rust_writes];
        [("write_mesh", written), ("read_mesh", [port_reads, vectors_read, rust_reads])]
            .map(|(routine, sides)| race(routine, &mesh, sides))
    })
}

/// The best of several turns, one after the other.
fn race(routine: &'static str, mesh: &Patterns, sides: [Side; 3]) -> Row {
    let (mut slices, file) = (Slices::new(mesh), write_patterns(mesh, true));
    let place = |slices: &mut Slices, from: usize| {
        slices.from = from;
        slices.parts().2.copy_from_slice(&file);
    };
    let call = Call::of(mesh);
    assert!(made(&call).as_ref() == Ok(&file) && found(&file).as_ref() == Ok(mesh), "so do the vectors");
    for side in [sides[0], sides[2]] {
        place(&mut slices, STEP);
        spoil(routine, &mut slices);
        side(&mut slices);
        let (now, numbers, bytes) = slices.parts();
        assert!(now == mesh && *numbers == counts(mesh) && *bytes == file, "each side does the work");
    }
    let once = sides.map(|side| time(1, side, &mut slices)).into_iter().fold(f64::INFINITY, f64::min);
    let calls = (TURN / once).ceil() as usize;
    let mut best = [f64::INFINITY; 3];
    let (begun, mut turns) = (Instant::now(), 0);
    while turns < TURNS || begun.elapsed().as_secs_f64() < ENOUGH {
        place(&mut slices, STEP * turns % PAGE);
        for (side, best) in sides.into_iter().zip(&mut best) {
            *best = best.min(time(calls, side, &mut slices));
        }
        turns += 1;
    }
    let [port, vectors, slices] = best;
    Row { routine, floats: mesh.vertices.len(), ids: mesh.ids.len(), port, vectors, slices }
}

/// Whatever the routine has to write is otherwise before it.
fn spoil(routine: &str, slices: &mut Slices) {
    let (Patterns { vertices, ids, .. }, counts, bytes) = slices.parts();
    if routine == "write_mesh" {
        bytes.iter_mut().for_each(|byte| *byte ^= 1);
    } else {
        vertices.iter_mut().chain(ids).chain(counts).for_each(|word| *word ^= 1);
    }
}

fn time(calls: usize, side: Side, slices: &mut Slices) -> f64 {
    let start = Instant::now();
    for _ in 0..calls {
        black_box(black_box(side)(black_box(&mut *slices)));
    }
    start.elapsed().as_secs_f64() / calls as f64
}
