//! What a call of the writer or of the reader is passed and lent: noise before it, and after it a look at every place.

use super::promise::{counts, Call};
use crate::area::{noise_byte, noise_float, noise_word, told, Area, BEGINNINGS, RIM};
use crate::compute::nans::Nans;
use crate::file::{Flags, Patterns};
use crate::random::Random;

/// The slices of a call of the writer, and what it is passed beside them. Floats are in bits.
pub struct Writing<'a> {
    pub unit: u32,
    /// To be read and not to be written: a port that does write them is found.
    pub vertices: &'a mut [u32],
    pub ids: &'a mut [u32],
    pub clip: u32,
    pub defect: u32,
    /// Lent.
    pub bytes: &'a mut [u8],
}

/// The slices of a call of the reader.
pub struct Reading<'a> {
    /// The file, to be read and not to be written.
    pub bytes: &'a mut [u8],
    /// Lent.
    pub vertices: &'a mut [u32],
    pub ids: &'a mut [u32],
    pub counts: &'a mut [u32; 5],
}

/// The lengths of the reader's two areas, in floats and ids.
#[derive(Clone, Copy, Debug, PartialEq)]
pub struct Lent {
    pub vertices: usize,
    pub ids: usize,
}

impl Lent {
    /// What a mesh asks for, and no more.
    pub fn exactly(mesh: &Patterns) -> Lent {
        Lent { vertices: mesh.vertices.len(), ids: mesh.ids.len() }
    }

    pub fn holds(&self, asked: Lent) -> bool {
        self.vertices >= asked.vertices && self.ids >= asked.ids
    }
}

/// All that calls are passed and lent, one call after the other.
pub struct Lending {
    bytes: Area<u8>,
    vertices: Area<u32>,
    ids: Area<u32>,
    counts: Area<u32>,
}

const COUNTS: usize = 5;

impl Lending {
    pub fn new(seed: u64) -> Lending {
        Lending {
            bytes: Area::new(4 * seed, noise_byte),
            vertices: Area::new(4 * seed + 1, noise_float),
            ids: Area::new(4 * seed + 2, noise_word),
            counts: Area::new(4 * seed + 3, noise_word),
        }
    }

    /// The next calls find other noise.
    pub fn elsewhere(&mut self, random: &mut Random) {
        let mut from = || RIM + random.below(BEGINNINGS);
        (self.bytes.from, self.vertices.from, self.ids.from, self.counts.from) = (from(), from(), from(), from());
    }

    pub fn to_write(&mut self, call: &Call, room: usize) -> Writing<'_> {
        let Call { unit, vertices, ids, clip, defect } = *call;
        Writing {
            unit,
            vertices: filled(&mut self.vertices, vertices),
            ids: filled(&mut self.ids, ids),
            clip,
            defect,
            bytes: self.bytes.lend(room),
        }
    }

    pub fn to_read(&mut self, bytes: &[u8], lent: Lent) -> Reading<'_> {
        Reading {
            bytes: filled(&mut self.bytes, bytes),
            vertices: self.vertices.lend(lent.vertices),
            ids: self.ids.lend(lent.ids),
            counts: self.counts.lend(COUNTS).try_into().expect("there are five"),
        }
    }

    /// So many bytes that a writer left in front.
    pub fn written(&mut self, bytes: usize) -> Vec<u8> {
        self.bytes.lend(bytes).to_vec()
    }

    /// The mesh that a reader left in front, by its own counts as far as the areas reach.
    pub fn read(&mut self, lent: Lent) -> Patterns {
        let counts = self.counts.lend(COUNTS).to_vec();
        let front = |area: &mut Area<u32>, count: u32, lent: usize| area.lend(lent.min(count as usize)).to_vec();
        Patterns {
            unit: counts[2],
            vertices: front(&mut self.vertices, counts[0], lent.vertices),
            ids: front(&mut self.ids, counts[1], lent.ids),
            flags: Flags { clip: counts[3] == 1, defect: counts[4] as u8 },
        }
    }

    /// The first fault of each area after a call that had to leave this file in front, or nothing, and all else as it was. Then all is
    /// noise again.
    pub fn settle_write(&mut self, call: &Call, room: usize, file: &[u8]) -> Vec<String> {
        let floats = self.vertices.settle(call.vertices.len(), call.vertices).map(|wrong| told("vertex float", wrong));
        let ids = self.ids.settle(call.ids.len(), call.ids).map(|wrong| told("id", wrong));
        let bytes = self.bytes.settle(room, file).map(|wrong| told("byte", wrong));
        [floats, ids, bytes].into_iter().flatten().collect()
    }

    /// The same where it had to leave this mesh in front and its counts, or nothing.
    pub fn settle_read(&mut self, bytes: &[u8], lent: Lent, mesh: Option<&Patterns>) -> Vec<String> {
        let (vertices, ids) = mesh.map_or((&[][..], &[][..]), |mesh| (&mesh.vertices[..], &mesh.ids[..]));
        let numbers = mesh.map(counts);
        let file = self.bytes.settle(bytes.len(), bytes).map(|wrong| told("byte", wrong));
        let floats = self.vertices.settle(lent.vertices, vertices).map(|wrong| told("vertex float", wrong));
        let ids = self.ids.settle(lent.ids, ids).map(|wrong| told("id", wrong));
        let numbers = self.counts.settle(COUNTS, numbers.as_ref().map_or(&[], |numbers| &numbers[..]));
        let numbers = numbers.map(|wrong| told("count", wrong));
        [file, floats, ids, numbers].into_iter().flatten().collect()
    }

    /// The NaNs that stood in the reader's area of vertices behind so many floats.
    pub fn nans_behind(&self, lent: Lent, front: usize) -> Nans {
        let from = self.vertices.from;
        Nans::among(&self.vertices.noise[from + front..from + lent.vertices])
    }
}

fn filled<'a, T: Copy + PartialEq>(area: &'a mut Area<T>, with: &[T]) -> &'a mut [T] {
    let part = area.lend(with.len());
    part.copy_from_slice(with);
    part
}

#[cfg(test)]
mod tests {
    use super::*;

    fn holds(place: &str, found: Vec<String>) {
        let told = found.iter().all(|told| told.starts_with(&format!("{place} is ")));
        assert!(told && found.len() == !place.is_empty() as usize, "{place}: {found:?}");
    }

    /// No routine that keeps to its slices can write to a rim.
    #[test]
    fn every_place_of_a_writer_is_compared() {
        let (room, file) = (7, [1, 2, 3, 4]);
        let call = Call { unit: 0, vertices: &[1, 0xff80_0001], ids: &[9; 3], clip: 0, defect: 0 };
        let mut lending = Lending::new(1);
        let mut found = |place: &str, spoil: fn(&mut Lending)| {
            lending.to_write(&call, room).bytes[..4].copy_from_slice(&file);
            spoil(&mut lending);
            holds(place, lending.settle_write(&call, room, &file));
        };
        found("", |_| {});
        found("vertex float -1", |all| all.vertices.now[RIM - 1] ^= 1);
        found("vertex float 1", |all| all.vertices.now[RIM + 1] |= 0x0040_0000);
        found("vertex float 2", |all| all.vertices.now[RIM + 2] ^= 1);
        found("id 0", |all| all.ids.now[RIM] = 0);
        found("id 3", |all| all.ids.now[RIM + 3] = 0);
        found("byte -32", |all| all.bytes.now[0] = 0);
        found("byte 3", |all| all.bytes.now[RIM + 3] = 0);
        found("byte 4", |all| all.bytes.now[RIM + 4] = 0);
        found("byte 7", |all| all.bytes.now[RIM + 7] = 0);
        found("byte 38", |all| all.bytes.now[RIM + 38] = 0);
        found("", |_| {});
    }

    #[test]
    fn every_place_of_a_reader_is_compared() {
        let (lent, bytes) = (Lent { vertices: 5, ids: 4 }, [7; 9]);
        let mesh = Patterns { unit: 0x7fc0_1234, vertices: vec![1, 0xff80_0001], ids: vec![8], ..Patterns::default() };
        let mut lending = Lending::new(1);
        let mut found = |place: &str, spoil: fn(&mut Lending)| {
            let reading = lending.to_read(&bytes, lent);
            reading.vertices[..2].copy_from_slice(&mesh.vertices);
            reading.ids[..1].copy_from_slice(&mesh.ids);
            *reading.counts = [2, 1, 0x7fc0_1234, 0, 0];
            assert_eq!(lending.read(lent), mesh);
            spoil(&mut lending);
            holds(place, lending.settle_read(&bytes, lent, Some(&mesh)));
        };
        found("", |_| {});
        found("byte 8", |all| all.bytes.now[RIM + 8] = 6);
        found("byte 9", |all| all.bytes.now[RIM + 9] = 0);
        // a NaN keeps its digits, read or not
        found("vertex float 1", |all| all.vertices.now[RIM + 1] |= 0x0040_0000);
        found("vertex float 2", |all| all.vertices.now[RIM + 2] ^= 2);
        found("vertex float 5", |all| all.vertices.now[RIM + 5] = 0);
        found("id 1", |all| all.ids.now[RIM + 1] = 0);
        found("id -1", |all| all.ids.now[RIM - 1] = 0);
        found("count 2", |all| all.counts.now[RIM + 2] = 0x7fc0_0000);
        found("count 4", |all| all.counts.now[RIM + 4] = 1);
        found("count 5", |all| all.counts.now[RIM + 5] = 0);
        found("", |_| {});
    }
}
