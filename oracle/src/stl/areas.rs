//! What a call of a reader is passed and lent: noise before it, and after it a look at every place.

use crate::area::{noise_byte, noise_float, noise_word, told, Area, BEGINNINGS, RIM};
use crate::compute::nans::Nans;
use crate::random::Random;

/// The slices of one call. Floats are in bits: there a NaN is a word like any other.
pub struct Areas<'a> {
    /// The file, to be read and not to be written: a port that does write it is found.
    pub bytes: &'a mut [u8],
    /// Lent.
    pub vertices: &'a mut [u32],
    pub ids: &'a mut [u32],
}

/// The lengths of the two lent areas, in floats and ids.
#[derive(Clone, Copy, Debug, PartialEq)]
pub struct Lent {
    pub vertices: usize,
    pub ids: usize,
}

impl Lent {
    /// What a file of so many triangles asks for, and no more.
    pub fn exactly(triangles: usize) -> Lent {
        Lent { vertices: 9 * triangles, ids: 3 * triangles }
    }

    pub fn holds(&self, asked: Lent) -> bool {
        self.vertices >= asked.vertices && self.ids >= asked.ids
    }
}

/// All that calls are lent, one call after the other.
pub struct Lending {
    bytes: Area<u8>,
    vertices: Area<u32>,
    ids: Area<u32>,
}

pub fn is_nan(bits: u32) -> bool {
    f32::from_bits(bits).is_nan()
}

impl Lending {
    pub fn new(seed: u64) -> Lending {
        Lending {
            bytes: Area::new(3 * seed, noise_byte),
            vertices: Area::new(3 * seed + 1, noise_float),
            ids: Area::new(3 * seed + 2, noise_word),
        }
    }

    /// The next calls find other noise.
    pub fn elsewhere(&mut self, random: &mut Random) {
        let mut from = || RIM + random.below(BEGINNINGS);
        (self.bytes.from, self.vertices.from, self.ids.from) = (from(), from(), from());
    }

    pub fn lend(&mut self, bytes: &[u8], lent: Lent) -> Areas<'_> {
        self.bytes.lend(bytes.len()).copy_from_slice(bytes);
        Areas {
            bytes: self.bytes.lend(bytes.len()),
            vertices: self.vertices.lend(lent.vertices),
            ids: self.ids.lend(lent.ids),
        }
    }

    /// The mesh that a call left in front: so many floats, in bits, and so many ids.
    pub fn read(&mut self, front: Lent) -> (Vec<u32>, Vec<u32>) {
        (self.vertices.lend(front.vertices).to_vec(), self.ids.lend(front.ids).to_vec())
    }

    /// The first fault of each area after a call that had to leave these vertices and ids in front, and all behind them as it
    /// was. In front a NaN may have other digits: they are outside the promise. Then all is noise again.
    pub fn settle(&mut self, bytes: &[u8], lent: Lent, vertices: &[u32], ids: &[u32]) -> Vec<String> {
        let now = self.vertices.lend(lent.vertices).iter();
        let front: Vec<u32> =
            now.zip(vertices).map(|(now, right)| if is_nan(*now) && is_nan(*right) { *now } else { *right }).collect();
        let file = self.bytes.settle(bytes.len(), bytes).map(|wrong| told("byte", wrong));
        let floats = self.vertices.settle(lent.vertices, &front).map(|wrong| told("vertex float", wrong));
        let ids = self.ids.settle(lent.ids, ids).map(|wrong| told("id", wrong));
        [file, floats, ids].into_iter().flatten().collect()
    }

    /// The NaNs that stood in the area of vertices behind so many floats.
    pub fn nans_behind(&self, lent: Lent, front: usize) -> Nans {
        let from = self.vertices.from;
        Nans::among(&self.vertices.noise[from + front.min(lent.vertices)..from + lent.vertices])
    }
}

#[cfg(test)]
mod tests {
    use super::*;

    /// No routine that keeps to its slices can write to a rim.
    #[test]
    fn every_place_is_compared() {
        let (lent, bytes) = (Lent { vertices: 5, ids: 4 }, [7; 9]);
        let mut lending = Lending::new(1);
        let mut found = |place: &str, spoil: fn(&mut Lending)| {
            lending.lend(&bytes, lent).vertices[..2].copy_from_slice(&[1, 0x7fc0_0000]);
            spoil(&mut lending);
            let found = lending.settle(&bytes, lent, &[1, 0xff80_0001], &[]);
            let told = found.iter().all(|told| told.starts_with(&format!("{place} is ")));
            assert!(told && found.len() == !place.is_empty() as usize, "{place}: {found:?}");
        };
        found("", |_| {});
        found("", |all| all.vertices.now[RIM + 1] = 0x7fc0_1234);
        found("byte -1", |all| all.bytes.now[RIM - 1] = 0);
        found("byte 8", |all| all.bytes.now[RIM + 8] = 6);
        found("byte 9", |all| all.bytes.now[RIM + 9] = 0);
        found("vertex float -32", |all| all.vertices.now[0] = 0);
        found("vertex float 0", |all| all.vertices.now[RIM] = 0);
        found("vertex float 1", |all| all.vertices.now[RIM + 1] = 0x7f80_0000);
        // a NaN that has to stay keeps its digits
        found("vertex float 2", |all| all.vertices.now[RIM + 2] ^= 2);
        found("vertex float 5", |all| all.vertices.now[RIM + 5] = 0);
        found("id 0", |all| all.ids.now[RIM] = 0);
        found("id 4", |all| all.ids.now[RIM + 4] = 0);
        found("", |_| {});
    }
}
