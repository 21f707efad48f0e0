//! One lent area: noise before a call, and after it a look at every place, at the front and at the rims too.

use crate::compute::nans::nan;
use crate::random::Random;

/// So many places are watched before an area and behind it.
pub const RIM: usize = 32;

/// An area begins at one of so many places, so that each mesh meets other noise and the noise need not be made anew.
pub const BEGINNINGS: usize = 4096;

pub struct Area<T> {
    pub noise: Vec<T>,
    /// Between two calls, the same as `noise`.
    pub now: Vec<T>,
    pub from: usize,
    random: Random,
    make: fn(usize, &mut Random) -> T,
}

/// No word is 0, so that one cleared too many shows and one left too. Small numbers and NaN patterns come in stretches.
pub fn noise_word(place: usize, random: &mut Random) -> u32 {
    let any = random.bits() as u32;
    match place / 61 % 4 {
        0 => any % 200 + 1,
        1 => any | 0x7f80_0001,
        _ => any.max(1),
    }
}

/// For an area of floats: every other stretch is of NaNs, of all sorts.
pub fn noise_float(place: usize, random: &mut Random) -> u32 {
    match place / 61 % 2 {
        0 => nan(random),
        _ => noise_word(place / 2, random),
    }
}

pub fn noise_byte(place: usize, random: &mut Random) -> u8 {
    match place / 251 % 4 {
        0 => 1,
        _ => (random.bits() as u8).max(1),
    }
}

impl<T: Copy + PartialEq> Area<T> {
    pub fn new(seed: u64, make: fn(usize, &mut Random) -> T) -> Area<T> {
        Area { noise: Vec::new(), now: Vec::new(), from: RIM, random: Random::new(seed), make }
    }

    pub fn lend(&mut self, length: usize) -> &mut [T] {
        for place in self.noise.len()..self.from + length + RIM {
            let word = (self.make)(place, &mut self.random);
            self.noise.push(word);
            self.now.push(word);
        }
        &mut self.now[self.from..self.from + length]
    }

    /// The first place, counted from where the area begins, that does not hold what it should: with what it holds and
    /// what it should. That is the front in front, and elsewhere what was there before the call.
    pub fn wrong(&self, length: usize, front: &[T]) -> Option<(i64, T, T)> {
        let (start, from, end) = (self.from - RIM, self.from, self.from + length + RIM);
        let behind = from + front.len();
        let (now, noise) = (&self.now, &self.noise);
        if now[from..behind] == *front
            && now[start..from] == noise[start..from]
            && now[behind..end] == noise[behind..end]
        {
            return None;
        }
        let right = |i: usize| if (from..behind).contains(&i) { front[i - from] } else { noise[i] };
        let wrong = (start..end).find(|&i| now[i] != right(i));
        wrong.map(|i| (i as i64 - from as i64, now[i], right(i)))
    }

    /// The first place that is wrong. Then all is noise again; only what was written needs it.
    pub fn settle(&mut self, length: usize, front: &[T]) -> Option<(i64, T, T)> {
        let wrong = self.wrong(length, front);
        let written = match wrong {
            None => self.from..self.from + front.len(),
            Some(_) => self.from - RIM..self.from + length + RIM,
        };
        self.now[written.clone()].copy_from_slice(&self.noise[written]);
        wrong
    }

    /// The first place that is not as it was before the call, outside a front of any contents.
    pub fn changed(&self, length: usize, front: usize) -> Option<(i64, T, T)> {
        self.wrong(length, &self.now[self.from..self.from + front.min(length)])
    }

    /// All that it holds, rims included. Then all is noise again.
    pub fn take(&mut self, length: usize) -> Vec<T> {
        let places = self.from - RIM..self.from + length + RIM;
        let left = self.now[places.clone()].to_vec();
        self.now[places.clone()].copy_from_slice(&self.noise[places]);
        left
    }
}

/// In words: an area's first wrong place.
pub fn told<T: std::fmt::LowerHex>(area: &str, (place, is, right): (i64, T, T)) -> String {
    format!("{area} {place} is {is:x}, should be {right:x}")
}
