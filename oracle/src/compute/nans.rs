//! NaNs of all sorts, and how many a call found where floats have to stay as they are. In the logic there is one NaN, so
//! that its digits stay is promised by no contract: these runs compare them bit for bit.

use crate::random::Random;

const EXPONENT: u32 = 0x7f80_0000;
const QUIET: u32 = 0x0040_0000;

/// Signalling and quiet, by their digits: the least alone, the highest alone, all of them, and for a quiet one none.
pub const ENDS: [u32; 7] = [1, 0x0020_0000, 0x003f_ffff, QUIET, QUIET | 1, QUIET | 0x0020_0000, QUIET | 0x003f_ffff];

/// The pattern of a NaN of either sign, with digits at an end or any.
pub fn nan(random: &mut Random) -> u32 {
    let any = random.bits() as u32;
    let digits = match random.below(2 * ENDS.len()) {
        end if end < ENDS.len() => ENDS[end],
        other if other % 2 == 0 => QUIET | any & (QUIET - 1),
        _ => (any & (QUIET - 1)).max(1),
    };
    any & 0x8000_0000 | EXPONENT | digits
}

/// How many, signalling and quiet.
#[derive(Clone, Copy, Debug, Default, PartialEq)]
pub struct Nans {
    pub signalling: u64,
    pub quiet: u64,
}

impl Nans {
    pub fn among(words: &[u32]) -> Nans {
        let mut nans = Nans::default();
        for digits in words.iter().filter(|&word| word & !0x8000_0000 > EXPONENT) {
            *(if digits & QUIET > 0 { &mut nans.quiet } else { &mut nans.signalling }) += 1;
        }
        nans
    }

    pub fn join(&mut self, other: Nans) {
        (self.signalling, self.quiet) = (self.signalling + other.signalling, self.quiet + other.quiet);
    }
}

/// The NaNs that calls found and left as they were, by where they stood.
#[derive(Clone, Copy, Debug, Default)]
pub struct Stayed {
    /// In surface areas: on refusals, beside zero records, behind the rows of full records.
    pub refused: Nans,
    pub zero: Nans,
    pub behind: Nans,
    /// Among the vertices that were passed.
    pub vertices: Nans,
}

impl Stayed {
    /// One call's: what it came to, the surface area's and the vertices'.
    pub fn add(&mut self, answer: u32, zero_record: bool, surfaces: Nans, vertices: Nans) {
        let place = match answer {
            0 if zero_record => &mut self.zero,
            0 => &mut self.behind,
            _ => &mut self.refused,
        };
        place.join(surfaces);
        self.vertices.join(vertices);
    }

    pub fn join(&mut self, other: &Stayed) {
        self.refused.join(other.refused);
        self.zero.join(other.zero);
        self.behind.join(other.behind);
        self.vertices.join(other.vertices);
    }

    pub fn told(&self) -> String {
        let told = |nans: Nans| format!("{} and {}", nans.signalling, nans.quiet);
        format!(
            "NaNs that stayed bit for bit, signalling and quiet: in surface areas {} on refusals, {} beside zero records, {} behind \
             rows; among vertices {}",
            told(self.refused),
            told(self.zero),
            told(self.behind),
            told(self.vertices)
        )
    }
}

#[cfg(test)]
mod tests {
    use super::*;

    #[test]
    fn all_sorts_come() {
        let random = &mut Random::new(1);
        let words: Vec<u32> = (0..10_000).map(|_| nan(random)).collect();
        assert!(words.iter().all(|&word| f32::from_bits(word).is_nan()));
        for sign in [0, 0x8000_0000] {
            for digits in ENDS {
                assert!(words.contains(&(sign | EXPONENT | digits)), "{digits:x}");
            }
        }
        let Nans { signalling, quiet } = Nans::among(&words);
        assert!(signalling > 4_000 && quiet > 4_000 && signalling + quiet == 10_000);
        let others = [0, 1, 0x7f80_0000, 0xff80_0000, 0x7f7f_ffff, 0x8000_0001].map(f32::from_bits).map(f32::to_bits);
        assert_eq!(Nans::among(&others), Nans::default());
    }
}
