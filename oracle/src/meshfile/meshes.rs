//! Meshes by chance for the mesh file: lists of every length and words of every pattern, whatever they would be as numbers.

use super::promise::Call;
use crate::compute::nans::nan;
use crate::file::{Flags, Patterns, MOST};
use crate::random::Random;

/// Zeros, subnormal and normal ends, infinities, NaNs quiet and signalling with and without digits, and some numbers, of both signs.
const ENDS: [u32; 14] = [
    0,
    1,
    0x007f_ffff,
    0x0080_0000,
    0x3f80_0000,
    0x3a83_126f,
    0x7f7f_ffff,
    0x7f80_0000,
    0x7f80_0001,
    0x7fbf_ffff,
    0x7fc0_0000,
    0x7fc0_0001,
    0x7fff_fffe,
    0x7fff_ffff,
];

const SIGN: u32 = 0x8000_0000;

/// Mostly short; the ends often, and now and then anything.
pub fn length(random: &mut Random) -> usize {
    match random.below(32) {
        0..=2 => random.pick(&[0, 1, MOST - 1, MOST]),
        3 => random.below(MOST + 1),
        _ => {
            let most = 1 << random.below(8);
            random.below(most + 1)
        }
    }
}

/// One word: any bits, a NaN, or an end of either sign.
pub fn word(random: &mut Random) -> u32 {
    match random.below(4) {
        0 => nan(random),
        1 => random.pick(&ENDS) | (SIGN * random.below(2) as u32),
        _ => random.bits() as u32,
    }
}

/// So many words of one sort, by chance. One sort has no two bytes alike within 256, so that none can be in another's place.
pub fn words(random: &mut Random, length: usize) -> Vec<u32> {
    let (sort, from) = (random.below(8), random.bits() as u8);
    let byte = |at: usize| from.wrapping_add(at as u8);
    let mut each = |at: usize| match sort {
        0 | 1 => random.bits() as u32,
        2 | 3 => nan(random),
        4 => random.below(length) as u32,
        5 => u32::from_le_bytes([0, 1, 2, 3].map(|k| byte(4 * at + k))),
        _ => word(random),
    };
    (0..length).map(&mut each).collect()
}

/// All ten pairs of flags, one after the other.
pub fn flags(number: u64) -> Flags {
    Flags { clip: number % 10 >= 5, defect: (number % 5) as u8 }
}

pub fn mesh(random: &mut Random, flags: Flags) -> Patterns {
    let (floats, ids) = (length(random), length(random));
    Patterns { unit: word(random), vertices: words(random, floats), ids: words(random, ids), flags }
}

/// A short one, for a file to be damaged.
pub fn short(random: &mut Random, flags: Flags) -> Patterns {
    let (floats, ids) = (random.below(13), random.below(13));
    Patterns { unit: word(random), vertices: words(random, floats), ids: words(random, ids), flags }
}

/// What a call that has to be refused is passed: the mesh, longer where there have to be too many floats or ids, flags that may be
/// none, and the bytes of its area.
pub struct Refused {
    pub mesh: Patterns,
    pub clip: u32,
    pub defect: u32,
    pub room: usize,
}

impl Refused {
    /// Every set of faults in turn but the empty one: flags, too many, too short.
    pub fn new(random: &mut Random, number: u64) -> Refused {
        let faults = 1 + number % 7;
        let mut mesh = short(random, flags(number));
        let (mut clip, mut defect) = (mesh.flags.clip as u32, mesh.flags.defect as u32);
        if faults & 1 > 0 {
            let which = random.below(3);
            clip = if which != 1 { no_flag(random, 1) } else { clip };
            defect = if which != 0 { no_flag(random, 4) } else { defect };
        }
        if faults & 2 > 0 {
            let which = random.below(3);
            if which != 1 {
                mesh.vertices.resize(too_many(random), 0x7f80_0001);
            }
            if which != 0 {
                mesh.ids.resize(too_many(random), 1);
            }
        }
        let asks = Call::of(&mesh).asks();
        let room = match random.below(4) {
            _ if faults & 4 == 0 => asks + random.pick(&[0, 0, 1, 9]),
            0 => random.below(asks),
            1 => 0,
            _ => asks - 1,
        };
        Refused { mesh, clip, defect, room }
    }

    pub fn call(&self) -> Call<'_> {
        Call { clip: self.clip, defect: self.defect, ..Call::of(&self.mesh) }
    }
}

/// A value above the greatest flag: the next, one whose low byte or half is a flag, with a high bit, or any.
fn no_flag(random: &mut Random, greatest: u32) -> u32 {
    let low = random.below(greatest as usize + 1) as u32;
    match random.below(6) {
        0 | 1 => greatest + 1,
        2 => random.within(greatest as i64 + 1, 255) as u32,
        3 => low | 0x100 << random.below(24),
        4 => u32::MAX - low,
        _ => (random.bits() as u32).max(greatest + 1),
    }
}

fn too_many(random: &mut Random) -> usize {
    random.pick(&[MOST + 1, MOST + 1, MOST + 1, MOST + 2, MOST + 3, MOST + 4, 2 * MOST, 4096])
}
