//! `oracle floats N`: every exported helper on the edges and on N patterns by chance, against Rust.

use super::helpers::{Answer, Helper};
use super::patterns::{by_chance, edges};
use crate::random::Random;

#[derive(Default)]
pub struct Count {
    pub agree: u64,
    pub differ: u64,
    /// Of those, how many Rust leaves open: held to document 01's rule.
    pub open: u64,
    /// The first that differ, for a look.
    pub shown: Vec<String>,
}

const SHOWN: usize = 5;

impl Count {
    pub fn add(&mut self, helper: &Helper, x: u64, y: u64) {
        let (port, rust) = ((helper.port)(x, y), (helper.rust)(x, y));
        if let Answer::Open(_) = rust {
            self.open += 1;
        }
        if port == rust.bits() {
            self.agree += 1;
        } else {
            self.differ += 1;
            if self.shown.len() < SHOWN {
                self.shown.push(format!("{} of {x:x}, {y:x}: {port:x}, Rust {:x}", helper.name, rust.bits()));
            }
        }
    }
}

pub fn on_edges(helper: &Helper) -> Count {
    let mut count = Count::default();
    for x in edges(helper.width) {
        if let Some(partners) = helper.second {
            for y in partners(helper.width, x) {
                count.add(helper, x, y);
                count.add(helper, y, x);
            }
        } else {
            count.add(helper, x, 0);
        }
    }
    count
}

pub fn on_chance(helper: &Helper, seed: u64, n: u64) -> Count {
    let mut count = Count::default();
    let mut random = Random::new(seed);
    for turn in 0..n {
        let x = by_chance(helper.width, &mut random, turn);
        let y = second(helper, &mut random, turn, x);
        count.add(helper, x, y);
    }
    count
}

/// A second value: one of its own, or one that the answer may turn at.
fn second(helper: &Helper, random: &mut Random, turn: u64, x: u64) -> u64 {
    match helper.second {
        None => 0,
        Some(partners) if random.once_in(3) => random.pick(&partners(helper.width, x)),
        Some(_) => by_chance(helper.width, random, turn / 5),
    }
}

/// All 2^32 patterns, for a helper of one f32.
pub fn on_all_32(helper: &Helper) -> Count {
    let mut count = Count::default();
    for x in 0..=u32::MAX as u64 {
        count.add(helper, x, 0);
    }
    count
}
