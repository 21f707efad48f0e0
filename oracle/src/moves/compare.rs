//! `oracle moves N`: what comes back from two calls, every word of their records, and every place of the three lent areas and
//! of the rims around them; A1's counts are words like others, whatever the verdict.

use super::meshes::{kinds, pair};
use crate::compute::areas::Lending;
use crate::compute::compare::Port;
use crate::pairs::{free, Count, Outcome};
use crate::random::Random;

/// Demand 3: nothing differs but the free words of two open shells.
fn unmoved(here: &Outcome, there: &Outcome) -> Vec<String> {
    here.left.differences(&there.left, free(here, there))
}

/// The pairs of one kind among N of all kinds in turn.
pub fn on_kind(port: Port, kind: usize, n: u64) -> Count {
    let seed = kind as u64;
    let (mut count, mut random, mut lending) = (Count::default(), Random::new(seed), Lending::new(seed));
    for turn in (seed..n).step_by(kinds().len()) {
        lending.elsewhere(&mut random);
        count.add(port, &pair(kind, turn), unmoved, &mut lending);
    }
    count
}

pub fn on_chance(port: Port<'_>, n: u64) -> impl Iterator<Item = (&'static str, Count)> + '_ {
    kinds().into_iter().enumerate().map(move |(kind, name)| (name, on_kind(port, kind, n)))
}
