//! `oracle glove N`: what comes back from two calls, every word of their records, every row, and every place of the
//! three lent areas and of the rims around them.

use super::meshes::{kinds, mesh, pair};
use crate::compute::areas::{Left, Lending};
use crate::compute::compare::Port;
use crate::compute::meshes::{large, limits};
use crate::file::MeshFile;
use crate::pairs::{self, free, Outcome};
use crate::random::Random;

const VOLUME: usize = 4;
const TOP: usize = 7;
const BOTTOM: usize = 8;

const SIGN: u32 = 0x8000_0000;

fn is_zero(bits: u32) -> bool {
    bits & !SIGN == 0
}

/// A row with its normal the other way; 0 stays 0.
fn opposite([area, normal @ ..]: [u32; 4]) -> [u32; 4] {
    let [x, y, z] = normal.map(|bits| if is_zero(bits) { 0 } else { bits ^ SIGN });
    [area, x, y, z]
}

/// By falling area, then by rising nx, ny, nz.
fn put_in_order(rows: &mut [[u32; 4]]) {
    rows.sort_by(|one, other| {
        let [one, other] = [one, other].map(|row| row.map(f32::from_bits));
        let normals = (1..4).map(|i| one[i].total_cmp(&other[i]));
        normals.fold(other[0].total_cmp(&one[0]), |order, next| order.then(next))
    });
}

/// What a call with the reversed ids has to leave, by what one with the ids left: the volume negated, top and bottom in
/// each other's place, every row turned over and put in order, and all else as it is.
fn turned(left: &Left) -> Left {
    let mut record = left.record();
    record[VOLUME] ^= SIGN;
    record.swap(TOP, BOTTOM);
    let mut rows: Vec<[u32; 4]> = left.rows().iter().map(|row| opposite(*row)).collect();
    put_in_order(&mut rows);
    left.with(record, &rows)
}

/// A9. Each is the other one turned; where there is no volume, 0 may have either sign. Refusals and zero records are
/// the same.
fn gloved(here: &Outcome, there: &Outcome) -> Vec<String> {
    if !here.is_full() || !there.is_full() {
        return here.left.differences(&there.left, &[]);
    }
    let mut free = free(here, there).to_vec();
    if [here, there].iter().all(|outcome| is_zero(outcome.left.record()[VOLUME])) {
        free.push(VOLUME);
    }
    let wrong = turned(&here.left).differences(&there.left, &free);
    // a row of the first that is out of order, or that has -0, is none that the second could be turned to
    if wrong.is_empty() {
        turned(&there.left).differences(&here.left, &free)
    } else {
        wrong
    }
}

#[derive(Default)]
pub struct Count {
    pub pairs: pairs::Count,
    /// Of the pairs that agree with full records: those with no volume, with a top and a bottom above 0 that differ,
    /// and those whose rows come in another order, which only rows of equal area do.
    pub no_volume: u64,
    pub slopes: u64,
    pub reordered: u64,
}

impl Count {
    fn add(&mut self, port: Port, mesh: MeshFile, random: &mut Random, lending: &mut Lending) {
        lending.elsewhere(random);
        let Some([here, there]) = self.pairs.add(port, &pair(mesh, random), gloved, lending) else { return };
        if !here.is_full() {
            return;
        }
        let record = here.left.record();
        self.no_volume += is_zero(record[VOLUME]) as u64;
        self.slopes += (record[TOP] != record[BOTTOM] && record[TOP] > 0 && record[BOTTOM] > 0) as u64;
        let in_place = here.left.rows().iter().map(|row| opposite(*row)).eq(there.left.rows().iter().copied());
        self.reordered += !in_place as u64;
    }

    /// The numbers of both.
    pub fn join(&mut self, other: &Count) {
        self.pairs.join(&other.pairs);
        self.no_volume += other.no_volume;
        self.slopes += other.slopes;
        self.reordered += other.reordered;
    }

    /// What the pairs that agree came to.
    pub fn reached(&self) -> String {
        self.pairs.reached(&[
            ("with no volume", self.no_volume),
            ("with another top than bottom, both above 0", self.slopes),
            ("with rows of equal area in another order", self.reordered),
        ])
    }
}

/// These meshes, each over other areas and with other flags.
pub fn over(port: Port, seed: u64, meshes: impl Iterator<Item = MeshFile>) -> Count {
    let (mut count, mut random, mut lending) = (Count::default(), Random::new(seed), Lending::new(seed));
    meshes.for_each(|mesh| count.add(port, mesh, &mut random, &mut lending));
    count
}

/// So often each large mesh, over other areas and with other flags each time.
const TIMES: usize = 8;

pub fn on_large(port: Port) -> Count {
    over(port, 1, large().into_iter().flat_map(|(_, mesh)| vec![mesh; TIMES]))
}

pub fn on_limits(port: Port) -> Count {
    over(port, 2, limits().flat_map(|mesh| vec![mesh; TIMES]))
}

/// The pairs of one kind among N of all kinds in turn.
pub fn on_kind(port: Port, kind: usize, n: u64) -> Count {
    let turns = (kind as u64..n).step_by(kinds().len());
    over(port, 3 + kind as u64, turns.map(|turn| mesh(kind, turn)))
}

pub fn on_chance(port: Port<'_>, n: u64) -> impl Iterator<Item = (&'static str, Count)> + '_ {
    kinds().into_iter().enumerate().map(move |(kind, name)| (name, on_kind(port, kind, n)))
}

pub fn all(port: Port<'_>, n: u64) -> impl Iterator<Item = (&'static str, Count)> + '_ {
    let fixed = [("large", on_large as fn(Port) -> Count), ("limits", on_limits)];
    fixed.into_iter().map(move |(name, on)| (name, on(port))).chain(on_chance(port, n))
}
