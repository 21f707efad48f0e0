//! `oracle weld N`: the new ids, every word of the part that is lent, and that vertices and ids are as they were, bit for bit.

use super::capi;
use super::meshes::{by_chance, large, Welding, MOST_FLOATS};
use crate::linked::bits;
use crate::mesh::qto::probe;
use crate::random::Random;
use std::hint::black_box;

#[derive(Default)]
pub struct Count {
    pub agree: u64,
    pub differ: u64,
    /// Of those that agree: some id became another, none did, and the part or the vertices were not taken.
    pub welded: u64,
    pub unchanged: u64,
    pub untaken: u64,
    /// The first that differ, for a look.
    pub shown: Vec<String>,
}

const SHOWN: usize = 5;

pub type Port<'a> = &'a dyn Fn(&[f32], &[u32], f32, &mut [u32]) -> bool;

pub const PORT: Port<'static> = &capi::welded_indices;

/// What stands in a part before a call: no word of it is 0.
fn noise(place: usize, salt: u32) -> u32 {
    (place as u32).wrapping_mul(0x9e37_79b1).wrapping_add(salt) | 1
}

impl Count {
    /// One mesh, over a part of just the words needed, one word short and one word long.
    fn add(&mut self, port: Port, mesh: &Welding, random: &mut Random, part: &mut Vec<u32>) {
        let Welding { vertices, ids, eps } = mesh;
        let table = 8 * (vertices.len() / 3);
        let needed = table + ids.len();
        let welded = probe::welded_indices(vertices, ids, *eps);
        let before = (bits(vertices), ids.clone());
        for lent in [Some(needed), needed.checked_sub(1), Some(needed + 1)].into_iter().flatten() {
            let salt = random.bits() as u32;
            part.clear();
            part.extend((0..lent).map(|place| noise(place, salt)));
            let taken = port(vertices, ids, *eps, part);
            let fits = lent == needed && vertices.len() <= MOST_FLOATS;
            let right = |i: usize| match fits {
                true if i < table => 0,
                true => welded[i - table],
                false => noise(i, salt),
            };
            let kept = (bits(black_box(vertices)), black_box(ids).clone()) == before;
            match (0..lent).find(|&i| part[i] != right(i)) {
                None if taken == fits && kept => {
                    self.agree += 1;
                    match fits {
                        true if welded != *ids => self.welded += 1,
                        true => self.unchanged += 1,
                        false => self.untaken += 1,
                    }
                }
                wrong => {
                    self.differ += 1;
                    self.show(mesh, taken, fits, kept, wrong.map(|i| (i, part[i], right(i))));
                }
            }
        }
    }

    fn show(&mut self, mesh: &Welding, taken: bool, fits: bool, kept: bool, wrong: Option<(usize, u32, u32)>) {
        if self.shown.len() < SHOWN {
            let (floats, ids) = (mesh.vertices.len(), mesh.ids.len());
            let some = &mesh.vertices[..floats.min(30)];
            let word =
                wrong.map_or(String::new(), |(i, is, right)| format!(", word {i} is {is:x}, should be {right:x}"));
            self.shown.push(format!(
                "taken {taken}, should be {fits}, mesh kept {kept}{word}; eps {:?}, {ids} ids, {floats} floats {some:?}",
                mesh.eps
            ));
        }
    }
}

fn over(port: Port, seed: u64, meshes: impl Iterator<Item = Welding>) -> Count {
    let (mut count, mut part, mut random) = (Count::default(), Vec::new(), Random::new(seed));
    meshes.for_each(|mesh| count.add(port, &mesh, &mut random, &mut part));
    count
}

pub fn on_large(port: Port) -> Count {
    over(port, 1, large(&mut Random::new(17)).into_iter())
}

pub fn on_chance(port: Port, n: u64) -> Count {
    over(port, 2, (0..n).map(|turn| by_chance(&mut Random::new(turn))))
}

/// ε of a distance and a unit: the original has it inside its classifier, so its expression stands here. What Rust's `max`
/// makes of a signalling NaN it leaves open (DIFFERENCES.md, d17), so a NaN is a quiet one here.
pub fn on_epsilon(n: u64) -> Count {
    let (mut count, mut random) = (Count::default(), Random::new(3));
    for turn in 0..n {
        let any = |random: &mut Random| match f32::from_bits(random.bits() as u32) {
            x if x.is_nan() => f32::NAN,
            x => x,
        };
        let unit = match turn % 3 {
            0 => any(&mut random),
            1 => random.between(0.0, 16.0) as f32,
            _ => random.pick(&[0.0, -0.0, 1e-12, 1e-13, f32::NAN, f32::INFINITY, 1.0, 0.001, -1.0, f32::MIN_POSITIVE]),
        };
        let distance = if turn % 2 == 0 { 1e-4 } else { any(&mut random) };
        let (given, right) = (capi::epsilon(distance, unit), distance / unit.max(1e-12));
        if given.to_bits() == right.to_bits() || given.is_nan() && right.is_nan() {
            count.agree += 1;
            count.unchanged += 1;
        } else {
            count.differ += 1;
            count.shown.push(format!("epsilon of {distance:?} and {unit:?}: {given:?}, should be {right:?}"));
            count.shown.truncate(SHOWN);
        }
    }
    count
}
