//! `oracle ids N`: answers, refusals and every word of the lent area.

use super::lists::{all_short, by_chance, large};
use super::routines::{Routine, ROUTINES};
use crate::random::Random;

#[derive(Default)]
pub struct Count {
    pub agree: u64,
    pub differ: u64,
    /// Of those that agree, how many were refused, and how many were answered 0, 1, 2, 3 or more.
    pub refused: u64,
    pub answered: [u64; 5],
    /// The first that differ, for a look.
    pub shown: Vec<String>,
}

const SHOWN: usize = 5;

/// The most words that an area has beyond those needed.
const BEYOND: usize = 17;

/// What stands in an area before a call: no word of it is 0, so that a word cleared too many shows.
fn noise(place: usize, salt: u32) -> u32 {
    (place as u32).wrapping_mul(0x9e37_79b1).wrapping_add(salt) | 1
}

impl Count {
    /// One list, held to what the routine should answer.
    pub fn add(&mut self, routine: &Routine, ids: &[u32], random: &mut Random, area: &mut Vec<u32>) {
        self.hold(routine, ids, (routine.rust)(ids), random, area);
    }

    /// One list, held to an answer, over areas that are exact, one word short and longer.
    pub fn hold(&mut self, routine: &Routine, ids: &[u32], answer: u32, random: &mut Random, area: &mut Vec<u32>) {
        let needed = (routine.needed)(ids.len());
        let beyond = random.within(1, BEYOND as i64) as usize;
        for lent in [Some(needed), needed.checked_sub(1), Some(needed + beyond)].into_iter().flatten() {
            let salt = random.bits() as u32;
            area.clear();
            area.extend((0..lent).map(|place| noise(place, salt)));
            let refusal = routine.refusal(ids.len(), lent);
            let given = (routine.port)(ids, area);
            let cleared = if refusal.is_some() { 0 } else { needed };
            let same = given == refusal.unwrap_or(answer);
            let wrong = (0..lent).find(|&i| area[i] != if i < cleared { 0 } else { noise(i, salt) });
            if same && wrong.is_none() {
                self.agree += 1;
                match refusal {
                    Some(_) => self.refused += 1,
                    None => self.answered[answer.min(4) as usize] += 1,
                }
            } else {
                self.differ += 1;
                self.show(routine, ids, lent, given, refusal.unwrap_or(answer), wrong);
            }
        }
    }

    fn show(&mut self, routine: &Routine, ids: &[u32], lent: usize, given: u32, right: u32, wrong: Option<usize>) {
        if self.shown.len() < SHOWN {
            let (name, some, count) = (routine.name, &ids[..ids.len().min(60)], ids.len());
            let word = wrong.map_or(String::new(), |i| format!(", word {i} is wrong"));
            self.shown
                .push(format!("{name}: {given:x}, should be {right:x}{word}; {lent} words, {count} ids {some:?}"));
        }
    }
}

fn over(routine: &Routine, seed: u64, lists: impl Iterator<Item = Vec<u32>>) -> Count {
    let (mut count, mut area, mut random) = (Count::default(), Vec::new(), Random::new(seed));
    lists.for_each(|ids| count.add(routine, &ids, &mut random, &mut area));
    count
}

pub fn on_short(routine: &Routine) -> Count {
    over(routine, 1, all_short().into_iter())
}

pub fn on_large(routine: &Routine) -> Count {
    over(routine, 2, large(&mut Random::new(11)).into_iter())
}

/// The same N lists for each routine.
pub fn on_chance(routine: &Routine, n: u64) -> Count {
    over(routine, 3, (0..n).map(|turn| by_chance(&mut Random::new(turn))))
}

pub fn all(n: u64) -> impl Iterator<Item = (&'static str, Vec<(&'static str, Count)>)> {
    ROUTINES.iter().map(move |routine| {
        let counts = [("short", on_short(routine)), ("large", on_large(routine)), ("by chance", on_chance(routine, n))];
        (routine.name, counts.into())
    })
}
