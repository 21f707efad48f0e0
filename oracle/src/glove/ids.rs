//! The id routines on the ids of the same meshes and on the reversed ids: one number, and areas that are left alike.

use super::meshes::{kinds, mesh};
use crate::compute::meshes::{large, limits};
use crate::ids::compare::Count;
use crate::ids::routines::Routine;
use crate::random::Random;
use crate::solids::reverse;

/// Both lists are held to what the port says of the first over just the words that it needs, and every area to what the
/// routine has to leave there.
fn add(count: &mut Count, routine: &Routine, ids: &[u32], random: &mut Random, area: &mut Vec<u32>) {
    area.clear();
    area.resize((routine.needed)(ids.len()), 1);
    let answer = (routine.port)(ids, area);
    let mut reversed = ids.to_vec();
    reverse(&mut reversed);
    for ids in [ids, &reversed] {
        count.hold(routine, ids, answer, random, area);
    }
}

/// On those of `glove::compare`: the large ones, those at the limits, and N of all kinds in turn.
pub fn on_all(routines: &[Routine], n: u64) -> Vec<(&'static str, Count)> {
    let all = kinds().len() as u64;
    let fixed = large().into_iter().map(|(_, mesh)| mesh).chain(limits());
    let by_chance = (0..n).map(|turn| mesh((turn % all) as usize, turn));
    let (mut area, mut random) = (Vec::new(), Random::new(4));
    let mut counts: Vec<_> = routines.iter().map(|routine| (routine.name, Count::default())).collect();
    for mesh in fixed.chain(by_chance) {
        for (routine, (_, count)) in routines.iter().zip(&mut counts) {
            add(count, routine, &mesh.ids, &mut random, &mut area);
        }
    }
    counts
}
