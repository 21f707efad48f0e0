//! The port's weld beside the original's: large meshes and some thousand by chance here, more by `oracle weld N`. What asks the port is
//! ignored, and says so, where its static libraries were not built.

use mowfrost_oracle::random::Random;
use mowfrost_oracle::weld::compare::{on_chance, on_epsilon, on_large, PORT};
use mowfrost_oracle::weld::meshes::{by_chance, large, Welding, MOST_FLOATS};
use std::collections::HashMap;

#[test]
#[cfg_attr(
    not(port),
    ignore = "the port's libraries were not built: at the root, tools/staticlib capi and tools/staticlib probe"
)]
fn every_weld_agrees() {
    let (large, chance, epsilon) = (on_large(PORT), on_chance(PORT, 20_000), on_epsilon(20_000));
    for count in [&large, &chance, &epsilon] {
        assert_eq!(count.differ, 0, "{:?}", count.shown);
    }
    assert!(large.welded > 5 && large.unchanged > 3 && large.untaken > 10);
    assert!(chance.welded > 2_000 && chance.unchanged > 2_000 && chance.untaken > 20_000);
}

/// A weld in the original's words, with one thing of it open.
struct Way {
    cell: fn(f32, f32) -> f64,
    round: fn(f64) -> f64,
    last_names: bool,
    past_stays: bool,
    zeroed: bool,
}

const RIGHT: Way = Way {
    cell: |x, eps| x as f64 * (1.0 / eps as f64),
    round: f64::round,
    last_names: false,
    past_stays: true,
    zeroed: true,
};

fn weld_by(way: &Way, vertices: &[f32], ids: &[u32], eps: f32, part: &mut [u32]) -> bool {
    let count = vertices.len() / 3;
    if vertices.len() > MOST_FLOATS || part.len() != 8 * count + ids.len() {
        return false;
    }
    let mut names: HashMap<[i64; 3], u32> = HashMap::new();
    let cells: Vec<[i64; 3]> =
        (0..count).map(|v| [0, 1, 2].map(|k| (way.round)((way.cell)(vertices[3 * v + k], eps)) as i64)).collect();
    for (v, cell) in cells.iter().enumerate() {
        let name = names.entry(*cell).or_insert(v as u32);
        if way.last_names {
            *name = v as u32;
        }
    }
    let idle = eps.is_nan() || eps <= 0.0 || vertices.len() < 3;
    let (table, new) = part.split_at_mut(8 * count);
    if way.zeroed {
        table.fill(0);
    }
    for (new, &id) in new.iter_mut().zip(ids) {
        *new = match cells.get(id as usize) {
            _ if idle => id,
            Some(cell) => names[cell],
            None if way.past_stays => id,
            None => 0,
        };
    }
    true
}

fn found(way: Way) -> bool {
    let port = |vertices: &[f32], ids: &[u32], eps: f32, part: &mut [u32]| weld_by(&way, vertices, ids, eps, part);
    on_chance(&port, 5_000).differ > 0
}

#[test]
fn a_wrong_weld_is_found() {
    assert!(!found(RIGHT));
    assert!(found(Way { round: f64::round_ties_even, ..RIGHT }), "half to even");
    assert!(found(Way { round: f64::floor, ..RIGHT }), "floor");
    assert!(found(Way { cell: |x, eps| x as f64 / eps as f64, ..RIGHT }), "dividing by epsilon");
    assert!(found(Way { cell: |x, eps| (x * (1.0 / eps)) as f64, ..RIGHT }), "in f32");
    assert!(found(Way { last_names: true, ..RIGHT }), "the last vertex names a cell");
    assert!(found(Way { past_stays: false, ..RIGHT }), "an id past the vertices does not stay");
    assert!(found(Way { zeroed: false, ..RIGHT }), "cells are left behind");
}

#[test]
fn the_meshes_have_what_they_are_for() {
    let meshes: Vec<Welding> = (0..5_000).map(|turn| by_chance(&mut Random::new(turn))).collect();
    let some = |test: &dyn Fn(&Welding) -> bool| meshes.iter().filter(|mesh| test(mesh)).count() > 20;
    assert!(some(&|m| m.eps.is_nan()) && some(&|m| m.eps <= 0.0) && some(&|m| m.eps > 0.0));
    assert!(some(&|m| m.vertices.len() < 3) && some(&|m| m.vertices.len() % 3 > 0));
    assert!(some(&|m| m.vertices.iter().any(|x| x.to_bits() == 0x8000_0000)), "a negative zero");
    assert!(some(&|m| m.vertices.iter().any(|x| x.is_nan())) && some(&|m| m.vertices.iter().any(|x| x.is_infinite())));
    let saturates = |m: &Welding| m.vertices.iter().any(|&x| (x as f64 / m.eps as f64).abs() > 1e19);
    assert!(some(&|m| m.eps > 0.0 && saturates(m)), "a cell at the end of i64");
    assert!(some(&|m| m.ids.iter().any(|&id| id as usize >= m.vertices.len() / 3)), "an id past the vertices");
    assert!(large(&mut Random::new(17)).iter().any(|m| m.vertices.len() == MOST_FLOATS));
}
