//! The plain reference for pieces, held to 02's sentence (A2): beside a plainer one that asks every pair of triangles,
//! beside 01's pieces by ids, and by hand.

use mowfrost_oracle::file::read;
use mowfrost_oracle::frames;
use mowfrost_oracle::ids::lists::{all_short, by_chance, mixed, SHAPES};
use mowfrost_oracle::listing::listing;
use mowfrost_oracle::pieces::pieces;
use mowfrost_oracle::random::Random;
use mowfrost_oracle::solids::reverse;
use mowfrost_oracle::stored::examples::ids;
use std::path::Path;

mod joins;

use joins::{by_edges, by_ids};

/// Of the lists of `oracle ids N` those that are not too long for pairs.
fn chance() -> impl Iterator<Item = Vec<u32>> {
    (0..20_000).map(|turn| by_chance(&mut Random::new(turn))).filter(|ids| ids.len() < 900)
}

/// These, all short lists, and ids by chance, some of them at the end of u32.
fn lists() -> impl Iterator<Item = Vec<u32>> {
    let mut random = Random::new(2026);
    let any = (0..3_000).map(move |_| {
        let (length, reached) = (random.below(40), random.within(1, 40) as usize);
        (0..length).map(|_| (random.below(reached) as u32).wrapping_sub(3)).collect()
    });
    all_short().into_iter().chain(chance()).chain(any)
}

#[test]
fn pieces_are_the_groups_of_shared_edges() {
    for ids in lists() {
        assert_eq!(pieces(&ids), by_edges(&ids), "{ids:?}");
    }
}

#[test]
fn some_lists_are_in_no_piece_some_in_one_and_some_in_more() {
    let mut found = [0; 4];
    chance().for_each(|ids| found[pieces(&ids).min(3) as usize] += 1);
    assert!(found.iter().all(|&times| times > 2_000), "{found:?}");
}

/// A shared edge is two shared ids, so a piece of 01's is made of whole ones of 02's.
#[test]
fn by_ids_there_are_never_more() {
    assert!(lists().all(|ids| by_ids(&ids) <= pieces(&ids)));
    let one_common_id = ids("012 023 031 132 345 356 364 465");
    assert_eq!((by_ids(&one_common_id), pieces(&one_common_id)), (1, 2));
}

/// Lists and stored meshes on which the two differ: docs/DIFFERENCES.md has these numbers.
#[test]
fn by_ids_there_are_often_fewer() {
    let differs = |ids: &[u32]| by_ids(ids) < pieces(ids);
    assert!(chance().filter(|ids| differs(ids)).count() > 5_000);
    let meshes = std::fs::read(Path::new(env!("CARGO_MANIFEST_DIR")).join("../crates/replay/data/meshes"));
    let meshes = meshes.expect("the meshes of the replay");
    let listed = frames::all(&meshes).filter(|bytes| !listing(bytes).0.starts_with("refused"));
    assert!(listed.filter_map(|bytes| read(bytes).ok()).filter(|mesh| differs(&mesh.ids)).count() > 20);
}

/// Any side of the one with any of the other, walked either way; with one end of it alone they are two.
#[test]
fn each_side_joins() {
    for (i, j, way) in (0..18).map(|n| (n % 3, n / 3 % 3, n / 9)) {
        let (mut one, mut other) = ([4, 7, 9], [4, 7, 5]);
        other[..2].rotate_left(way);
        one.rotate_left(i);
        other.rotate_left(j);
        assert_eq!(pieces(&[one, other].concat()), 1, "{one:?} {other:?}");
        for end in [4, 7] {
            let touching = other.map(|id| if id == end { 6 } else { id });
            assert_eq!(pieces(&[one, touching].concat()), 2, "{one:?} {touching:?}");
        }
    }
}

/// An edge joins all triangles that use it, however many they are.
#[test]
fn an_edge_of_many_uses_joins_them_all() {
    assert_eq!(pieces(&ids("012 130 014 501")), 1);
    assert_eq!(pieces(&ids("012 023 031 132 014 046 061 164")), 1, "two tetrahedra");
    assert_eq!(pieces(&ids("012 012 210")), 1);
}

#[test]
fn a_triangle_that_repeats_an_id_joins_nothing() {
    assert_eq!(pieces(&ids("001 010 100 111")), 0);
    assert_eq!(pieces(&ids("012 112")), 1);
    // 001 has the edge 01 of the first, 003 the edge 03 of the second, and the two have 00
    assert_eq!(pieces(&ids("012 034 001 003")), 2);
    // both ids of 001 that are 0 are ids of the second
    assert_eq!(pieces(&ids("012 034 001")), 2);
}

#[test]
fn ids_left_over_count_for_nothing() {
    assert_eq!(pieces(&ids("012 034 1")), 2);
    assert_eq!(pieces(&ids("012 034 13")), 2);
    assert_eq!((pieces(&ids("01")), pieces(&[])), (0, 0));
}

/// Ends with one sum, one difference or one product, and the ends of u32.
#[test]
fn edges_are_told_apart_by_both_ends() {
    let most = u32::MAX;
    for ([a, b], [c, d]) in
        [([0, 3], [1, 2]), ([1, 3], [2, 4]), ([2, 6], [3, 4]), ([0, most], [1, most]), ([0, most], [0, 1])]
    {
        assert_eq!(pieces(&[a, b, 8, c, d, 9]), 2, "{a} {b}, {c} {d}");
        assert_eq!(pieces(&[a, b, 8, b, a, 9, c, d, 7]), 2, "{a} {b}, {c} {d}");
    }
    assert_eq!(pieces(&[0, most, 1, most, 0, 2]), 1);
    assert_eq!(pieces(&[most, most - 1, most - 2, most - 1, 0, most]), 1);
}

/// Other names, another order, other first corners, all triangles turned over: as many pieces.
#[test]
fn only_what_is_shared_counts() {
    let random = &mut Random::new(7);
    for (name, shape) in SHAPES {
        for triangles in [3, 8, 24, 100] {
            let mut ids = shape(triangles);
            let count = pieces(&ids);
            assert_eq!(pieces(&mixed(&ids, random)), count, "{name}");
            reverse(&mut ids);
            assert_eq!(pieces(&ids), count, "{name}");
        }
    }
}
