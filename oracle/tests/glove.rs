//! The glove (02, A9) as a property: the port and the original have it, a port that has not is found by what is wrong,
//! and one that differs in nothing but the exceptions is not. The faults are planted in the port where its library
//! is linked, else in the original. What asks the port alone is ignored, and says so, where its static libraries were
//! not built.

use mowfrost_oracle::compute::compare::{Port, PORT, REFUSED};
use mowfrost_oracle::file::{Flags, MeshFile};
use mowfrost_oracle::glove::compare::{all, on_chance, on_kind, on_limits, over, Count};
use mowfrost_oracle::glove::ids;
use mowfrost_oracle::glove::meshes::{kinds, mesh, pair, reversed};
use mowfrost_oracle::ids::routines::{Routine, ROUTINES};
use mowfrost_oracle::pairs::Pair;
use mowfrost_oracle::random::Random;
use mowfrost_oracle::record::plain;
use mowfrost_oracle::slopes::{Slope, EDITIONS, FIRST, SECOND};
use mowfrost_oracle::stored::by_hand;

mod pairs;
mod ways;

use pairs::{
    along, assert_found_wherever_it_shows, by_slope, differing, left, quieted, stored, taken_for, with, Fault, BASE,
    BEST, BOUND, COVERED, EXCEPTIONS, METHOD, ORIGINAL, RELIABLE, RIM,
};
use ways::{Way, RIGHT};

const VOLUME: usize = 4;
const TOP: usize = 7;
const BOTTOM: usize = 8;
const SIGN: u32 = 0x8000_0000;

fn sum(counts: impl Iterator<Item = (&'static str, Count)>) -> Count {
    counts.fold(Count::default(), |mut sum, (_, count)| {
        sum.join(&count);
        sum.pairs.shown.extend(count.pairs.shown);
        sum
    })
}

#[test]
#[cfg_attr(
    not(port),
    ignore = "the port's libraries were not built: at the root, tools/staticlib capi and tools/staticlib probe"
)]
fn the_port_is_a_glove() {
    let count = sum(all(PORT, 20_000));
    assert!(count.pairs.agree > 20_000 && count.pairs.differ == 0, "{:?}", count.pairs.shown);
    for (name, count) in ids::on_all(&ROUTINES, 20_000) {
        assert!(count.agree > 100_000 && count.differ == 0, "{name}: {:?}", count.shown);
        assert!(count.refused > 10_000 && count.answered.iter().filter(|&&times| times > 2_000).count() > 1, "{name}");
    }
}

#[test]
fn so_is_the_original_and_everything_is_reached() {
    let mut count = sum(on_chance(ORIGINAL, 8_000));
    assert_eq!((count.pairs.agree, count.pairs.differ), (8_000, 0), "{:?}", count.pairs.shown);
    count.join(&on_limits(ORIGINAL));
    // the last kind is made for method and trust
    count.join(&on_kind(ORIGINAL, kinds().len() - 1, 40_000));
    let [no_volume, slopes, reordered] = [count.no_volume, count.slopes, count.reordered];
    assert!([no_volume, slopes, reordered].iter().all(|&times| times > 400), "{}", count.reached());
    let told = count.reached();
    let count = count.pairs;
    assert_eq!(count.differ, 0, "{:?}", count.shown);
    let [one, two, three, four, five, six, seven] = count.tally.refused;
    assert!(one > 50 && two > 200 && three > 800 && four > 200 && five > 200 && six == 0 && seven > 200, "{told}");
    let [first, second, unknown] = count.editions;
    assert!(second.abs_diff(first + unknown) < second / 8 && unknown > seven && count.moved > 400, "{told}");
    assert!(count.tally.zero > 200 && count.tally.verdicts.iter().all(|&times| times > 300), "{told}");
    assert!(count.free.iter().all(|&times| times > 1), "{told}");
    assert!(count.covered > 20 && count.rim > 20 && count.rim_alone > 5, "{told}");
    assert_eq!(count.met.meshes, count.tally.verdicts.iter().sum());
    let counted = [count.met.all_used, count.met.range, count.met.sliver, count.met.both, count.met.none_used];
    assert!(counted.iter().all(|&times| times > 50), "{}", count.met.told());
    for nans in [count.stayed.refused, count.stayed.zero, count.stayed.behind, count.stayed.vertices] {
        assert!(nans.signalling > 1_000 && nans.quiet > 1_000, "{}", count.stayed.told());
    }
}

// ---- planted faults

/// 1 or 0, and the other one when reversed, unless there is no triangle or the last two ids of the first are the same.
fn way_round(mesh: &MeshFile) -> u32 {
    mesh.ids.first_chunk().is_some_and(|[_, b, c]| b > c) as u32
}

fn is_turned(mesh: &MeshFile) -> bool {
    way_round(mesh) == 1
}

/// What is wrong with the first pairs that are against the law, of one kind.
fn reasons(port: Port) -> Vec<String> {
    on_chance(port, 4_000).find(|(_, count)| count.pairs.differ > 0).map_or(vec![], |(_, count)| count.pairs.shown)
}

#[test]
fn planted_faults_are_found_by_their_reasons() {
    let faults: &[(&str, &str, Fault)] = &[
        ("the volume not negated", "record 4 is ", &|mesh, given| {
            if given.is_full(mesh) && is_turned(mesh) {
                given.record[VOLUME] ^= SIGN;
            }
        }),
        ("the volume without its sign", "record 4 is ", &|mesh, given| {
            if given.is_full(mesh) {
                given.record[VOLUME] &= !SIGN;
            }
        }),
        ("a volume in place of 0", "record 4 is ", &|mesh, given| {
            if given.is_full(mesh) && given.record[VOLUME] & !SIGN == 0 {
                given.record[VOLUME] = way_round(mesh);
            }
        }),
        ("a volume of one digit more", "record 4 is ", &|mesh, given| {
            if given.is_full(mesh) && given.record[VOLUME] & !SIGN > 0 {
                given.record[VOLUME] ^= way_round(mesh);
            }
        }),
        ("top and bottom in their places", "record 7 is ", &|mesh, given| {
            if given.is_full(mesh) && is_turned(mesh) {
                given.record.swap(TOP, BOTTOM);
            }
        }),
        ("a normal not negated", "surface ", &|mesh, given| {
            if given.is_full(mesh) && given.record[16] > 0 && is_turned(mesh) {
                given.areas.surfaces[1..4].iter_mut().filter(|bits| **bits != 0).for_each(|bits| *bits ^= SIGN);
            }
        }),
        ("one number of a normal not negated", "surface ", &|mesh, given| {
            if given.is_full(mesh) && given.record[16] > 0 && is_turned(mesh) {
                given.areas.surfaces[1..4].iter_mut().filter(|bits| **bits != 0).take(1).for_each(|bits| *bits ^= SIGN);
            }
        }),
        ("-0 in the rows, both ways round", "surface ", &|mesh, given| {
            if given.is_full(mesh) {
                minus_zeros(given);
            }
        }),
        ("-0 in the rows, one way round", "surface ", &|mesh, given| {
            if given.is_full(mesh) && is_turned(mesh) {
                minus_zeros(given);
            }
        }),
        ("-0 in the rows, the other way round", "surface ", &|mesh, given| {
            if given.is_full(mesh) && !is_turned(mesh) {
                minus_zeros(given);
            }
        }),
        ("rows of equal area not put in order, one way round", "surface ", &|mesh, given| {
            if given.is_full(mesh) && is_turned(mesh) {
                backwards(given);
            }
        }),
        ("rows of equal area not put in order, the other way round", "surface ", &|mesh, given| {
            if given.is_full(mesh) && !is_turned(mesh) {
                backwards(given);
            }
        }),
        ("rows of equal area in falling order, both ways round", "surface ", &|mesh, given| {
            if given.is_full(mesh) {
                backwards(given);
            }
        }),
        ("an area of a row", "surface ", &|mesh, given| {
            if given.is_full(mesh) && given.record[16] > 0 {
                given.areas.surfaces[0] ^= way_round(mesh);
            }
        }),
        ("a row more", "record 16 is ", &|mesh, given| {
            if given.is_full(mesh) && given.areas.surfaces.len() > 4 * given.record[16] as usize {
                given.record[16] += way_round(mesh);
            }
        }),
        ("a sliver for one that is used", "record 17 is ", &|mesh, given| {
            if given.is_full(mesh) && given.record[17] > 0 && is_turned(mesh) {
                (given.record[17], given.record[19]) = (given.record[17] - 1, given.record[19] + 1);
            }
        }),
        ("out of range for a sliver", "record 18 is ", &|mesh, given| {
            if given.is_full(mesh) && given.record[19] > 0 && is_turned(mesh) {
                (given.record[18], given.record[19]) = (given.record[18] + 1, given.record[19] - 1);
            }
        }),
        ("another verdict", "record 0 is ", &|mesh, given| {
            if given.came_to(mesh) == "closed" && is_turned(mesh) {
                given.record[0] = 1;
            }
        }),
        ("inside out is open", "record 0 is ", &|mesh, given| {
            if given.came_to(mesh) == "closed" && given.record[VOLUME] & SIGN > 0 {
                given.record[0] = 1;
            }
        }),
        ("another method of a closed shell", "record 2 is ", &|mesh, given| {
            if given.came_to(mesh) == "closed" && is_turned(mesh) {
                given.record[METHOD] = 1;
            }
        }),
        ("no trust in a closed shell inside out", "record 1 is ", &|mesh, given| {
            if given.came_to(mesh) == "closed" && given.record[VOLUME] & SIGN > 0 {
                given.record[RELIABLE] = 0;
            }
        }),
        ("the best volume of a closed shell with its sign", "record 13 is ", &|mesh, given| {
            if given.came_to(mesh) == "closed" {
                given.record[BEST] = given.record[VOLUME];
            }
        }),
        ("a bound of a degenerate mesh", "record 15 is ", &|mesh, given| {
            if given.came_to(mesh) == "degenerate" {
                given.record[BOUND] = way_round(mesh);
            }
        }),
        ("no bound of an open shell", "record 14 is ", &|mesh, given| {
            if given.came_to(mesh) == "open" && is_turned(mesh) {
                given.record[14] = 0;
            }
        }),
        ("a covered cell of a closed shell", "record 20 is ", &|mesh, given| {
            if given.came_to(mesh) == "closed" && is_turned(mesh) {
                given.record[COVERED] = 1;
            }
        }),
        ("a rim cell of a degenerate mesh", "record 21 is ", &|mesh, given| {
            if given.came_to(mesh) == "degenerate" {
                given.record[RIM] = way_round(mesh);
            }
        }),
        ("the profile of one alone", "record 3 is ", &|mesh, given| {
            if given.is_full(mesh) && is_turned(mesh) {
                given.record[3] = 0;
            }
        }),
        ("a float behind the rows, in both", "surface ", &|mesh, given| {
            if given.is_full(mesh) {
                given.areas.surfaces[4 * given.record[16] as usize..].iter_mut().take(1).for_each(|bits| *bits ^= 1);
            }
        }),
        ("a signalling NaN behind the rows made quiet, in both", "surface ", &|mesh, given| {
            if given.is_full(mesh) {
                quieted(&mut given.areas.surfaces[4 * given.record[16] as usize..]);
            }
        }),
        ("a surface word beside a zero record", "surface 0 is ", &|mesh, given| {
            if given.came_to(mesh) == "zero record" {
                given.areas.surfaces.iter_mut().take(1).for_each(|bits| *bits ^= way_round(mesh));
            }
        }),
        ("a raster byte left, in one", "raster 65535 is ", &|mesh, given| {
            if given.came_to(mesh) == "open" && is_turned(mesh) {
                given.areas.raster[65_535] = 1;
            }
        }),
        ("a raster byte left, in both", "raster 65535 is 1, should be 0", &|mesh, given| {
            if given.came_to(mesh) == "open" {
                given.areas.raster[65_535] = 1;
            }
        }),
        ("a work word left, in both", "work 0 is 7, should be 0", &|mesh, given| {
            if given.is_full(mesh) {
                given.areas.work[0] = 7;
            }
        }),
        ("a work word of a refused call", "work 0 is ", &|mesh, given| {
            if given.answer != 0 {
                given.areas.work.iter_mut().take(1).for_each(|word| *word ^= way_round(mesh));
            }
        }),
        ("a vertex float written, in both", "vertex float 0 is ", &|_, given| {
            given.areas.vertices.iter_mut().take(1).for_each(|bits| *bits ^= 1);
        }),
        ("an id written, in both", "id 0 is ", &|_, given| {
            given.areas.ids.iter_mut().take(1).for_each(|id| *id ^= 1);
        }),
        ("another refusal", "answer 8000000", &|mesh, given| {
            if given.came_to(mesh) == "refused 2" && is_turned(mesh) {
                given.answer = REFUSED | 4;
            }
        }),
    ];
    assert!(reasons(&with(&|_, _| {})).is_empty(), "nothing was planted");
    for (what, why, fault) in faults {
        let reasons = reasons(&with(fault));
        assert!(!reasons.is_empty() && reasons.iter().all(|line| line.starts_with(why)), "{what}: {reasons:?}");
    }
    let inside_out: Port =
        &|call, areas, record| if is_turned(call.mesh) { REFUSED | 4 } else { BASE(call, areas, record) };
    assert!(reasons(inside_out).iter().any(|why| why.starts_with("answer ")), "one way round is refused");
    let mesh = |mesh: &mut MeshFile| mesh.ids.chunks_exact_mut(3).for_each(|triangle| triangle.sort_unstable());
    let way = Way { mesh, ..RIGHT };
    let sorted: Port = &|call, areas, record| way.call(call, areas, record);
    assert!(!reasons(sorted).is_empty(), "the ids of each triangle put in order");
}

/// Both meshes are asked under one edition, and the two comparisons of top and bottom are each other's opposite under each.
#[test]
fn an_edition_of_one_way_round_is_found() {
    let areas = |reason: &String| (TOP..TOP + 4).any(|word| reason.starts_with(&format!("record {word} is ")));
    let one_way = |known: u32, other: u32| {
        reasons(&taken_for(|call| if call.edition == known && is_turned(call.mesh) { other } else { call.edition }))
    };
    for (known, other) in [(1, 2), (2, 1)] {
        let reasons = one_way(known, other);
        assert!(!reasons.is_empty() && reasons.iter().all(areas), "{other} for {known}: {reasons:?}");
    }
    let refused = one_way(2, 3);
    assert!(!refused.is_empty() && refused.iter().all(|why| why.starts_with("answer ")), "{refused:?}");
    type Rule = fn(&MeshFile, f32) -> Slope;
    assert!(reasons(&by_slope(|_, nz| SECOND.slope(nz))).is_empty(), "02's rule");
    let rules: [(&str, Rule); 4] = [
        ("0.866 itself is top", |_, nz| if nz == SECOND.top { Slope::Top } else { SECOND.slope(nz) }),
        ("-0.866 itself is bottom", |_, nz| if nz == -SECOND.top { Slope::Bottom } else { SECOND.slope(nz) }),
        ("bottom by edition 1's threshold", |_, nz| if nz < 0.0 { FIRST.slope(nz) } else { SECOND.slope(nz) }),
        ("0.5 itself is side one way up", |_, nz| if nz == SECOND.side { Slope::Side } else { SECOND.slope(nz) }),
    ];
    for (what, rule) in rules {
        let reasons = reasons(&by_slope(rule));
        assert!(!reasons.is_empty() && reasons.iter().all(areas), "{what}: {reasons:?}");
    }
}

/// For each 0 in a normal of a row.
fn minus_zeros(given: &mut pairs::Given) {
    let rows = given.areas.surfaces.chunks_exact_mut(4).take(given.record[16] as usize);
    rows.flat_map(|row| &mut row[1..]).filter(|bits| **bits == 0).for_each(|bits| *bits = SIGN);
}

/// The first two rows, where they have one area.
fn backwards(given: &mut pairs::Given) {
    let rows = &mut given.areas.surfaces;
    if given.record[16] > 1 && rows[0] == rows[4] {
        rows[..8].rotate_left(4);
    }
}

/// What a call can come to, and a kind in which many do; of refusal 1 those at the limits.
const CLASSES: [(&str, &str); 10] = [
    ("closed", "closed"),
    ("open", "hole"),
    ("degenerate", "double_sheet"),
    ("zero record", "zero_record"),
    ("refused 1", ""),
    ("refused 2", "unit_ends"),
    ("refused 3", "closed"),
    ("refused 4", "coordinate_ends"),
    ("refused 5", "closed"),
    ("refused 7", "closed"),
];

#[test]
fn the_way_round_is_found_wherever_it_shows() {
    for (of, kind) in CLASSES {
        match kinds().iter().position(|name| *name == kind) {
            Some(kind) => {
                assert_found_wherever_it_shows(of, way_round, &|port| on_kind(port, kind, 4_000).pairs.differ)
            }
            None => assert_found_wherever_it_shows(of, way_round, &|port| on_limits(port).pairs.differ),
        }
    }
}

/// Each of them alone, and all at once: every pair agrees, and those in which they differ are counted.
#[test]
fn the_exceptions_of_open_shells_agree() {
    for differ in EXCEPTIONS.map(|word| vec![word]).into_iter().chain([EXCEPTIONS.to_vec()]) {
        let fault: Fault = &|mesh, given| {
            if given.came_to(mesh) == "open" {
                differ.iter().for_each(|&word| given.record[word] ^= way_round(mesh));
            }
        };
        let count = sum(on_chance(&with(fault), 2_000)).pairs;
        assert_eq!(count.differ, 0, "{:?}", count.shown);
        for (word, times) in EXCEPTIONS.iter().zip(count.free) {
            let many = times > count.tally.verdicts[1] * 3 / 8;
            assert_eq!(many, differ.contains(word), "{word} of {differ:?}: {}", count.reached(&[]));
        }
    }
}

/// A volume of 0 has either sign, whatever the other one has.
#[test]
fn zeros_of_both_signs_agree() {
    for signs in [[0, SIGN], [SIGN, 0], [SIGN, SIGN], [0, 0]] {
        let fault: Fault = &|mesh, given| {
            if given.is_full(mesh) && given.record[VOLUME] & !SIGN == 0 {
                given.record[VOLUME] = signs[way_round(mesh) as usize];
            }
        };
        let count = sum(on_chance(&with(fault), 2_000));
        assert!(count.pairs.differ == 0 && count.no_volume > 100, "{:?}", count.pairs.shown);
    }
}

/// The id routines: a number or a word of the area that is not the same both ways round.
#[test]
#[cfg_attr(
    not(port),
    ignore = "the port's libraries were not built: at the root, tools/staticlib capi and tools/staticlib probe"
)]
fn planted_faults_in_id_routines_are_found() {
    type Wrong = fn(&[u32], &mut [u32]) -> u32;
    fn turned(ids: &[u32]) -> u32 {
        way_round(&plain(1.0, &[], ids))
    }
    let faults: [(&str, Wrong); 5] = [
        ("another number", |ids, work| (ROUTINES[0].port)(ids, work) ^ turned(ids)),
        ("the sign of a face", |ids, work| (ROUTINES[1].port)(ids, work) ^ (turned(ids) * (ids.len() == 3) as u32)),
        ("a word left", |ids, work| {
            let answer = (ROUTINES[2].port)(ids, work);
            work.iter_mut().take(1).for_each(|word| *word |= turned(ids));
            answer
        }),
        ("the last word of the area", |ids, work| {
            let answer = (ROUTINES[3].port)(ids, work);
            work.iter_mut().last().into_iter().for_each(|word| *word ^= turned(ids) * 4);
            answer
        }),
        ("another refusal", |ids, work| {
            let answer = (ROUTINES[4].port)(ids, work);
            answer + (answer == REFUSED | 3) as u32 * turned(ids)
        }),
    ];
    for ((what, port), routine) in faults.into_iter().zip(ROUTINES) {
        let counts = ids::on_all(&[Routine { port, ..routine }], 500);
        assert!(counts.iter().all(|(_, count)| count.differ > 0), "{what}");
    }
}

// ---- the pairs

#[test]
fn the_pairs_have_what_they_are_for() {
    let random = &mut Random::new(1);
    let pairs: Vec<Pair> = (0..kinds().len())
        .flat_map(|kind| (0..200).map(move |turn| mesh(kind, turn)))
        .map(|mesh| pair(mesh, random))
        .collect();
    for Pair { here, there, .. } in &pairs {
        let (one, rest) = here.ids.as_chunks::<3>();
        let (other, left) = there.ids.as_chunks::<3>();
        assert!(
            one.iter().map(|[a, b, c]| [a, c, b]).eq(other.iter().map(|triangle| triangle.each_ref())) && rest == left
        );
        assert!(here.vertices.iter().map(|x| x.to_bits()).eq(there.vertices.iter().map(|x| x.to_bits())));
        assert!(here.unit.to_bits() == there.unit.to_bits() && here.flags == there.flags);
        assert_eq!(reversed(there).ids, here.ids, "twice gives the first ids back");
    }
    let some = |test: &dyn Fn(&Pair) -> bool| pairs.iter().filter(|pair| test(pair)).count() > 20;
    for rest in 0..3 {
        assert!(some(&|pair| pair.here.vertices.len() % 3 == rest) && some(&|pair| pair.here.ids.len() % 3 == rest));
    }
    for (clip, defect) in (0..10).map(|i| (i / 5, i % 5)) {
        assert!(some(&|pair| (pair.clip, pair.defect) == (clip, defect)), "{clip} {defect}");
    }
    assert!(some(&|pair| pair.clip > 1 || pair.defect > 4));
    let half = pairs.iter().filter(|pair| pair.edition == 2).count();
    assert!(half.abs_diff(pairs.len() / 2) < pairs.len() / 40, "{half} of {}", pairs.len());
    assert!(some(&|pair| pair.edition == 1) && some(&|pair| !EDITIONS.contains(&pair.edition)));
    assert!(some(&|pair| pair.here.vertices.len() < 9) && some(&|pair| pair.here.ids.len() < 3));
    assert!(some(&|pair| pair.here.vertices.iter().any(|x| x.is_nan())));
    let past = |mesh: &MeshFile, id: u32| id as usize >= mesh.vertices.len() / 3;
    assert!(some(&|pair| pair.here.ids.iter().any(|&id| past(&pair.here, id))));
    assert!(some(&|pair| pair.here.ids.as_chunks::<3>().0.iter().any(|[a, b, c]| b == c || a == b)));
}

// ---- the stored pairs

const STORED: [&str; 8] = ["closed", "rows", "degenerate", "left_out", "refused", "bound", "trust", "rim"];

fn both(name: &str) -> [MeshFile; 2] {
    ["here", "there"].map(|place| stored(&format!("glove_{name}_{place}")))
}

#[test]
fn the_stored_pairs_are_gloves() {
    let names = by_hand().into_iter().map(|stored| stored.name).filter(|name| name.starts_with("glove_"));
    assert!(names.eq(STORED.iter().flat_map(|name| ["here", "there"].map(|place| format!("glove_{name}_{place}")))));
    for name in STORED {
        let [here, there] = both(name);
        assert!(reversed(&here).ids == there.ids && here.ids != there.ids, "{name}");
        let count = over(BASE, 5, vec![here; 20].into_iter());
        assert_eq!((count.pairs.agree, count.pairs.differ), (20, 0), "{name}: {:?}", count.pairs.shown);
    }
}

/// What each pair of the law itself is there for.
#[test]
fn the_stored_pairs_show_the_law() {
    let records = |name: &str| both(name).map(|mesh| left(BASE, 1, &mesh));
    let [here, there] = records("closed");
    let number = |record: &[u32], word: usize| f32::from_bits(record[word]);
    let measured = |record: &[u32]| [VOLUME, TOP, BOTTOM, 9].map(|word| number(record, word));
    assert_eq!(measured(&here.0), [3.5, 1.5, 6.0, 1.5]);
    assert_eq!(measured(&there.0), [-3.5, 6.0, 1.5, 1.5]);
    assert!(number(&here.0, 10) > 7.0 && differing(&here.0, &there.0) == [VOLUME, TOP, BOTTOM]);
    let [here, there] = records("rows");
    let rows =
        |surfaces: &[u32]| surfaces.as_chunks::<4>().0.iter().map(|row| row.map(f32::from_bits)).collect::<Vec<_>>();
    let (one, other) = (rows(&here.1[1]), rows(&there.1[1]));
    assert_eq!(one[1..], [[2.0, -1.0, 0.0, 0.0], [2.0, 0.0, -1.0, 0.0], [2.0, 0.0, 0.0, -1.0]]);
    assert_eq!(other[1..], [[2.0, 0.0, 0.0, 1.0], [2.0, 0.0, 1.0, 0.0], [2.0, 1.0, 0.0, 0.0]]);
    let [here, there] = records("degenerate");
    assert!(here == there && here.0[0] == 2 && number(&here.0, TOP) == 2.0 && number(&here.0, BOTTOM) == 2.0);
    let [here, there] = records("left_out");
    assert_eq!((here.0[17..20].to_vec(), there.0[17..20].to_vec()), (vec![2, 1, 1], vec![2, 1, 1]));
    let nan = |mesh: &MeshFile| mesh.vertices.iter().any(|x| x.is_nan());
    assert!(both("refused").iter().all(nan));
}

#[test]
fn each_exception_is_needed_of_the_original() {
    EDITIONS.into_iter().for_each(|edition| exceptions(ORIGINAL, edition));
}

#[test]
#[cfg_attr(
    not(port),
    ignore = "the port's libraries were not built: at the root, tools/staticlib capi and tools/staticlib probe"
)]
fn each_exception_is_needed_of_the_port() {
    EDITIONS.into_iter().for_each(|edition| exceptions(PORT, edition));
}

/// A triangle with its corners at thirds.
fn third(k: [u8; 9]) -> MeshFile {
    plain(1.0, &k.map(|k| k as f32 / 3.0), &[0, 1, 2])
}

/// In each pair so many of the four differ, and beside them nothing but cells, the volume's sign and the rows' normals: of
/// two that are stored, of one of them with a clip not applied, where trust is the same, and of one whose volume is
/// above both bounds. Then pairs in which of all that may differ only cells do.
fn exceptions(port: Port, edition: u32) {
    let clipped = |mesh: MeshFile| MeshFile { flags: Flags { clip: true, defect: 0 }, ..mesh };
    let above = third([2, 2, 1, 0, 1, 2, 3, 0, 3]);
    let (cells, bounds) = (1.0 / 65_536.0, [0.020_236_207, 0.019_766_236]);
    let volume = 0.020_833_334;
    for (name, [here, there], differ, bound, best) in [
        ("bound", both("bound"), &[BOUND][..], [22_016.0 * cells, 21_984.0 * cells], [0.037_037_037; 2]),
        (
            "best",
            [above.clone(), reversed(&above)],
            &[BEST, BOUND],
            [0.000_773_111_94, 0.000_250_922_3],
            [0.000_773_111_94, 0.000_250_922_3],
        ),
        ("method", both("trust").map(clipped), &[METHOD, BEST, BOUND], bounds, [volume, bounds[1]]),
        ("trust", both("trust"), &[RELIABLE, METHOD, BEST, BOUND], bounds, [volume, bounds[1]]),
    ] {
        let (one, other) = (left(port, edition, &here), left(port, edition, &there));
        let mut words = [differ, &[VOLUME]].concat();
        words.sort_unstable();
        let differ = differing(&one.0, &other.0);
        assert_eq!(differ.iter().copied().filter(|&word| word < COVERED).collect::<Vec<_>>(), words, "{name}");
        assert!(differ.iter().any(|&word| word >= COVERED), "no other bound without other cells: {name}");
        assert!(one.0[VOLUME] == other.0[VOLUME] ^ SIGN && one.1[0] == other.1[0] && one.2 == other.2, "{name}");
        let number = |word: usize| [one.0[word], other.0[word]].map(f32::from_bits);
        assert_eq!((number(BOUND), number(BEST)), (bound, best), "{name}");
    }
    let [here, there] = both("rim").map(|mesh| left(port, edition, &mesh).0);
    assert_eq!(differing(&here, &there), [VOLUME, RIM, RIM + 4]);
    assert_eq!(here[COVERED..], [32_811, 32, 32_896, 256, 22_016, 288]);
    assert_eq!(there[COVERED..], [32_811, 0, 32_896, 256, 22_016, 256]);
    // one footprint's rim alone, and its covered cells and rim, with nothing of the four; on any axes, and without volume
    for (axes, more) in [([0, 1, 2], 0), ([0, 2, 1], 2), ([2, 0, 1], 4)] {
        for (k, words) in [([3, 3, 3, 2, 0, 1, 0, 0, 0], &[RIM][..]), ([0, 3, 3, 3, 1, 0, 0, 0, 0], &[COVERED, RIM])] {
            let mesh = along(&third(k), axes);
            let [one, other] = [&mesh, &reversed(&mesh)].map(|mesh| left(port, edition, mesh).0);
            let differ: Vec<_> = differing(&one, &other).into_iter().filter(|&word| word != VOLUME).collect();
            assert!(differ.iter().copied().eq(words.iter().map(|word| word + more)), "{k:?}: {differ:?}");
        }
    }
}
