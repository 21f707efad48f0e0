//! Demand 3 as a property: the port and the original have it, a port that shows the place anywhere is found, and one that
//! differs in nothing but the exceptions is not. The faults are planted in the port where its library is linked, else in
//! the original. What asks the port alone is ignored, and says so, where its static libraries were not built.

use mowfrost_oracle::compute::compare::{Port, PORT, REFUSED};
use mowfrost_oracle::file::MeshFile;
use mowfrost_oracle::moves::compare::{on_chance, on_kind};
use mowfrost_oracle::moves::meshes::{kinds, pair, LEAST_UNIT, LIMIT};
use mowfrost_oracle::pairs::{Count, Pair};
use mowfrost_oracle::record::MOST;
use mowfrost_oracle::slopes::{Slope, EDITIONS, FIRST, SECOND};

mod pairs;
mod ways;

use pairs::{
    along, assert_found_wherever_it_shows, by_slope, differing, left, quieted, stored, taken_for, with, Fault, BASE,
    BEST, BOUND, COVERED, EXCEPTIONS, METHOD, ORIGINAL, RELIABLE, RIM,
};
use ways::{Way, RIGHT};

fn sum(counts: impl Iterator<Item = (&'static str, Count)>) -> Count {
    counts.fold(Count::default(), |mut sum, (_, count)| {
        sum.join(&count);
        sum.shown.extend(count.shown);
        sum
    })
}

#[test]
#[cfg_attr(
    not(port),
    ignore = "the port's libraries were not built: at the root, tools/staticlib capi and tools/staticlib probe"
)]
fn the_place_does_not_show_in_the_port() {
    let count = sum(on_chance(PORT, 20_000));
    assert_eq!((count.agree, count.differ), (20_000, 0), "{:?}", count.shown);
}

#[test]
fn nor_in_the_original_and_everything_is_reached() {
    let mut count = sum(on_chance(ORIGINAL, 8_000));
    assert_eq!((count.agree, count.differ), (8_000, 0), "{:?}", count.shown);
    // the last kind has those that are too large, seldom
    count.join(&on_kind(ORIGINAL, kinds().len() - 1, 20_000));
    assert_eq!(count.differ, 0);
    let [one, two, three, four, five, six, seven] = count.tally.refused;
    assert!(one > 0 && two > 200 && three > 800 && four == 0 && five > 200 && six == 0, "{}", count.reached(&[]));
    let [first, second, unknown] = count.editions;
    assert!(second.abs_diff(first + unknown) < second / 8 && unknown > seven, "{}", count.reached(&[]));
    assert!(seven > 200 && count.moved > 400, "{}", count.reached(&[]));
    assert!(count.tally.zero > 200 && count.tally.verdicts.iter().all(|&times| times > 300), "{}", count.reached(&[]));
    assert!(count.free.iter().all(|&times| times > 3), "{}", count.reached(&[]));
    assert!(count.covered > 100 && count.rim > 100 && count.rim_alone > 20, "{}", count.reached(&[]));
    assert_eq!(count.met.meshes, count.tally.verdicts.iter().sum());
    let counted = [count.met.all_used, count.met.range, count.met.sliver, count.met.both, count.met.none_used];
    assert!(counted.iter().all(|&times| times > 50), "{}", count.met.told());
    for nans in [count.stayed.refused, count.stayed.zero, count.stayed.behind] {
        assert!(nans.signalling > 1_000 && nans.quiet > 1_000, "{}", count.stayed.told());
    }
}

// ---- planted faults

fn found(port: Port) -> bool {
    on_chance(port, 8_000).any(|(_, count)| count.differ > 0)
}

fn first_x(mesh: &MeshFile) -> f32 {
    mesh.vertices.first().copied().unwrap_or(0.0)
}

fn is_far(mesh: &MeshFile) -> bool {
    mesh.vertices.iter().any(|x| x.abs() > (LIMIT / 2) as f32)
}

#[test]
fn planted_faults_are_found() {
    let faults: [(&str, Fault); 22] = [
        ("a rim cell of a closed shell far out", &|mesh, given| {
            if given.came_to(mesh) == "closed" && is_far(mesh) {
                given.record[RIM] = 1;
            }
        }),
        ("a cell of a degenerate mesh below zero", &|mesh, given| {
            if given.came_to(mesh) == "degenerate" && first_x(mesh) < 0.0 {
                given.record[COVERED] = 1;
            }
        }),
        ("a sliver more far out", &|mesh, given| {
            if given.is_full(mesh) && is_far(mesh) && given.record[17] > 0 {
                (given.record[17], given.record[19]) = (given.record[17] - 1, given.record[19] + 1);
            }
        }),
        ("out of range by a vertex below zero", &|mesh, given| {
            if given.is_full(mesh) && first_x(mesh) < 0.0 && given.record[17] > 0 {
                (given.record[17], given.record[18]) = (given.record[17] - 1, given.record[18] + 1);
            }
        }),
        ("a sliver of an open shell counted as used far out", &|mesh, given| {
            if given.came_to(mesh) == "open" && is_far(mesh) {
                (given.record[17], given.record[19]) = (given.record[17] + given.record[19], 0);
            }
        }),
        ("a box corner for the box", &|mesh, given| {
            if given.is_full(mesh) {
                given.record[5] = mesh.vertices.iter().step_by(3).copied().fold(f32::INFINITY, f32::min).to_bits();
            }
        }),
        ("weld cells left in the work area", &|mesh, given| {
            if given.is_full(mesh) {
                let cells = mesh.vertices.iter().map(|x| (x / (1e-4 / mesh.unit)) as i64 as u32);
                let part = &mut given.areas.work[5 * mesh.ids.len()..];
                part.iter_mut().zip(cells).take(8).for_each(|(word, cell)| *word = cell);
            }
        }),
        ("a raster byte left where no quarter is a digit any more", &|mesh, given| {
            if given.came_to(mesh) == "open" {
                given.areas.raster[65_535] = (first_x(mesh) + 0.25 == first_x(mesh)) as u8;
            }
        }),
        ("rows of equal area in another order below zero", &|mesh, given| {
            let rows = &mut given.areas.surfaces;
            if given.answer == 0 && given.record[16] > 1 && rows[0] == rows[4] && first_x(mesh) < 0.0 {
                rows[..8].rotate_left(4);
            }
        }),
        ("another verdict far out", &|mesh, given| {
            if given.came_to(mesh) == "closed" && is_far(mesh) {
                given.record[0] = 1;
            }
        }),
        ("another best volume of a closed shell far out", &|mesh, given| {
            if given.came_to(mesh) == "closed" && is_far(mesh) {
                given.record[BEST] += 1;
            }
        }),
        ("a bound of a degenerate mesh", &|mesh, given| {
            if given.came_to(mesh) == "degenerate" {
                given.record[BOUND] = first_x(mesh).abs().to_bits();
            }
        }),
        ("no bound of an open shell far out", &|mesh, given| {
            if given.came_to(mesh) == "open" && is_far(mesh) {
                given.record[14] = 0;
            }
        }),
        ("a work word of a refused call", &|mesh, given| {
            if given.answer != 0 {
                given.areas.work.iter_mut().take(1).for_each(|word| *word = first_x(mesh).to_bits());
            }
        }),
        ("how far a float left over on x is from the first vertex", &|mesh, given| {
            if given.is_full(mesh) && complete(mesh) < mesh.vertices.len() {
                given.record[6] = (mesh.vertices[complete(mesh)] - first_x(mesh)).to_bits();
            }
        }),
        ("the trust of a refused call where word 0 is that of an open shell", &|mesh, given| {
            if given.answer != 0 {
                (given.record[0], given.record[RELIABLE]) = (1, parity(mesh));
            }
        }),
        ("a surface word beside a zero record", &|mesh, given| {
            if given.came_to(mesh) == "zero record" {
                given.areas.surfaces.iter_mut().take(1).for_each(|word| *word = first_x(mesh).to_bits());
            }
        }),
        ("a signalling NaN behind the rows made quiet, in both places", &|mesh, given| {
            if given.is_full(mesh) {
                quieted(&mut given.areas.surfaces[4 * given.record[16] as usize..]);
            }
        }),
        ("a signalling NaN made quiet on a refusal, in both places", &|_, given| {
            if given.answer != 0 {
                quieted(given.areas.surfaces);
            }
        }),
        ("a vertex float written, in both places", &|_, given| {
            given.areas.vertices.iter_mut().take(1).for_each(|bits| *bits ^= 1);
        }),
        ("an id written, in both places", &|_, given| {
            given.areas.ids.iter_mut().take(1).for_each(|id| *id ^= 1);
        }),
        ("another refusal far out", &|mesh, given| {
            if given.came_to(mesh) == "refused 2" && is_far(mesh) {
                given.answer = REFUSED | 4;
            }
        }),
    ];
    assert!(!found(&with(&|_, _| {})), "nothing was planted");
    for (what, fault) in faults {
        assert!(found(&with(fault)), "{what}");
    }
    let beyond: Port = &|call, areas, record| if is_far(call.mesh) { REFUSED | 4 } else { BASE(call, areas, record) };
    assert!(found(beyond), "a refusal beyond 2^23");
    let metres = |mesh: &mut MeshFile| mesh.vertices.iter_mut().for_each(|x| *x = *x * mesh.unit / mesh.unit);
    let way = Way { mesh: metres, ..RIGHT };
    assert!(found(&|call, areas, record| way.call(call, areas, record)), "coordinates that were rounded in metres");
}

/// Both meshes are asked under one edition, and slopes are by the corners rebased.
#[test]
fn an_edition_of_one_place_is_found() {
    let one_place = |known: u32, other: u32| {
        found(&taken_for(|call| if call.edition == known && is_far(call.mesh) { other } else { call.edition }))
    };
    assert!(!one_place(1, 1));
    assert!(one_place(1, 2) && one_place(2, 1), "the other edition far out");
    assert!(one_place(2, 3), "an edition that is not known far out");
    assert!(
        found(&taken_for(|call| if is_far(call.mesh) { call.edition.clamp(1, 2) } else { call.edition })),
        "known far out"
    );
    assert!(!found(&by_slope(|_, nz| SECOND.slope(nz))), "02's rule");
    let below = |mesh: &MeshFile, nz: f32| {
        let on = nz == SECOND.top && first_x(mesh) < 0.0;
        if on {
            Slope::Top
        } else {
            SECOND.slope(nz)
        }
    };
    assert!(found(&by_slope(below)), "0.866 itself is top below zero");
    let far = |mesh: &MeshFile, nz: f32| if is_far(mesh) { FIRST.slope(nz) } else { SECOND.slope(nz) };
    assert!(found(&by_slope(far)), "edition 1's thresholds under 2 far out");
}

/// What a call can come to, and a kind in which many do.
const CLASSES: [(&str, &str); 9] = [
    ("closed", "boxes"),
    ("open", "open boxes"),
    ("degenerate", "flat"),
    ("zero record", "zero_record"),
    ("refused 1", "large"),
    ("refused 2", "closed"),
    ("refused 3", "closed"),
    ("refused 5", "closed"),
    ("refused 7", "closed"),
];

/// 0 or 1, and the other one where the mesh is moved by an odd number in all.
fn parity(mesh: &MeshFile) -> u32 {
    (mesh.vertices.iter().take(3).map(|x| *x as i64).sum::<i64>() & 1) as u32
}

/// In the answer, in a word of the record or at an end of an area, whatever a call comes to: the place is found, but for the
/// free words of an open shell.
#[test]
fn the_place_is_found_wherever_it_shows() {
    for (of, kind) in CLASSES {
        let kind = kinds().iter().position(|name| *name == kind).expect("a kind of that name");
        let n = if of == "refused 1" { 40_000 } else { 4_000 };
        assert_found_wherever_it_shows(of, parity, &|port| on_kind(port, kind, n).differ);
    }
}

/// Each of them alone, and all at once: every pair agrees, and those in which they differ are counted.
#[test]
fn the_exceptions_of_open_shells_agree() {
    for differ in EXCEPTIONS.map(|word| vec![word]).into_iter().chain([EXCEPTIONS.to_vec()]) {
        let fault: Fault = &|mesh, given| {
            if given.came_to(mesh) == "open" {
                differ.iter().for_each(|&word| given.record[word] ^= parity(mesh));
            }
        };
        let count = sum(on_chance(&with(fault), 2_000));
        assert_eq!(count.differ, 0, "{:?}", count.shown);
        for (word, times) in EXCEPTIONS.iter().zip(count.free) {
            let many = times > count.tally.verdicts[1] * 3 / 8;
            assert_eq!(many, differ.contains(word), "{word} of {differ:?}: {}", count.reached(&[]));
        }
    }
}

// ---- the pairs

/// How many of the floats vertices have.
fn complete(mesh: &MeshFile) -> usize {
    mesh.vertices.len() / 3 * 3
}

/// How far the vertices are moved along each axis; nothing where demand 3 does not speak of the two.
fn moved(here: &MeshFile, there: &MeshFile) -> Option<[i64; 3]> {
    let whole = |x: &f32| x.fract() == 0.0 && x.abs() <= LIMIT as f32 && x.to_bits() != (-0.0f32).to_bits();
    let alike = here.ids == there.ids && here.flags == there.flags && here.unit.to_bits() == there.unit.to_bits();
    let mut by = [None; 3];
    let even = here.vertices.iter().zip(&there.vertices).take(complete(here)).enumerate().all(|(i, (x, y))| {
        let step = *y as i64 - *x as i64;
        *by[i % 3].get_or_insert(step) == step
    });
    let same_length = here.vertices.len() == there.vertices.len();
    let all_whole = here.vertices.iter().chain(&there.vertices).all(whole);
    (alike && even && same_length && all_whole && here.unit >= LEAST_UNIT).then(|| by.map(|step| step.unwrap_or(0)))
}

#[test]
fn the_pairs_have_what_they_are_for() {
    let pairs: Vec<Pair> = (0..kinds().len()).flat_map(|kind| (0..300).map(move |turn| pair(kind, turn))).collect();
    let moves: Vec<[i64; 3]> =
        pairs.iter().map(|pair| moved(&pair.here, &pair.there).expect("demand 3 speaks of it")).collect();
    let some = |test: &dyn Fn(&Pair, [i64; 3]) -> bool| {
        pairs.iter().zip(&moves).filter(|(pair, by)| test(pair, **by)).count() > 20
    };
    let far = LIMIT as f32;
    for end in [-far, far] {
        assert!(
            some(&|pair, _| pair.here.vertices.contains(&end)) && some(&|pair, _| pair.there.vertices.contains(&end))
        );
    }
    let ends = |mesh: &MeshFile| {
        let all = || mesh.vertices.iter().step_by(3).copied();
        [all().fold(f32::INFINITY, f32::min), all().fold(f32::NEG_INFINITY, f32::max)]
    };
    let side = |mesh: &MeshFile| ends(mesh)[1] as i64 - ends(mesh)[0] as i64;
    assert!(some(&|pair, [x, ..]| side(&pair.here) > 0 && x.abs() == 2 * LIMIT - side(&pair.here)), "end to end");
    assert!(some(&|pair, _| side(&pair.here) > LIMIT && side(&pair.here) % 2 == 1), "a side of 25 digits");
    assert!(some(&|pair, _| side(&pair.here) == 1) && some(&|pair, _| ends(&pair.here)[1] < 0.0));
    assert!(
        some(&|_, by| by.contains(&0) && by != [0; 3]) && some(&|_, by| by.iter().all(|step| step.abs() > 1 << 20))
    );
    assert!(some(&|_, by| by.contains(&1)) && some(&|_, by| by.contains(&-1)));
    for unit in [LEAST_UNIT, LEAST_UNIT.next_up(), 0.01, 0.1, 1.0, 16.0, 16f32.next_up(), f32::INFINITY] {
        assert!(some(&|pair, _| pair.here.unit == unit), "{unit}");
    }
    for (clip, defect) in (0..10).map(|i| (i / 5, i % 5)) {
        assert!(some(&|pair, _| (pair.clip, pair.defect) == (clip, defect)), "{clip} {defect}");
    }
    assert!(some(&|pair, _| pair.clip > 1 || pair.defect > 4));
    let half = pairs.iter().filter(|pair| pair.edition == 2).count();
    // each kind has the same turns, and so the same chance
    assert!(half.abs_diff(pairs.len() / 2) < pairs.len() / 12, "{half} of {}", pairs.len());
    assert!(some(&|pair, _| pair.edition == 1) && some(&|pair, _| !EDITIONS.contains(&pair.edition)));
    for rest in 0..3 {
        assert!(
            some(&|pair, _| pair.here.vertices.len() % 3 == rest) && some(&|pair, _| pair.here.ids.len() % 3 == rest)
        );
    }
    let along =
        |pair: &Pair, by: [i64; 3], i: usize| pair.there.vertices[i] as i64 - pair.here.vertices[i] as i64 == by[i % 3];
    let left = |pair: &Pair| complete(&pair.here)..pair.here.vertices.len();
    assert!(some(&|pair, by| complete(&pair.here) > 8 && left(pair).any(|i| along(pair, by, i) && by[i % 3] != 0)));
    assert!(some(&|pair, by| complete(&pair.here) > 8 && left(pair).any(|i| !along(pair, by, i))));
    assert!(some(&|pair, _| pair.here.vertices.len() < 9) && some(&|pair, _| pair.here.ids.len() < 3));
    let past = |pair: &Pair, id: u32| id as usize >= pair.here.vertices.len() / 3;
    assert!(some(&|pair, _| pair.here.ids.iter().any(|&id| past(pair, id))));
    let large = kinds().len() - 1;
    let sizes: Vec<usize> = (0..1000).map(|turn| pair(large, turn).here.ids.len()).collect();
    assert!(sizes.iter().any(|&ids| ids > MOST) && sizes.iter().any(|&ids| ids > MOST - 400 && ids <= MOST));
}

// ---- the stored pairs

#[test]
fn each_exception_is_needed_of_the_original() {
    EDITIONS.into_iter().for_each(|edition| exceptions_of_the_stored_pairs(ORIGINAL, edition));
}

#[test]
#[cfg_attr(
    not(port),
    ignore = "the port's libraries were not built: at the root, tools/staticlib capi and tools/staticlib probe"
)]
fn each_exception_is_needed_of_the_port() {
    EDITIONS.into_iter().for_each(|edition| exceptions_of_the_stored_pairs(PORT, edition));
}

fn both(name: &str) -> [MeshFile; 2] {
    ["here", "there"].map(|place| stored(&format!("place_{name}_{place}")))
}

/// The rim cells of all three footprints.
const RIMS: [usize; 3] = [RIM, RIM + 2, RIM + 4];

/// In each pair of `stored::places` so many of the exceptions differ and nothing else.
fn exceptions_of_the_stored_pairs(port: Port, edition: u32) {
    let (half, most) = (257.0 / 512.0, 0.75);
    for (name, differ, best) in [
        ("bound", &[BOUND][..], [0.5, 0.5]),
        ("best", &[BEST, BOUND], [half, most]),
        ("trust", &[RELIABLE, METHOD, BEST, BOUND], [half, 2.0 / 3.0]),
        ("clip", &[METHOD, BEST, BOUND], [half, 2.0 / 3.0]),
    ] {
        let [here, there] = both(name);
        assert_eq!(moved(&here, &there), Some([1 << 23, 1 << 23, 0]));
        let (one, other) = (left(port, edition, &here), left(port, edition, &there));
        // from above another half of the square; from the other sides all of it, and the rim is all of it there
        assert_eq!(differing(&one.0, &other.0), [differ, &[COVERED], &RIMS].concat(), "{name}");
        assert!(one.1 == other.1 && one.2 == other.2, "{name}");
        let number = |word: usize| [one.0[word], other.0[word]].map(f32::from_bits);
        assert_eq!((number(BOUND), number(BEST)), ([half, most], best), "{name}");
    }
    for (name, by, differ, numbers) in [
        ("rims", [1 << 23, 1 << 23, 0], &RIMS[..], [256, 65_536]),
        ("rim", [-1 << 20, 0, 0], &[RIM], [0, 512]),
        ("covered", [0, -1 << 16, 0], &[COVERED], [32_896, 32_768]),
    ] {
        let [here, there] = both(name);
        assert_eq!(moved(&here, &there), Some(by));
        let (one, other) = (left(port, edition, &here), left(port, edition, &there));
        assert_eq!(differing(&one.0, &other.0), differ, "{name}");
        assert!(one.1 == other.1 && one.2 == other.2, "{name}");
        assert!(differ.iter().all(|&word| [one.0[word], other.0[word]] == numbers), "{name}");
    }
    // with other axes for x and y it is the other footprints' numbers, each alone
    for (name, word) in [("rim", RIM), ("covered", COVERED)] {
        for (axes, more) in [([0, 2, 1], 2), ([2, 0, 1], 4)] {
            let [one, other] = both(name).map(|mesh| left(port, edition, &along(&mesh, axes)).0);
            assert_eq!(differing(&one, &other), [word + more], "{name}");
        }
    }
}
