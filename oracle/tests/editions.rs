//! That `oracle compute` asks each mesh under both editions and under some that are not known (02, A6), and finds a port that measures
//! slopes or refuses by another rule.

use mowfrost_oracle::compute::areas::{Areas, WORDS};
use mowfrost_oracle::compute::compare::{on_chance, on_kind, on_limits, Call, Port, REFUSED};
use mowfrost_oracle::compute::editions::UNKNOWN;
use mowfrost_oracle::compute::meshes::{by_chance, kinds};
use mowfrost_oracle::counts::{crosses, length, SHORTEST};
use mowfrost_oracle::file::MeshFile;
use mowfrost_oracle::linked::bits;
use mowfrost_oracle::record::{
    compute_under, is_zero_record, original, Answer, Lent, FARTHEST, GREATEST_UNIT, LEAST_UNIT, MOST,
};
use mowfrost_oracle::slopes::{areas, areas_by, facets, thresholds, Slope, Thresholds, EDITIONS, FIRST, SECOND};

mod ways;

use ways::{Way, RIGHT};

// ---- other areas by slope

/// The kinds that are made for slopes come first.
fn found(port: Port) -> bool {
    let made = |name: &str| {
        let kind = kinds().iter().position(|other| *other == name).expect("a kind of that name");
        on_kind(port, kind, 12_000).differ > 0
    };
    made("at_thresholds") || made("second_slopes") || on_chance(port, 8_000).any(|(_, count)| count.differ > 0)
}

/// A port with other areas by slope in full records.
fn with_areas(areas: impl Fn(&MeshFile, u32) -> [f32; 4]) -> bool {
    found(&|call: &Call, lent: Areas, record: &mut [u32; WORDS]| {
        let answer = RIGHT.call(call, lent, record);
        if answer == 0 && !is_zero_record(call.mesh) {
            record[7..11].copy_from_slice(&bits(&areas(call.mesh, call.edition)));
        }
        answer
    })
}

/// By another rule under an edition that is known.
fn by(slope: impl Fn(f32, u32) -> Slope) -> bool {
    with_areas(|mesh, edition| areas_by(&mesh.vertices, &mesh.ids, mesh.unit, |nz| slope(nz, edition)))
}

fn known(edition: u32) -> Thresholds {
    thresholds(edition).expect("it is known")
}

fn areas_of(mesh: &MeshFile, edition: u32) -> [f32; 4] {
    areas(&mesh.vertices, &mesh.ids, mesh.unit, known(edition))
}

/// By other thresholds under edition 2.
fn by_thresholds(other: Thresholds) -> bool {
    by(|nz, edition| if edition == 2 { other.slope(nz) } else { FIRST.slope(nz) })
}

#[test]
fn other_thresholds_are_found() {
    assert!(!by(|nz, edition| known(edition).slope(nz)), "02's rule");
    assert!(!by_thresholds(SECOND), "02's rule once more");
    assert!(by_thresholds(FIRST), "edition 1's under both");
    assert!(by(|nz, _| SECOND.slope(nz)), "edition 2's under both");
    assert!(by(|nz, edition| known(3 - edition).slope(nz)), "each in the other's place");
    assert!(by_thresholds(Thresholds { top: FIRST.top, ..SECOND }), "the side's alone");
    assert!(by_thresholds(Thresholds { side: FIRST.side, ..SECOND }), "top and bottom's alone");
    assert!(by_thresholds(Thresholds { top: SECOND.top.next_up(), ..SECOND }), "top and bottom a step above");
    assert!(by_thresholds(Thresholds { top: SECOND.top.next_down(), ..SECOND }), "top and bottom a step under");
    assert!(by_thresholds(Thresholds { side: SECOND.side.next_up(), ..SECOND }), "side a step above");
    assert!(by_thresholds(Thresholds { side: SECOND.side.next_down(), ..SECOND }), "side a step under");
    assert!(by_thresholds(Thresholds { top: 0.866_025_4, ..SECOND }), "the cosine of 30 degrees");
    assert!(by_thresholds(Thresholds { top: FIRST.side, side: FIRST.top }), "top for side");
}

#[test]
fn comparisons_that_are_not_strict_are_found() {
    let Thresholds { top, side } = SECOND;
    let on = |at: f32, slope: Slope| {
        by(|nz, edition| if edition == 2 && nz == at { slope } else { known(edition).slope(nz) })
    };
    assert!(on(top, Slope::Top), "0.866 is top");
    assert!(on(-top, Slope::Bottom), "-0.866 is bottom");
    assert!(on(side, Slope::Side), "0.5 is side");
    assert!(on(-side, Slope::Side), "-0.5 is side");
    assert!(on(top.next_up(), Slope::Inclined), "a step above 0.866 is inclined");
    assert!(on(-top.next_up(), Slope::Inclined), "a step under -0.866 is inclined");
    assert!(on(side.next_down(), Slope::Inclined), "a step under 0.5 is inclined");
    assert!(on(-side.next_down(), Slope::Inclined), "a step above -0.5 is inclined");
    assert!(by(|nz, edition| known(edition).slope(nz.abs())), "bottom is top");
    let down = |nz: f32, edition: u32| match known(edition).slope(nz) {
        Slope::Side if nz < 0.0 => Slope::Inclined,
        right => right,
    };
    assert!(by(down), "a side that looks down is inclined");
}

/// The z as it is before it is narrowed, by 02's decimals.
fn wide(mesh: &MeshFile, edition: u32) -> [f32; 4] {
    let mut sums = [0.0f32; 4];
    for cross in crosses(&mesh.vertices, &mesh.ids).flatten() {
        let long = length(cross);
        let z = cross[2] * (1.0 / long);
        let (top, side) = if edition == 1 { (0.940, 0.342) } else { (0.866, 0.5) };
        let slope = [z > top, z < -top, z.abs() < side, true].iter().position(|holds| *holds).unwrap_or(3);
        if long >= SHORTEST {
            sums[slope] += (0.5 * long) as f32;
        }
    }
    sums.map(|area| area * (mesh.unit * mesh.unit))
}

fn summed(
    mesh: &MeshFile,
    edition: u32,
    add: impl Fn(&mut [f64; 4], usize, f32),
    last: fn(f64, f32) -> f32,
) -> [f32; 4] {
    let mut sums = [0.0f64; 4];
    for facet in facets(&mesh.vertices, &mesh.ids) {
        add(&mut sums, known(edition).slope(facet.nz) as usize, facet.area);
    }
    sums.map(|sum| last(sum, mesh.unit))
}

#[test]
fn other_sums_are_found() {
    assert!(with_areas(wide), "compared before it is narrowed");
    let right = |sum: f64, unit: f32| sum as f32 * (unit * unit);
    let narrow = |sums: &mut [f64; 4], slope: usize, area: f32| sums[slope] = (sums[slope] as f32 + area) as f64;
    assert!(!with_areas(|mesh, edition| summed(mesh, edition, narrow, right)), "01's sums");
    let wide = |sums: &mut [f64; 4], slope: usize, area: f32| sums[slope] += area as f64;
    assert!(with_areas(|mesh, edition| summed(mesh, edition, wide, right)), "in f64");
    let unit_by_unit = |sum: f64, unit: f32| sum as f32 * unit * unit;
    assert!(with_areas(|mesh, edition| summed(mesh, edition, narrow, unit_by_unit)), "times u, times u");
    let backwards = |mesh: &MeshFile, edition: u32| {
        let mut other = mesh.clone();
        other.ids.truncate(other.ids.len() / 3 * 3);
        other.ids = other.ids.rchunks_exact(3).flatten().copied().collect();
        areas_of(&other, edition)
    };
    assert!(with_areas(backwards), "in another order");
    let rest = |mesh: &MeshFile, edition: u32| {
        let [top, bottom, side, inclined] = areas_of(mesh, edition);
        let all = original(&mesh.vertices, &mesh.ids, mesh.unit).surface;
        [top, bottom, side, if edition == 2 { all - top - bottom - side } else { inclined }]
    };
    assert!(with_areas(rest), "inclined is what is left of the surface");
    let moved = |mesh: &MeshFile, edition: u32| {
        let first = areas_of(mesh, 1);
        let [top, bottom, side, inclined] = areas_of(mesh, edition);
        // what moved, taken off what was inclined
        let off = [top - first[0], bottom - first[1], side - first[2]].iter().sum::<f32>();
        [top, bottom, side, if edition == 2 { first[3] - off } else { inclined }]
    };
    assert!(with_areas(moved), "inclined is what edition 1 has less what moved");
}

/// Whatever is not an area by slope is the same under both.
#[test]
fn an_edition_that_shows_elsewhere_is_found() {
    for word in (0..WORDS).filter(|word| !(7..11).contains(word)) {
        let port = |call: &Call, areas: Areas, record: &mut [u32; WORDS]| {
            let answer = RIGHT.call(call, areas, record);
            record[word] ^= (answer == 0 && call.edition == 2) as u32;
            answer
        };
        assert!(found(&port), "word {word}");
    }
    let rows = |call: &Call, mut areas: Areas, record: &mut [u32; WORDS]| {
        let answer = RIGHT.answer(call, &mut areas, record);
        if answer == 0 && !is_zero_record(call.mesh) && call.edition == 2 {
            areas.surfaces.iter_mut().take(1).for_each(|bits| *bits ^= 1);
        }
        answer
    };
    assert!(found(&rows), "the area of a row");
    let work = |call: &Call, mut areas: Areas, record: &mut [u32; WORDS]| {
        let answer = RIGHT.answer(call, &mut areas, record);
        if answer == 0 && !is_zero_record(call.mesh) {
            areas.work[0] = (call.edition == 2) as u32;
        }
        answer
    };
    assert!(found(&work), "the edition left in the work area");
    let zero = |call: &Call, areas: Areas, record: &mut [u32; WORDS]| {
        let answer = RIGHT.call(call, areas, record);
        if answer == 0 && is_zero_record(call.mesh) {
            record[7] = (call.edition == 2) as u32;
        }
        answer
    };
    assert!(found(&zero), "an area of a zero record");
}

// ---- refusal 7

fn exact(mesh: &MeshFile) -> Lent {
    Lent::exactly(mesh.vertices.len(), mesh.ids.len())
}

fn unknown(edition: u32) -> bool {
    thresholds(edition).is_none()
}

/// A port that takes another edition for the one that is named.
fn taken_for(edition: fn(u32) -> u32) -> bool {
    found(&|call: &Call, areas: Areas, record: &mut [u32; WORDS]| {
        RIGHT.call(&Call { edition: edition(call.edition), ..*call }, areas, record)
    })
}

#[test]
fn editions_that_are_taken_for_others_are_found() {
    assert!(!taken_for(|edition| edition));
    assert!(taken_for(|_| 1), "none is looked at");
    assert!(taken_for(|edition| if unknown(edition) { 1 } else { edition }), "1 for any that is not known");
    assert!(taken_for(|edition| if unknown(edition) { 2 } else { edition }), "2 for any that is not known");
    assert!(taken_for(|edition| edition.max(1)), "1 for 0");
    assert!(taken_for(|edition| if edition == 3 { 2 } else { edition }), "2 for 3");
    assert!(taken_for(|edition| edition & 0xff), "by the lowest byte");
    assert!(taken_for(|edition| edition & 0xffff), "by the low half");
    assert!(taken_for(|edition| edition & 0x7fff_ffff), "without the highest bit");
    assert!(taken_for(|edition| if edition == u32::MAX { 1 } else { edition }), "1 for the last number");
    assert!(taken_for(|edition| if edition == 2 { 3 } else { edition }), "2 is not known");
}

/// What each refusal is given for, in a call that has several faults.
fn too_many(call: &Call) -> bool {
    call.mesh.vertices.len() > MOST || call.mesh.ids.len() > MOST
}

fn bad_unit(call: &Call) -> bool {
    !(LEAST_UNIT..=GREATEST_UNIT).contains(&call.mesh.unit)
}

fn bad_flags(call: &Call) -> bool {
    call.clip > 1 || call.defect > 4
}

fn short(call: &Call, areas: &Areas) -> bool {
    let lent = Lent { work: areas.work.len(), raster: areas.raster.len(), surfaces: areas.surfaces.len() };
    !lent.holds(exact(call.mesh))
}

fn too_far(call: &Call) -> bool {
    !call.mesh.vertices.iter().all(|x| x.abs() <= FARTHEST)
}

type When = fn(&Call, &Areas) -> bool;

/// A port that gives this refusal under an edition that is not known, whatever comes first.
fn gives(number: u32, when: When) -> impl Fn(&Call, Areas, &mut [u32; WORDS]) -> u32 {
    move |call, areas, record| {
        if unknown(call.edition) && when(call, &areas) {
            REFUSED | number
        } else {
            RIGHT.call(call, areas, record)
        }
    }
}

#[test]
fn refusal_7_has_its_place() {
    let wrong: [(&str, u32, When); 6] = [
        ("7 before 5", 7, |call, _| bad_flags(call)),
        ("7 before the zero record", 7, |call, _| !bad_flags(call) && is_zero_record(call.mesh)),
        ("7 before 2", 7, |call, _| !bad_flags(call) && bad_unit(call) && !is_zero_record(call.mesh)),
        ("3 before 7", 3, |call, areas| {
            !bad_flags(call) && !is_zero_record(call.mesh) && !bad_unit(call) && short(call, areas)
        }),
        ("4 before 7", 4, |call, _| !bad_flags(call) && !is_zero_record(call.mesh) && !bad_unit(call) && too_far(call)),
        ("another number", 8, |call, _| !bad_flags(call) && !is_zero_record(call.mesh) && !bad_unit(call)),
    ];
    for (what, number, when) in wrong {
        assert!(found(&gives(number, when)), "{what}");
    }
    assert!(!found(&gives(7, |_, _| false)), "nothing is wrong");
    let at_limits = |number: u32, when: When| on_limits(&gives(number, when)).differ > 0;
    assert!(at_limits(7, |call, _| !bad_flags(call) && too_many(call)), "7 before 1");
    assert!(!at_limits(7, |_, _| false), "nothing is wrong");
}

/// Under an edition that is not known a refusal is 1, 2, 5 or 7, in that table's order, or there is nothing to measure.
#[test]
fn what_comes_back_under_an_edition_that_is_not_known() {
    let mut times = [0; 4];
    let chance = (0..kinds().len()).flat_map(|kind| (0..60).map(move |turn| by_chance(kind, turn)));
    for (mesh, edition) in chance.zip(UNKNOWN.into_iter().cycle()) {
        for lent in [exact(&mesh), Lent { work: 0, raster: 0, surfaces: 0 }] {
            let call = Call::of(&mesh, edition);
            let (place, right) = match (is_zero_record(&mesh), bad_unit(&call)) {
                (true, _) => (0, None),
                (false, true) => (1, Some(2)),
                (false, false) => (2 + too_far(&call) as usize, Some(7)),
            };
            match compute_under(&mesh, edition, lent) {
                Answer::Refused(number) => assert_eq!(Some(number), right),
                Answer::Record(record, _) => {
                    assert!(right.is_none() && record.rows.is_empty() && record.slopes() == [0.0; 4]);
                }
            }
            times[place] += 1;
        }
    }
    assert!(times.iter().all(|&times| times > 200), "{times:?}");
}

#[test]
fn what_is_written_beside_refusal_7_is_found() {
    type Spoil = fn(&mut Areas, &mut [u32; WORDS]);
    let spoils: [(&str, Spoil); 7] = [
        ("a word of the record", |_, record| record[7] = 0),
        ("the whole record", |_, record| record.fill(0)),
        ("the first work word", |areas, _| areas.work.iter_mut().take(1).for_each(|word| *word = 0)),
        ("the last work word", |areas, _| areas.work.iter_mut().rev().take(1).for_each(|word| *word = 0)),
        ("the raster", |areas, _| areas.raster.fill(0)),
        ("a float of the surface area", |areas, _| areas.surfaces.iter_mut().take(1).for_each(|bits| *bits = 0)),
        ("a signalling NaN made quiet", |areas, _| {
            let nan = |bits: &&mut u32| f32::from_bits(**bits).is_nan();
            areas.surfaces.iter_mut().filter(nan).for_each(|bits| *bits |= 0x0040_0000);
        }),
    ];
    for (what, spoil) in spoils {
        let port = |call: &Call, mut areas: Areas, record: &mut [u32; WORDS]| {
            let answer = RIGHT.answer(call, &mut areas, record);
            if answer == REFUSED | 7 {
                spoil(&mut areas, record);
            }
            answer
        };
        assert!(found(&port), "{what}");
    }
    let id = |answer: u32, _: &MeshFile, areas: &mut Areas, _: &mut [u32; WORDS]| {
        if answer == REFUSED | 7 {
            areas.ids.iter_mut().take(1).for_each(|id| *id ^= 1);
        }
    };
    let way = Way { last: id, ..RIGHT };
    assert!(found(&|call, areas, record| way.call(call, areas, record)), "an id");
}

/// The two that are known are asked of every mesh.
#[test]
fn both_editions_are_asked_of_every_mesh() {
    let port: Port = &|call, areas, record| RIGHT.call(call, areas, record);
    let kind = kinds().iter().position(|name| *name == "second_slopes").expect("a kind of that name");
    let count = on_kind(port, kind, 20_000);
    let [first, other, unknown] = &count.editions.tallies;
    let told = count.editions.told().join("; ");
    assert!(
        count.differ == 0 && first.verdicts == other.verdicts && first.refused[..4] == other.refused[..4],
        "{told}"
    );
    assert!(unknown.verdicts == [0; 3] && unknown.refused[6] > 500 && unknown.refused[2..4] == [0; 2], "{told}");
    assert_eq!(first.sum() + other.sum() + unknown.sum(), count.agree);
    assert!(count.editions.other * 5 > count.editions.meshes * 4, "{told}");
    assert!(count.editions.moved.iter().all(|&times| times > 100), "{told}");
    assert_eq!(EDITIONS, [1, 2]);
}
