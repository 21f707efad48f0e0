//! The port's record beside document 01's: large meshes and some thousand by chance here, more by `oracle compute N`. That
//! the comparison finds mistakes is tried with ports written for it (`ways`), so all but the first test run without the library; that one is
//! ignored then, and says so.

use mowfrost_oracle::compute::areas::{Areas, WORDS};
use mowfrost_oracle::compute::compare::{on_chance, on_large, on_limits, Call, Count, Port};
use mowfrost_oracle::compute::meshes::{by_chance, kinds, large, limits};
use mowfrost_oracle::compute::nans::{Stayed, ENDS};
use mowfrost_oracle::compute::split::{bad_places, is_bad, split_badly};
use mowfrost_oracle::counts::{counts, lengths, Counts, SHORTEST};
use mowfrost_oracle::file::{Flags, MeshFile};
use mowfrost_oracle::record::{is_zero_record, original, Lent, Record, FARTHEST, MOST, RASTER_BYTES};

mod ways;

use ways::{Way, RIGHT};

fn sum(counts: impl Iterator<Item = (&'static str, Count)>) -> Count {
    counts.fold(Count::default(), |mut sum, (_, count)| {
        sum.join(&count);
        sum.shown.extend(count.shown);
        sum
    })
}

#[test]
#[cfg_attr(
    not(port),
    ignore = "the port's libraries were not built: at the root, tools/staticlib capi and tools/staticlib probe"
)]
fn every_record_agrees() {
    use mowfrost_oracle::compute::compare::{all, PORT};
    let count = sum(all(PORT, 10_000));
    assert_eq!(count.differ, 0, "{:?}", count.shown);
}

fn found(port: Port) -> bool {
    on_chance(port, 8_000).any(|(_, count)| count.differ > 0)
}

impl Way {
    fn found(&self) -> bool {
        let port = |call: &Call, areas: Areas, record: &mut [u32; WORDS]| self.call(call, areas, record);
        found(&port)
    }
}

#[test]
fn the_right_way_agrees_and_reaches_everything() {
    let port: Port = &|call, areas, record| RIGHT.call(call, areas, record);
    let (chance, limits, large) = (sum(on_chance(port, 20_000)), on_limits(port), on_large(port));
    for count in [&chance, &limits, &large] {
        assert_eq!(count.differ, 0, "{:?}", count.shown);
        assert!(count.tally.refused[2] > 20 && count.tally.refused[4] > 50);
    }
    let [one, two, three, four, five, six, seven] = chance.tally.refused;
    assert!(one == 0 && two > 6_000 && three > 40_000 && four > 4_000 && five > 2_000, "{:?}", chance.tally.refused);
    assert!(six == 0 && seven > 20_000, "{:?}", chance.tally.refused);
    assert!(
        chance.tally.zero > 5_000 && chance.tally.verdicts.iter().all(|&times| times > 2_000),
        "{}",
        chance.reached()
    );
    assert!(chance.near > 100 && chance.otherwise > 0, "{}", chance.reached());
    let (counted, [told, celled]) = (&chance.counted, chance.counted.told());
    assert_eq!((counted.full, counted.zero), (chance.tally.verdicts.iter().sum(), chance.tally.zero));
    assert!(counted.met.all_used > 5_000 && counted.met.range > 1_000 && counted.met.sliver > 1_000, "{told}");
    assert!(counted.met.both > 200 && counted.met.none_used > 500, "{told}");
    assert!(counted.limit.iter().all(|&times| times > 10), "{told}");
    assert_eq!(counted.open, chance.tally.verdicts[1]);
    let cells = counted.cells;
    assert!(cells.footprints > 20_000 && cells.rim > 2_000 && cells.rim_alone > 200, "{celled}");
    assert!(cells.of_two > 300 && cells.of_more > 300 && cells.inside_another > 500, "{celled}");
    let Stayed { refused, zero, behind, vertices } = chance.stayed;
    for nans in [refused, zero, behind, vertices] {
        assert!(nans.signalling > 10_000 && nans.quiet > 10_000, "{}", chance.stayed.told());
    }
    let refused = |number: usize| limits.tally.refused[number - 1];
    assert!([1, 2, 3, 4, 5, 7].iter().all(|&number| refused(number) > 5), "{}", limits.reached());
    assert!(limits.tally.zero > 30, "{}", limits.reached());
    assert!(large.tally.verdicts.iter().all(|&times| times > 3), "{}", large.reached());
}

#[test]
fn wrong_areas_are_found() {
    assert!(!RIGHT.found());
    assert!(Way { more: (-1, 0), ..RIGHT }.found(), "a work word left");
    assert!(Way { more: (1, 0), ..RIGHT }.found(), "a work word too many");
    assert!(Way { more: (0, -1), ..RIGHT }.found(), "a raster byte left");
    assert!(Way { more: (0, 1), ..RIGHT }.found(), "a raster byte too many");
    let first = |answer: u32, _: &MeshFile, areas: &mut Areas, _: &mut [u32; WORDS]| {
        if answer > 0 {
            areas.work.iter_mut().take(1).for_each(|word| *word = 0);
        }
    };
    assert!(Way { last: first, ..RIGHT }.found(), "a work word on a refusal");
    let raster = |answer: u32, mesh: &MeshFile, areas: &mut Areas, _: &mut [u32; WORDS]| {
        if answer == 0 && is_zero_record(mesh) {
            areas.raster.fill(0);
        }
    };
    assert!(Way { last: raster, ..RIGHT }.found(), "the raster with a zero record");
    let record = |answer: u32, _: &MeshFile, _: &mut Areas, record: &mut [u32; WORDS]| {
        if answer > 0 {
            record[16] = 0;
        }
    };
    assert!(Way { last: record, ..RIGHT }.found(), "the record on a refusal");
    let behind = |answer: u32, mesh: &MeshFile, areas: &mut Areas, record: &mut [u32; WORDS]| {
        if answer == 0 && !is_zero_record(mesh) {
            areas.surfaces.iter_mut().skip(4 * record[16] as usize).take(4).for_each(|word| *word = 0);
        }
    };
    assert!(Way { last: behind, ..RIGHT }.found(), "a row behind the rows");
}

const QUIET: u32 = 0x0040_0000;

/// Another NaN for a NaN, and whether a call came to something.
type Other = fn(u32) -> u32;
type Of = fn(u32, &MeshFile) -> bool;

/// Each NaN of a slice of floats becomes another.
fn other_nans(floats: &mut [u32], other: Other) {
    floats.iter_mut().filter(|bits| f32::from_bits(**bits).is_nan()).for_each(|bits| *bits = other(*bits));
}

/// What a port may make of NaNs that have to stay, wherever they stand.
#[test]
fn another_nan_is_found() {
    let others: [(&str, Other); 4] = [
        ("a signalling one made quiet", |bits| bits | QUIET),
        ("a quiet one made signalling", |bits| if bits & (QUIET - 1) > 0 { bits & !QUIET } else { bits }),
        ("the sign taken away", |bits| bits & 0x7fff_ffff),
        ("digits taken away", |bits| bits & 0x8000_0000 | 0x7fc0_0000),
    ];
    let places: [(&str, Of); 3] = [
        ("on a refusal", |answer, _| answer > 0),
        ("beside a zero record", |answer, mesh| answer == 0 && is_zero_record(mesh)),
        ("behind rows", |answer, mesh| answer == 0 && !is_zero_record(mesh)),
    ];
    for (what, other) in others {
        for (place, of) in places {
            let port = |call: &Call, mut areas: Areas, record: &mut [u32; WORDS]| {
                let answer = RIGHT.answer(call, &mut areas, record);
                if of(answer, call.mesh) {
                    other_nans(areas.surfaces, other);
                }
                answer
            };
            assert!(found(&port), "{what} {place}");
        }
        let port = |call: &Call, mut areas: Areas, record: &mut [u32; WORDS]| {
            let answer = RIGHT.answer(call, &mut areas, record);
            other_nans(areas.vertices, other);
            answer
        };
        assert!(found(&port), "{what} among vertices");
    }
}

#[test]
fn a_mesh_that_was_written_is_found() {
    let positive = |_: u32, _: &MeshFile, areas: &mut Areas, _: &mut [u32; WORDS]| {
        areas.vertices.iter_mut().filter(|bits| **bits == 0x8000_0000).for_each(|bits| *bits = 0);
    };
    assert!(Way { last: positive, ..RIGHT }.found(), "0 for -0 among vertices");
    let id = |answer: u32, _: &MeshFile, areas: &mut Areas, _: &mut [u32; WORDS]| {
        if answer > 0 {
            areas.ids.iter_mut().take(1).for_each(|id| *id ^= 1);
        }
    };
    assert!(Way { last: id, ..RIGHT }.found(), "an id on a refusal");
    let welded = |answer: u32, mesh: &MeshFile, areas: &mut Areas, _: &mut [u32; WORDS]| {
        if answer == 0 && !is_zero_record(mesh) {
            areas.ids.iter_mut().rev().take(1).for_each(|id| *id = id.wrapping_sub(1));
        }
    };
    assert!(Way { last: welded, ..RIGHT }.found(), "the last id of a full record");
}

fn bad_coordinate(mesh: &MeshFile) -> bool {
    !is_zero_record(mesh) && !mesh.vertices.iter().all(|x| x.abs() <= FARTHEST)
}

fn bad_unit(mesh: &MeshFile) -> bool {
    !(1.0 / 1_048_576.0..=16.0).contains(&mesh.unit)
}

#[test]
fn wrong_refusals_are_found() {
    let early = |mesh: &MeshFile, _: Lent| (!bad_unit(mesh) && bad_coordinate(mesh)).then_some(4);
    assert!(Way { first: early, ..RIGHT }.found(), "4 before 3");
    assert!(Way { first: |mesh, _| bad_unit(mesh).then_some(2), ..RIGHT }.found(), "2 before the zero record");
    let short = |mesh: &MeshFile, lent: Lent| {
        (!is_zero_record(mesh) && !lent.holds(Lent::exactly(mesh.vertices.len(), mesh.ids.len()))).then_some(3)
    };
    assert!(Way { first: short, ..RIGHT }.found(), "3 before 2");
    let short = |_: &MeshFile, lent: Lent| (lent.raster < RASTER_BYTES).then_some(3);
    assert!(Way { first: short, ..RIGHT }.found(), "3 before the zero record");
    let leftover = |mesh: &mut MeshFile| {
        let whole = mesh.vertices.len() / 3 * 3;
        mesh.vertices[whole..].fill(0.0);
    };
    assert!(Way { mesh: leftover, ..RIGHT }.found(), "a leftover float passed over");
    assert!(Way { asked: |_, lent| Lent { work: lent.work + 1, ..lent }, ..RIGHT }.found(), "a work word less asked");
    assert!(Way { asked: |_, lent| Lent { raster: lent.raster + 1, ..lent }, ..RIGHT }.found(), "a byte less asked");
    assert!(
        Way { asked: |_, lent| Lent { surfaces: lent.surfaces + 1, ..lent }, ..RIGHT }.found(),
        "a float less asked"
    );
    let more = |_: &MeshFile, lent: Lent| Lent { work: lent.work.saturating_sub(1), ..lent };
    assert!(Way { asked: more, ..RIGHT }.found(), "a work word more asked");
    let any = |clip: u32, defect: u32| Some(Flags { clip: clip & 1 == 1, defect: (defect % 5) as u8 });
    assert!(Way { flags: any, ..RIGHT }.found(), "every flag known");
    let low = |clip: u32, defect: u32| (RIGHT.flags)(clip & 0xff, defect & 0xff);
    assert!(Way { flags: low, ..RIGHT }.found(), "flags by their low bits");
    let late = |call: &Call, areas: Areas, record: &mut [u32; WORDS]| {
        let (clip, defect) =
            if is_zero_record(call.mesh) { (call.clip.min(1), call.defect.min(4)) } else { (call.clip, call.defect) };
        RIGHT.call(&Call { clip, defect, ..*call }, areas, record)
    };
    assert!(found(&late), "5 after the zero record");
}

#[test]
fn refusal_1_has_its_place() {
    let port = |first: fn(&MeshFile, Lent) -> Option<u32>| {
        let way = Way { first, ..RIGHT };
        on_limits(&|call, areas, record| way.call(call, areas, record)).differ > 0
    };
    assert!(!port(|_, _| None));
    assert!(port(|mesh, _| bad_unit(mesh).then_some(2)), "2 before 1");
    assert!(port(|mesh, _| bad_coordinate(mesh).then_some(4)), "4 before 1");
    assert!(port(|mesh, _| (mesh.ids.len() >= MOST).then_some(1)), "one id less allowed");
    assert!(port(|mesh, _| (mesh.vertices.len() >= MOST).then_some(1)), "one float less allowed");
    assert!(port(|mesh, _| is_zero_record(mesh).then_some(9)), "no zero record");
}

#[test]
fn a_wrong_record_is_found() {
    let found = |words: fn(&mut [u32; WORDS])| Way { words, ..RIGHT }.found();
    assert!(found(|words| words[12] = words[11]), "largest for smallest");
    assert!(found(|words| words[4] &= 0x7fff_ffff), "volume without its sign");
    assert!(found(|words| words[4] = if words[4] == 0x8000_0000 { 0 } else { words[4] }), "0 for -0");
    assert!(found(|words| words[15] |= if words[14] == 0 { 0x7fc0_0000 } else { 0 }), "prism bits where not computed");
    assert!(found(|words| words[14] = 1), "a bound that was not computed");
    assert!(found(|words| words.swap(7, 8)), "top and bottom");
    assert!(found(|words| words[1] |= (words[2] == 3) as u32), "reliable though unclipped");
    assert!(found(|words| words[3] = 0), "no defect recorded");
    assert!(found(|words| words[2] = if words[2] == 1 { 0 } else { words[2] }), "mesh for mesh_open");
    assert!(found(|words| words[16] = words[16].min(64)), "at most 64 rows");
    let swapped = |clip: u32, defect: u32| (RIGHT.flags)(defect.min(1), clip).filter(|_| defect < 5 && clip < 2);
    assert!(Way { flags: swapped, ..RIGHT }.found(), "clip and defect swapped");
    let found = |record: fn(&MeshFile, &mut Record)| Way { record, ..RIGHT }.found();
    assert!(found(|_, record| record.rows.reverse()), "rows in another order");
    let by_area = |_: &MeshFile, record: &mut Record| {
        record.rows.sort_by(|a, b| b[0].total_cmp(&a[0]).then(b[1].total_cmp(&a[1])));
    };
    assert!(found(by_area), "rows of equal area by falling nx");
    let both = |mesh: &MeshFile, record: &mut Record| {
        if mesh.flags.clip && mesh.flags.defect > 0 && record.method == "mesh_unclipped" {
            record.method = "mesh_profile_invalid";
        }
    };
    assert!(found(both), "defect before clip");
    let no_flags = |mesh: &MeshFile, record: &mut Record| {
        if is_zero_record(mesh) {
            record.profile = None;
        }
    };
    assert!(found(no_flags), "no defect beside a zero record");
    let powf = |mesh: &MeshFile, record: &mut Record| {
        if !is_zero_record(mesh) && mesh.flags == Flags::default() {
            *record = original(&mesh.vertices, &mesh.ids, mesh.unit);
        }
    };
    assert!(found(powf), "powf in place of the exact form");
    let dropped = |mesh: &mut MeshFile| {
        let count = (mesh.vertices.len() / 3) as u32;
        if !is_zero_record(mesh) {
            // what is dropped stands at the end as a triangle of nothing, so that the lengths are the same
            let ids = mesh.ids.len();
            let kept = mesh.ids.chunks(3).filter(|t| t.len() < 3 || t.iter().all(|&id| id < count));
            mesh.ids = kept.flatten().copied().collect();
            mesh.ids.resize(ids, 0);
        }
    };
    assert!(Way { mesh: dropped, ..RIGHT }.found(), "triangles out of range dropped before the chain");
    let first = |mesh: &mut MeshFile| mesh.ids.iter_mut().skip(3).for_each(|id| *id = 0);
    assert!(Way { mesh: first, ..RIGHT }.found(), "the first triangle alone");
}

/// The counts of a full record by another length of each triple, or by another limit.
fn by(mesh: &MeshFile, record: &mut Record, length: impl Fn(&[u32], Option<f64>) -> Option<f64>, limit: f64) {
    if !is_zero_record(mesh) {
        let triples = mesh.ids.chunks_exact(3).zip(lengths(&mesh.vertices, &mesh.ids));
        let lengths: Vec<_> = triples.map(|(t, right)| length(t, right)).collect();
        let range = lengths.iter().filter(|length| length.is_none()).count() as u32;
        let used = lengths.iter().flatten().filter(|length| **length >= limit).count() as u32;
        record.counts = Counts { used, range, sliver: lengths.len() as u32 - range - used };
    }
}

fn in_range(mesh: &MeshFile, ids: &[u32]) -> bool {
    ids.iter().all(|&id| (id as usize) < mesh.vertices.len() / 3)
}

/// Out of range, and taken for in range all the same.
fn passed(right: Option<f64>, all_the_same: bool) -> Option<f64> {
    right.or(all_the_same.then_some(1.0))
}

/// The length of a triangle's cross product by its corners as they are; they are in range.
fn length_as_given(mesh: &MeshFile, t: &[u32]) -> f64 {
    let [a, b, c] = [t[0], t[1], t[2]].map(|id| [0, 1, 2].map(|axis| mesh.vertices[3 * id as usize + axis] as f64));
    let (u, v) = ([0, 1, 2].map(|i| b[i] - a[i]), [0, 1, 2].map(|i| c[i] - a[i]));
    let n = [u[1] * v[2] - u[2] * v[1], u[2] * v[0] - u[0] * v[2], u[0] * v[1] - u[1] * v[0]];
    n.iter().map(|x| x * x).sum::<f64>().sqrt()
}

/// Counts of triangles by another rule than 02's, in a port that is right in all else.
#[test]
fn wrong_counts_are_found() {
    let found = |record: fn(&MeshFile, &mut Record)| Way { record, ..RIGHT }.found();
    assert!(!found(|mesh, record| by(mesh, record, |_, right| right, SHORTEST)), "02's rule");
    assert!(found(|mesh, record| by(mesh, record, |_, right| right, SHORTEST.next_up())), "1e-12 itself is a sliver");
    assert!(found(|mesh, record| by(mesh, record, |_, right| right, SHORTEST.next_down())), "a step under is used");
    assert!(found(|mesh, record| by(mesh, record, |_, right| right, 1e-6)), "a square for its root");
    let narrow = |mesh: &MeshFile, record: &mut Record| {
        by(mesh, record, |_, right| right.map(|length| length as f32 as f64), 1e-12f32 as f64);
    };
    assert!(found(narrow), "in f32");
    let sum = |mesh: &MeshFile, record: &mut Record| by(mesh, record, |_, right| right, 0.0);
    assert!(found(sum), "no sliver");
    let sliver_first = |mesh: &MeshFile, record: &mut Record| {
        let repeated = |t: &[u32]| t[0] == t[1] || t[1] == t[2] || t[2] == t[0];
        by(mesh, record, |t, right| if repeated(t) { Some(0.0) } else { right }, SHORTEST);
    };
    assert!(found(sliver_first), "a repeated id is a sliver, out of range or not");
    let as_given = |mesh: &MeshFile, record: &mut Record| {
        by(mesh, record, |t, right| right.map(|_| length_as_given(mesh, t)), SHORTEST);
    };
    assert!(found(as_given), "corners that are not rebased");
    let blind: [fn(&MeshFile, &mut Record); 3] = [
        |mesh, record| by(mesh, record, |t, right| passed(right, in_range(mesh, &t[1..])), SHORTEST),
        |mesh, record| by(mesh, record, |t, right| passed(right, in_range(mesh, &[t[0], t[2]])), SHORTEST),
        |mesh, record| by(mesh, record, |t, right| passed(right, in_range(mesh, &t[..2])), SHORTEST),
    ];
    for (corner, record) in blind.into_iter().enumerate() {
        assert!(found(record), "corner {corner} is not asked");
    }
    let cut = |mesh: &MeshFile, record: &mut Record| {
        let begun = |t: &[u32]| t.iter().all(|&id| 3 * (id as usize) < mesh.vertices.len());
        by(mesh, record, |t, right| passed(right, begun(t)), SHORTEST);
    };
    assert!(found(cut), "a vertex cut short is in range");
    let wraps = |mesh: &MeshFile, record: &mut Record| {
        let small = |id: u32| (id.wrapping_mul(3).wrapping_add(2) as usize) < mesh.vertices.len();
        by(mesh, record, |t, right| passed(right, t.iter().all(|&id| small(id))), SHORTEST);
    };
    assert!(found(wraps), "in 32 bits");
    let zero = |mesh: &MeshFile, record: &mut Record| {
        if is_zero_record(mesh) {
            record.counts.used = mesh.ids.len() as u32 / 3;
        }
    };
    assert!(found(zero), "used triangles of a zero record");
    let zero = |mesh: &MeshFile, record: &mut Record| {
        if is_zero_record(mesh) {
            record.counts = counts(&mesh.vertices, &mesh.ids);
        }
    };
    assert!(found(zero), "the counts of a zero record");
    let flags = |mesh: &MeshFile, record: &mut Record| {
        if mesh.flags != Flags::default() {
            record.counts = Counts::default();
        }
    };
    assert!(found(flags), "no counts beside flags");
    let leftover = |mesh: &MeshFile, record: &mut Record| {
        if !is_zero_record(mesh) {
            record.counts.range += !mesh.ids.len().is_multiple_of(3) as u32;
        }
    };
    assert!(found(leftover), "leftover ids are a triangle out of range");
    let words = |words: fn(&mut [u32; WORDS])| Way { words, ..RIGHT }.found();
    assert!(words(|words| words.swap(18, 19)), "a sliver counted as out of range, and the other way round");
    assert!(words(|words| (words[18], words[19]) = (words[18] + words[19], 0)), "a sliver counted as out of range");
    assert!(words(|words| words[17] += words[18].min(1)), "one out of range counted as used too");
    assert!(words(|words| words[17] = words[17].min(255)), "counts in a byte");
}

#[test]
fn the_meshes_have_what_they_are_for() {
    let names = kinds();
    let of = |name: &str| {
        let kind = names.iter().position(|other| *other == name).expect("a kind of that name");
        (0..400).map(move |turn| by_chance(kind, turn))
    };
    let some = |name: &str, test: &dyn Fn(&MeshFile) -> bool| of(name).filter(|mesh| test(mesh)).count() > 5;
    let past = |mesh: &MeshFile, id: u32| id as usize >= mesh.vertices.len() / 3;
    assert!(some("wild_ids", &|m| m.ids.contains(&u32::MAX)));
    assert!(some("wild_ids", &|m| m.ids.iter().any(|&id| past(m, id) && id.wrapping_mul(3).wrapping_add(2) < 300)));
    assert!(some("wild_ids", &|m| m.ids.len() > 9 && m.ids.iter().all(|&id| past(m, id))));
    for rest in 0..3 {
        assert!(some("ragged", &|m| m.vertices.len() % 3 == rest) && some("ragged", &|m| m.ids.len() % 3 == rest));
    }
    let leftover = |m: &MeshFile| m.vertices[m.vertices.len() / 3 * 3..].iter().any(|x| x.is_nan());
    assert!(some("ragged", &|m| leftover(m) && m.vertices[..m.vertices.len() / 3 * 3].iter().all(|x| x.is_finite())));
    assert!(some("unit_ends", &|m| m.unit == 16.0) && some("unit_ends", &|m| m.unit == 16.0f32.next_up()));
    assert!(some("unit_ends", &|m| m.unit.is_nan()) && some("unit_ends", &|m| m.unit == 1.0 / 1_048_576.0));
    let farthest = |m: &MeshFile| m.vertices.iter().any(|x| x.abs() == FARTHEST) && !bad_coordinate(m);
    assert!(some("coordinate_ends", &farthest));
    assert!(some("coordinate_ends", &|m| m.vertices.iter().any(|x| x.abs() == FARTHEST.next_up())));
    assert!(some("nothing_to_measure", &|m| bad_unit(m) && m.vertices.iter().any(|x| x.is_nan())));
    assert!(some("many_faults", &|m| bad_unit(m) && bad_coordinate(m)));
    for (sign, digits) in ENDS.iter().flat_map(|digits| [(0, digits), (0x8000_0000, digits)]) {
        let pattern = sign | 0x7f80_0000 | digits;
        assert!(some("nans", &|m| m.vertices.iter().any(|x| x.to_bits() == pattern)), "{pattern:x}");
    }
    assert!(some("nans", &is_zero_record) && some("nans", &|m| m.unit.is_nan()) && some("nans", &bad_coordinate));
    assert!(some("few", &|m| m.vertices.len() == 9) && some("few", &|m| m.ids.len() == 3));
    let volume = |m: &MeshFile| original(&m.vertices, &m.ids, m.unit).volume.to_bits();
    assert!(some("flattened", &|m| volume(m) == 0x8000_0000) && some("flattened", &|m| volume(m) == 0));
    assert!(some("flattened", &|m| f32::from_bits(volume(m)).is_subnormal()));
    assert!(some("medium", &|m| m.ids.len() > 1536));

    let large: Vec<MeshFile> = large().into_iter().map(|(_, mesh)| mesh).collect();
    assert!(large.iter().all(|m| m.vertices.len() <= MOST && m.ids.len() <= MOST));
    assert!(large.iter().any(|m| m.vertices.len() == MOST && m.ids.len() == MOST));
    assert!(large.iter().filter(|m| m.ids.len() > MOST - 400).count() > 8);
    let rows = |m: &MeshFile| original(&m.vertices, &m.ids, m.unit).rows.len();
    assert!(large.iter().any(|m| rows(m) > 1000) && large.iter().any(|m| rows(m) == 6));
    assert!(limits().any(|m| m.vertices.len() > MOST && m.ids.len() < 3), "1 and the zero record");

    let places = bad_places(500);
    assert!(is_bad(&places) && !is_bad(&(0..500).collect::<Vec<_>>()));
    let shape = split_badly(500);
    assert!(original(&shape.vertices, &shape.ids, 1.0).rows.len() == 500);
}
