//! The plain form of the areas by slope (02, A6), held to 02's sentences and to the original: under edition 1's thresholds as it is, under
//! edition 2's with two numbers changed. And the law between the two.

use mowfrost_oracle::compute::editions::UNKNOWN;
use mowfrost_oracle::compute::meshes::{by_chance, kinds, large};
use mowfrost_oracle::counts::length;
use mowfrost_oracle::file::MeshFile;
use mowfrost_oracle::linked::bits;
use mowfrost_oracle::mesh::{qto, second};
use mowfrost_oracle::random::Random;
use mowfrost_oracle::record::{compute_under, is_zero_record, original, Answer, Lent, Record};
use mowfrost_oracle::slopes::{areas, facets, thresholds, Facet, Slope, Thresholds, FIRST, NEAR, SECOND};
use mowfrost_oracle::solids::{two_to, Shape};

// ---- the plain form

fn exact(mesh: &MeshFile) -> Lent {
    Lent::exactly(mesh.vertices.len(), mesh.ids.len())
}

fn record(mesh: &MeshFile, edition: u32) -> Option<Record> {
    match compute_under(mesh, edition, exact(mesh)) {
        Answer::Record(record, _) if !is_zero_record(mesh) => Some(record),
        _ => None,
    }
}

/// Those with a full record.
fn meshes() -> impl Iterator<Item = MeshFile> {
    let chance = (0..kinds().len()).flat_map(|kind| (0..120).map(move |turn| by_chance(kind, turn)));
    let all = chance.chain(large().into_iter().map(|(_, mesh)| mesh));
    all.filter(|mesh| record(mesh, 1).is_some())
}

fn areas_of(mesh: &MeshFile, thresholds: Thresholds) -> [f32; 4] {
    areas(&mesh.vertices, &mesh.ids, mesh.unit, thresholds)
}

fn facets_of(mesh: &MeshFile) -> Vec<Facet> {
    facets(&mesh.vertices, &mesh.ids).collect()
}

#[test]
fn the_thresholds_are_the_documents() {
    assert_eq!((thresholds(1), thresholds(2)), (Some(FIRST), Some(SECOND)));
    assert_eq!([FIRST.top, FIRST.side, SECOND.top, SECOND.side], [0.940, 0.342, 0.866, 0.5]);
    assert_eq!(bits(&[SECOND.top, SECOND.side]), [0x3f5d_b22d, 0x3f00_0000]);
    assert!(UNKNOWN.iter().all(|edition| thresholds(*edition).is_none()));
}

/// On a threshold nothing is top, bottom or side.
#[test]
fn comparisons_are_strict() {
    for Thresholds { top, side } in [FIRST, SECOND] {
        let slope = |nz: f32| Thresholds { top, side }.slope(nz);
        assert_eq!([top.next_down(), top, top.next_up()].map(slope), [Slope::Inclined, Slope::Inclined, Slope::Top]);
        let down = [-top.next_down(), -top, -top.next_up()];
        assert_eq!(down.map(slope), [Slope::Inclined, Slope::Inclined, Slope::Bottom]);
        for sign in [1.0, -1.0] {
            let steps = [side.next_down(), side, side.next_up()].map(|z| slope(sign * z));
            assert_eq!(steps, [Slope::Side, Slope::Inclined, Slope::Inclined]);
        }
        assert_eq!([0.0, -0.0, 1.0, -1.0].map(slope), [Slope::Side, Slope::Side, Slope::Top, Slope::Bottom]);
    }
}

#[test]
fn under_edition_1_they_are_the_originals() {
    let mut some = [0; 4];
    for mesh in meshes() {
        let right = original(&mesh.vertices, &mesh.ids, mesh.unit).slopes();
        assert_eq!(bits(&areas_of(&mesh, FIRST)), bits(&right), "{:?}", mesh.ids);
        assert_eq!(bits(&record(&mesh, 1).expect("it is full").slopes()), bits(&right));
        (0..4).for_each(|i| some[i] += (right[i] > 0.0) as u32);
    }
    assert!(some.iter().all(|&times| times > 1_000), "{some:?}");
}

/// What the two of them say, their areas by slope first.
macro_rules! said {
    ($answer:expr) => {{
        let q = $answer;
        let slopes = [q.area_top_m2, q.area_bottom_m2, q.area_side_m2, q.area_inclined_m2];
        let numbers = [q.volume_m3, q.aabb_volume_m3, q.surface_area_m2, q.largest_surface_m2, q.smallest_surface_m2];
        let best = (q.volume_best_m3.to_bits(), q.volume_prism_bound_m3.to_bits(), q.volume_reliable);
        let rows: Vec<[u32; 4]> = q.surfaces.iter().map(|s| [s.area_m2, s.nx, s.ny, s.nz].map(f32::to_bits)).collect();
        (slopes, (bits(&numbers), best, q.mesh_quality, q.volume_method, q.surface_count, rows))
    }};
}

/// The original with two numbers changed says the plain form's areas, and says all else as the original does: so does the record.
#[test]
fn under_edition_2_they_are_the_originals_with_two_numbers_changed() {
    let (mut all, mut other) = (0, 0);
    for mesh in meshes() {
        let (first, rest) = said!(qto::compute(&mesh.vertices, &mesh.ids, mesh.unit));
        let (changed, also) = said!(second::compute(&mesh.vertices, &mesh.ids, mesh.unit));
        assert_eq!(bits(&areas_of(&mesh, SECOND)), bits(&changed), "{:?}", mesh.ids);
        assert_eq!(bits(&record(&mesh, 2).expect("it is full").slopes()), bits(&changed));
        assert_eq!(rest, also);
        (all, other) = (all + 1, other + (bits(&first) != bits(&changed)) as u32);
    }
    assert!(all > 3_000 && other > 700, "{other} of {all}");
}

/// A triangle alone, with all vertices and so with the box: one of the four areas is its own, and its row has its z in tenths.
#[test]
fn a_facet_is_what_the_original_measures() {
    let mut times = [[0; 4]; 2];
    for mesh in meshes().filter(|mesh| mesh.ids.len() < 60) {
        for t in mesh.ids.chunks_exact(3) {
            let one = original(&mesh.vertices, t, 1.0);
            let (changed, _) = said!(second::compute(&mesh.vertices, t, 1.0));
            let facets: Vec<Facet> = facets(&mesh.vertices, t).collect();
            assert_eq!(facets.len(), one.rows.len());
            for Facet { nz, area } in facets {
                for (i, (thresholds, areas)) in [(FIRST, one.slopes()), (SECOND, changed)].into_iter().enumerate() {
                    let mut alone = [0.0; 4];
                    alone[thresholds.slope(nz) as usize] = area;
                    assert_eq!(bits(&areas), bits(&alone), "{t:?} of {:?}", mesh.vertices);
                    times[i][thresholds.slope(nz) as usize] += 1;
                }
                assert_eq!((one.rows[0][0], one.rows[0][3]), (area, (10.0 * nz).round() / 10.0));
            }
        }
    }
    assert!(times.iter().flatten().all(|&times| times > 300), "{times:?}");
}

// ---- the law between the two

/// Between 0.25 and 1 stand all thresholds.
#[test]
fn whatever_is_top_bottom_or_side_stays() {
    let mut moved = [0u32; 3];
    for nz in (0.25f32.to_bits()..=1f32.to_bits()).map(f32::from_bits).flat_map(|z| [z, -z]) {
        match (FIRST.slope(nz), SECOND.slope(nz)) {
            (Slope::Inclined, Slope::Inclined) => {}
            (Slope::Inclined, to) => moved[to as usize] += 1,
            (one, other) => assert_eq!(one, other, "{nz:?}"),
        }
    }
    let between = |low: f32, high: f32| high.to_bits() - low.to_bits();
    let [top, side] = [between(SECOND.top, FIRST.top), between(FIRST.side, SECOND.side)];
    assert_eq!(moved, [top, top, 2 * side]);
}

#[test]
fn inclined_is_no_more_and_the_others_are_no_less() {
    let mut less = [0; 4];
    for mesh in meshes() {
        let (one, other) = (areas_of(&mesh, FIRST), areas_of(&mesh, SECOND));
        assert!((0..3).all(|i| other[i] >= one[i]) && other[3] <= one[3], "{one:?} and {other:?}");
        (0..4).for_each(|i| less[i] += (one[i] != other[i]) as u32);
        let facets = facets_of(&mesh);
        assert!(facets.iter().all(|Facet { nz, .. }| nz.abs() <= 1.0), "a unit normal's z");
    }
    assert!(less.iter().all(|&times| times > 200), "{less:?}");
}

// ---- whole numbers at the thresholds

/// Each direction has the z that it was found for, whichever way it looks, wherever it stands and however large it is.
#[test]
fn whole_numbers_meet_the_thresholds_exactly() {
    let random = &mut Random::new(1);
    for near in &NEAR {
        for (z, direction) in near.all() {
            let shape = Shape::facing(direction);
            let moved = shape.clone().moved([300_000.0, -7.0, 12_345.0]).shuffled(random);
            let larger = shape.clone().scaled([two_to(9); 3]);
            let flipped = shape.clone().flipped();
            for shape in [shape, moved, larger, flipped] {
                let mut heights: Vec<f32> = facets(&shape.vertices, &shape.ids).map(|facet| facet.nz).collect();
                heights.sort_by(f32::total_cmp);
                assert_eq!(heights, [-z, z], "{direction:?}");
            }
        }
        let before = near.just.map(|direction| {
            let [x, y, z] = direction.map(f64::from);
            z * (1.0 / length([x, y, z]))
        });
        let decimal: f64 = near.threshold.to_string().parse().expect("a number");
        assert!(before[0] < decimal && decimal < before[1], "{before:?} about {decimal}");
    }
}

#[test]
fn the_kinds_meet_the_thresholds_of_edition_2() {
    let of = |name: &str| kinds().iter().position(|other| *other == name).expect("a kind of that name");
    let met = |kind: usize, at: f32| {
        let some = |mesh: &MeshFile| record(mesh, 2).is_some() && facets_of(mesh).iter().any(|facet| facet.nz == at);
        (0..400).filter(|turn| some(&by_chance(kind, *turn))).count()
    };
    for at in [SECOND.top, SECOND.side].into_iter().flat_map(|at| [at, -at]) {
        for step in [at.next_down(), at, at.next_up()] {
            assert!(met(of("at_thresholds"), step) > 20, "{step:?}");
            assert!(met(of("second_slopes"), step) > 5, "{step:?}");
        }
    }
}
