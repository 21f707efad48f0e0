//! The plain reference for A3's cells, held to 02's sentences and to the original: every combination of signs, the bound made of the
//! covered cells, and what has no footprint. Then that `oracle compute` finds a port whose cells are by another rule.

use mowfrost_oracle::compute::areas::{Areas, CELLS, WORDS};
use mowfrost_oracle::compute::compare::{on_chance, on_kind, words, Call, Port};
use mowfrost_oracle::compute::meshes::{by_chance, kinds, large};
use mowfrost_oracle::file::{Flags, MeshFile};
use mowfrost_oracle::mesh::qto::probe;
use mowfrost_oracle::raster::cells::{
    by_values, footprints, grids, place, reach, values, Cells, Grid, Met, Place, Point, AXES,
};
use mowfrost_oracle::record::{compute, is_zero_record, original, plain, Answer, Lent, Record, OPEN};

mod rules;
mod ways;

use rules::{WRONG_CELLS, WRONG_TESTS};
use ways::{Way, RIGHT};

fn record(mesh: &MeshFile) -> Option<Record> {
    match compute(mesh, Lent::exactly(mesh.vertices.len(), mesh.ids.len())) {
        Answer::Record(record, _) => Some(record),
        Answer::Refused(_) => None,
    }
}

fn meshes() -> impl Iterator<Item = MeshFile> {
    let chance = (0..kinds().len()).flat_map(|kind| (0..60).map(move |turn| by_chance(kind, turn)));
    chance.chain(large().into_iter().map(|(_, mesh)| mesh))
}

// ---- the reference

/// Of each value what is asked of it: below zero, -0, 0, above zero, a NaN.
#[test]
fn every_combination_of_signs() {
    let each = [-1.0, -0.0, 0.0, 1.0, f32::NAN];
    let mut times = [0; 3];
    for (i, j, k) in (0..125).map(|n| (n / 25, n / 5 % 5, n % 5)) {
        let at = [i, j, k];
        let has = |sort: &[usize]| at.iter().any(|k| sort.contains(k));
        let right = match (has(&[0]) && has(&[3]), has(&[1, 2])) {
            (true, _) => Place::Outside,
            (false, true) => Place::Edge,
            (false, false) => Place::Inside,
        };
        assert_eq!(by_values(at.map(|k| each[k])), right, "{at:?}");
        times[right as usize] += 1;
    }
    // 5^3 - 2·4^3 + 3^3 with both signs; of the 101 others 2·2^3 - 1 without a zero
    assert_eq!(times, [24, 86, 15]);
    assert_eq!(by_values([f32::NAN; 3]), Place::Inside);
}

/// By the three values and not by exact geometry: outside by a little, and no value tells.
#[test]
fn the_edge_is_where_the_values_say() {
    let third = |k: u8| k as f32 / 3.0;
    let (p, corners) = ([0.9394531, 0.6061198], [[1.0, third(1)], [1.0, third(2)], [third(2), third(1)]]);
    assert_eq!(place(p, corners), Place::Edge);
    assert!(values(p, corners).contains(&0.0) && probe::point_in_triangle(p, corners[0], corners[1], corners[2]));
    let [x, y] = p.map(f64::from);
    let [[_, _], [bx, by], [cx, cy]] = corners.map(|corner| corner.map(f64::from));
    assert!((x - cx) * (by - cy) - (bx - cx) * (y - cy) < 0.0, "outside of the edge from the second to the third");
}

/// The cells of a mesh's z, y and x footprints.
fn cells(corners: [[f32; 3]; 3], ids: [u32; 3]) -> [[u32; 2]; 3] {
    footprints(corners.as_flattened(), &ids).map(|Cells { covered, rim }| [covered, rim])
}

#[test]
fn a_triangle_and_its_reverse() {
    let corners = [[0.0, 2.0 / 3.0, 0.0], [1.0, 0.0, 0.0], [1.0; 3]];
    assert_eq!(cells(corners, [0, 1, 2]), [[32_811, 32], [32_896, 256], [22_016, 288]]);
    assert_eq!(cells(corners, [0, 2, 1]), [[32_811, 0], [32_896, 256], [22_016, 256]]);
}

/// The bound of an open shell by the reference's covered cells, before the unit.
fn bound(mesh: &MeshFile, grids: &[Option<Grid>; 3]) -> f32 {
    let extent = |axis: usize| {
        let [low, high] = reach(&mesh.vertices, axis);
        high - low
    };
    let area = |grid: &Option<Grid>| grid.as_ref().map_or(0.0, |grid| grid.area(grid.cells().covered));
    let prisms = [2, 1, 0].iter().zip(grids).map(|(&axis, grid)| area(grid) * extent(axis));
    let least = prisms.filter(|&prism| prism > 0.0).fold(f32::INFINITY, f32::min);
    if least.is_finite() {
        least
    } else {
        0.0
    }
}

/// Of every open shell: each area is the original's, and tells its count wherever it is a normal number; the bound made of them is the
/// record's. Of all others there are no cells.
#[test]
fn covered_is_what_the_original_covers() {
    let (mut met, mut told, mut others) = (Met::default(), 0, 0);
    for mesh in meshes() {
        let Some(record) = record(&mesh) else { continue };
        if record.quality != OPEN {
            assert_eq!(record.cells, [Cells::default(); 3]);
            others += 1;
            continue;
        }
        let (vertices, ids) = (&mesh.vertices, &mesh.ids);
        let grids = grids(vertices, ids, place);
        for (axes, grid) in AXES.into_iter().zip(&grids) {
            let grid = grid.as_ref().expect("the box of an open shell is not flat");
            let [u, v] = axes.map(|axis| reach(vertices, axis));
            let (area, count) = (probe::footprint_raw(vertices, ids, axes, u, v), grid.cells().covered);
            assert_eq!(grid.area(count).to_bits(), area.to_bits());
            assert!(grid.tells(count) || !area.is_normal());
            told += grid.tells(count) as u64;
            met.add(grid);
        }
        let (raw, scaled) = (bound(&mesh, &grids), original(vertices, ids, mesh.unit).prism);
        let cubed = mesh.unit * mesh.unit * mesh.unit;
        assert!(scaled.is_some_and(|prism| prism.to_bits() == (raw * cubed).to_bits()), "{raw:?} {scaled:?}");
        assert_eq!(record.cells, grids.map(|grid| grid.map_or(Cells::default(), |grid| grid.cells())));
    }
    assert!(others > 1_000 && met.footprints > 2_000 && told > met.footprints * 9 / 10, "{told} of {}", met.told());
    assert!(met.rim > 300 && met.of_two > 50 && met.of_more > 10 && met.inside_another > 100, "{}", met.told());
}

/// A count is told where its neighbours have another area, and only there.
#[test]
fn what_tells_a_count() {
    let grid = |u: f32, v: f32| {
        let vertices = [0.0, 0.0, 0.0, u, 0.0, 0.0, 0.0, v, 0.0];
        mowfrost_oracle::raster::cells::grid(&vertices, &[0, 1, 2], [0, 1], [0.0, u], [0.0, v], place)
    };
    for (u, v) in [(1.0, 1.0), (3.7, 0.001), (1e-10, 1e9), (8e9, 8e9), (1e-18, 1e-18)] {
        let grid = grid(u, v).expect("there is one");
        assert!([0, 1, 2, 3, 255, 4_097, 32_768, 65_535, 65_536].iter().all(|&count| grid.tells(count)), "{u} {v}");
    }
    let underflows = grid(1e-22, 1e-22).expect("there is one");
    assert!(!underflows.tells(1) && !underflows.tells(0) && underflows.area(1) == 0.0);
    let overflows = grid(3e38, 3e38).expect("there is one");
    assert!(!overflows.tells(5) && overflows.area(5) == f32::INFINITY);
}

#[test]
fn flags_and_unit_leave_them_alone() {
    for mesh in meshes().filter(|mesh| mesh.ids.len() < 300) {
        let celled = |clip: bool, defect: u8| {
            record(&MeshFile { flags: Flags { clip, defect }, ..mesh.clone() }).map(|record| record.cells)
        };
        assert!([(true, 0), (false, 2), (true, 4)]
            .iter()
            .all(|&(clip, defect)| celled(clip, defect) == celled(false, 0)));
    }
    let open = |unit: f32| record(&plain(unit, &[0.0, 0.0, 0.0, 4.0, 0.0, 0.0, 4.0, 4.0, 1.0], &[0, 1, 2]));
    let right = [[32_896, 256], [8_192, 0], [0, 0]].map(|[covered, rim]| Cells { covered, rim });
    assert!([1.0, 0.001, 16.0].iter().all(|&unit| open(unit).is_some_and(|record| record.cells == right)));
    let mut words = open(1.0).map_or([0; WORDS], |record| words(&record));
    words[CELLS..].reverse();
    assert_eq!(words[CELLS..], [0, 0, 0, 8_192, 256, 32_896]);
}

// ---- wrong ports

/// The kind that is made for cells comes first.
fn found(port: Port) -> bool {
    let rims = kinds().iter().position(|name| *name == "rims").expect("a kind of that name");
    on_kind(port, rims, 8_000).differ > 0 || on_chance(port, 8_000).any(|(_, count)| count.differ > 0)
}

fn way(way: Way) -> bool {
    found(&|call: &Call, areas: Areas, record: &mut [u32; WORDS]| way.call(call, areas, record))
}

/// A port that counts the cells of open shells by another point test, or otherwise.
fn by(test: fn(Point, [Point; 3]) -> Place, cells: fn(&Grid) -> Cells) -> bool {
    found(&|call: &Call, areas: Areas, record: &mut [u32; WORDS]| {
        let answer = RIGHT.call(call, areas, record);
        if answer == 0 && !is_zero_record(call.mesh) && record[0] == 1 {
            let given = grids(&call.mesh.vertices, &call.mesh.ids, test).map(|grid| grid.as_ref().map(cells));
            let given = given.map(|cells| cells.map_or([0; 2], |Cells { covered, rim }| [covered, rim]));
            record[CELLS..].copy_from_slice(given.as_flattened());
        }
        answer
    })
}

/// The tests that are wrong for a float that no mesh has are the raster's.
#[test]
fn cells_by_another_rule_are_found() {
    assert!(!by(place, Grid::cells), "02's rule");
    for (what, test) in WRONG_TESTS.into_iter().filter(|(what, _)| *what != "-0 is no zero") {
        assert!(by(test, Grid::cells), "{what}");
    }
    for (what, cells) in WRONG_CELLS {
        assert!(by(place, cells), "{what}");
    }
}

#[test]
fn cells_beside_another_verdict_are_found() {
    let found = |record: fn(&MeshFile, &mut Record)| way(Way { record, ..RIGHT });
    for quality in ["closed", "degenerate"] {
        let port = |call: &Call, areas: Areas, record: &mut [u32; WORDS]| {
            let answer = RIGHT.call(call, areas, record);
            let number = (quality == "degenerate") as u32 * 2;
            if answer == 0 && !is_zero_record(call.mesh) && record[0] == number {
                let all = footprints(&call.mesh.vertices, &call.mesh.ids).map(|cells| [cells.covered, cells.rim]);
                record[CELLS..].copy_from_slice(all.as_flattened());
            }
            answer
        };
        assert!(self::found(&port), "the footprints of a {quality} mesh");
    }
    let zero = |mesh: &MeshFile, record: &mut Record| {
        if is_zero_record(mesh) {
            record.cells[0].covered = 1;
        }
    };
    assert!(found(zero), "a cell of a zero record");
    let flags = |mesh: &MeshFile, record: &mut Record| {
        if mesh.flags != Flags::default() {
            record.cells = Default::default();
        }
    };
    assert!(found(flags), "no cells beside flags");
    let taken = |_: &MeshFile, record: &mut Record| {
        if record.method == "mesh_open" {
            record.cells = Default::default();
        }
    };
    assert!(found(taken), "no cells where the volume is taken");
}

#[test]
fn cells_in_another_order_are_found() {
    let found = |words: fn(&mut [u32; WORDS])| way(Way { words, ..RIGHT });
    assert!(found(|words| words[CELLS..].rotate_left(2)), "y, x, z");
    assert!(found(|words| (0..2).for_each(|k| words.swap(CELLS + k, CELLS + 4 + k))), "x, y, z");
    assert!(found(|words| (0..2).for_each(|k| words.swap(CELLS + 2 + k, CELLS + 4 + k))), "z, x, y");
    assert!(found(|words| (0..3).for_each(|k| words.swap(CELLS + 2 * k, CELLS + 2 * k + 1))), "rim before covered");
    assert!(found(|words| words[CELLS + 3..].rotate_left(1)), "covered and rim of y and x mixed up");
    assert!(found(|words| words[CELLS] &= 0xffff), "covered in 16 bits");
    assert!(found(|words| words[CELLS + 5] = words[CELLS + 5].min(255)), "a rim in a byte");
    for word in CELLS..WORDS {
        let port = |call: &Call, areas: Areas, record: &mut [u32; WORDS]| {
            let kept = record[word];
            let answer = RIGHT.call(call, areas, record);
            record[word] = if answer == 0 { kept } else { 0 };
            answer
        };
        assert!(self::found(&port), "word {word} is not written");
        let port = |call: &Call, areas: Areas, record: &mut [u32; WORDS]| {
            let answer = RIGHT.call(call, areas, record);
            record[word] *= (answer == 0) as u32;
            answer
        };
        assert!(self::found(&port), "word {word} on a refusal");
    }
}
