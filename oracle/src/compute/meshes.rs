//! Meshes to ask `compute` about: the kinds that program files have, kinds that they cannot hold, and large ones.

use super::nans::nan;
use super::shapes::{self, boxes, sphere, SHAPES};
use super::split::split_badly;
use crate::file::{read, Flags, MeshFile};
use crate::kinds::{self, KINDS};
use crate::mesh::qto::probe;
use crate::random::Random;
use crate::raster::rims;
use crate::record::{plain, FARTHEST, GREATEST_UNIT, LEAST_UNIT, MOST};
use crate::slopes::NEAR;
use crate::solids::{reverse, Shape};

type Own = (&'static str, fn(&mut Random) -> MeshFile);

/// Beside the program's: what its files cannot hold, or hold too seldom for a look at the order of the checks.
const OWN: [Own; 13] = [
    ("wild_ids", wild_ids),
    ("ragged", ragged),
    ("unit_ends", unit_ends),
    ("coordinate_ends", coordinate_ends),
    ("nothing_to_measure", nothing_to_measure),
    ("many_faults", many_faults),
    ("nans", nans),
    ("flattened", flattened),
    ("few", few),
    ("medium", medium),
    ("rims", rims),
    ("second_slopes", second_slopes),
    ("at_thresholds", at_thresholds),
];

/// The names of all kinds.
pub fn kinds() -> Vec<&'static str> {
    KINDS.iter().map(|kind| kind.name).chain(OWN.iter().map(|(name, _)| *name)).collect()
}

/// A mesh of a kind; the same for the same turn.
pub fn by_chance(kind: usize, turn: u64) -> MeshFile {
    let random = &mut Random::new(turn);
    let mesh = match KINDS.get(kind) {
        Some(program) => filed((program.make)(random)),
        None => OWN[kind - KINDS.len()].1(random),
    };
    // gaps are as wide as the weld reaches, and some must stay so
    let gaps = KINDS.get(kind).is_some_and(|kind| kind.name == "gaps") && random.once_in(4);
    if gaps {
        mesh
    } else {
        affordable(mesh, random)
    }
}

/// So many point tests take about as long as all the rest of a small mesh's record.
const MUCH: f64 = 60_000.0;

/// The mesh as it is, all the more seldom the more point tests it takes; else drawn out.
pub fn affordable(mesh: MeshFile, random: &mut Random) -> MeshFile {
    if random.once_in(1 + (raster_work(&mesh) / MUCH) as usize) {
        mesh
    } else {
        drawn_out(mesh)
    }
}

/// About how many point tests the footprints of an open shell take; of a closed one, none.
fn raster_work(mesh: &MeshFile) -> f64 {
    let reach = |axis: usize| {
        let all = mesh.vertices.chunks_exact(3).map(|v| v[axis] as f64);
        all.fold((f64::INFINITY, f64::NEG_INFINITY), |(low, high), x| (low.min(x), high.max(x)))
    };
    let sides = [0, 1, 2].map(reach).map(|(low, high)| high - low);
    // boundary-free and no edge too often, as given or once welded: closed
    let closed = |ids: &[u32]| probe::edge_chain(ids) == (true, false);
    let flat = sides.iter().any(|&side| side <= 0.0);
    if flat || closed(&mesh.ids) || closed(&probe::welded_indices(&mesh.vertices, &mesh.ids, 1e-4 / mesh.unit)) {
        return 0.0;
    }
    let corners = |t: &[u32]| {
        let [a, b, c] = [t[0], t[1], t[2]].map(|id| mesh.vertices.get(3 * id as usize..3 * id as usize + 3));
        Some([a?, b?, c?])
    };
    let mut tests = 0.0;
    for corners in mesh.ids.chunks_exact(3).filter_map(corners) {
        let span = [0, 1, 2].map(|axis| {
            let [a, b, c] = corners.map(|corner| corner[axis] as f64);
            a.max(b).max(c) - a.min(b).min(c)
        });
        for [u, v] in [[0, 1], [0, 2], [1, 2]] {
            let cell = sides[u].max(sides[v]) / 256.0;
            tests += (span[u] / cell + 1.0) * (span[v] / cell + 1.0);
        }
    }
    tests
}

/// The same mesh, long and thin: its raster has few cells, on every side. By powers of two, so that the digits stay.
fn drawn_out(mut mesh: MeshFile) -> MeshFile {
    let whole = mesh.vertices.len() / 3 * 3;
    let vertices = &mut mesh.vertices[..whole];
    if vertices.iter().all(|x| x.abs() <= FARTHEST / 4096.0) {
        vertices.iter_mut().enumerate().for_each(|(i, x)| *x *= [1.0, 64.0, 4096.0][i % 3]);
    }
    mesh
}

/// The mesh in a program's file; where the file is faulty, its words as they come are a mesh too.
fn filed(bytes: Vec<u8>) -> MeshFile {
    read(&bytes).unwrap_or_else(|_| {
        let words: Vec<u32> = bytes.chunks_exact(4).map(|w| u32::from_le_bytes([w[0], w[1], w[2], w[3]])).collect();
        let (floats, ids) = words.split_at(words.len() / 2);
        plain(1.0, &floats.iter().map(|&bits| f32::from_bits(bits)).collect::<Vec<_>>(), ids)
    })
}

/// Something that a program's file holds, to be spoilt.
fn base(random: &mut Random) -> MeshFile {
    filed((KINDS[random.below(KINDS.len())].make)(random))
}

fn flags(random: &mut Random) -> Flags {
    Flags { clip: random.once_in(2), defect: random.below(5) as u8 }
}

// ---- kinds of their own

const FAR_IDS: [u32; 10] =
    [511, 65_535, 98_304, 0x5555_5554, 0x5555_5555, 0x5555_5556, 0x8000_0000, 0xaaaa_aaab, u32::MAX - 1, u32::MAX];

/// Ids beyond the vertices, up to the last one. Three times such an id, and two, may be a small number in 32 bits.
fn wild_ids(random: &mut Random) -> MeshFile {
    let mut mesh = base(random);
    let count = (mesh.vertices.len() / 3) as u32;
    if mesh.ids.is_empty() {
        return mesh;
    }
    match random.below(4) {
        0 => {
            // another name for every id: the chain is as before, and few or none are in range
            let by = random.pick(&[3, 0x9e37_79b1, 0x8000_0001, u32::MAX]);
            mesh.ids.iter_mut().for_each(|id| *id = id.wrapping_mul(by));
        }
        1 => {
            let most = mesh.ids.iter().max().copied().unwrap_or(0);
            let by = random.pick(&[u32::MAX - most, u32::MAX, 0x5555_5555, count, 1]);
            mesh.ids.iter_mut().for_each(|id| *id = id.wrapping_add(by));
        }
        2 => {
            let (from, to) = (random.below(count.max(1) as usize) as u32, random.pick(&FAR_IDS));
            mesh.ids.iter_mut().filter(|id| **id == from).for_each(|id| *id = to);
        }
        _ => {
            for _ in 0..random.within(1, 5) {
                let at = random.below(mesh.ids.len());
                mesh.ids[at] = match random.below(3) {
                    0 => count.wrapping_add_signed(random.within(-1, 1) as i32),
                    1 => random.pick(&FAR_IDS),
                    _ => random.bits() as u32,
                };
            }
        }
    }
    mesh
}

/// A float at a limit, beyond one, or not finite.
fn edge_float(random: &mut Random) -> f32 {
    let x = match random.below(4) {
        0 => random.pick(&[FARTHEST.next_up(), 8_589_935_616.0, f32::MAX, f32::INFINITY]),
        1 => f32::from_bits(nan(random)),
        2 => random.pick(&[FARTHEST, FARTHEST, FARTHEST.next_down(), 0.0]),
        _ => random.pick(&[0.0, 1.0, 500.0, 1e9, f32::MIN_POSITIVE, 1e-45]),
    };
    if random.once_in(2) {
        -x
    } else {
        x
    }
}

/// Ids and floats left over, any number of them; a leftover float counts for refusal 4 and for nothing else.
fn ragged(random: &mut Random) -> MeshFile {
    let mut mesh = base(random);
    match random.below(3) {
        0 => mesh.vertices.truncate(mesh.vertices.len().saturating_sub(random.below(4))),
        1 => {
            let whole = random.once_in(2);
            mesh.vertices.truncate(mesh.vertices.len() / 3 * 3);
            (0..random.within(1, 2)).for_each(|_| mesh.vertices.push(if whole { 7.0 } else { edge_float(random) }));
        }
        _ => {}
    }
    match random.below(3) {
        0 => mesh.ids.truncate(mesh.ids.len().saturating_sub(random.below(4))),
        1 => (0..random.within(1, 2)).for_each(|_| mesh.ids.push(random.below(9) as u32)),
        _ => {}
    }
    mesh
}

fn edge_unit(random: &mut Random) -> f32 {
    random.pick(&[
        LEAST_UNIT,
        LEAST_UNIT,
        LEAST_UNIT.next_down(),
        LEAST_UNIT.next_up(),
        GREATEST_UNIT,
        GREATEST_UNIT,
        GREATEST_UNIT.next_up(),
        GREATEST_UNIT.next_down(),
        0.0,
        -0.0,
        -1.0,
        -LEAST_UNIT,
        f32::from_bits(1),
        f32::MAX,
        f32::INFINITY,
        f32::NEG_INFINITY,
        f32::NAN,
        f32::from_bits(0x7f80_0001),
        f32::from_bits(0xffc1_2345),
    ])
}

fn unit_ends(random: &mut Random) -> MeshFile {
    MeshFile { unit: edge_unit(random), ..base(random) }
}

/// At the farthest coordinates and beyond; the whole mesh may be as wide as the domain.
fn coordinate_ends(random: &mut Random) -> MeshFile {
    let mut mesh = base(random);
    if random.once_in(3) {
        let most = mesh.vertices.iter().fold(0.0f32, |most, x| most.max(x.abs()));
        let by = FARTHEST as f64 / most as f64 * random.pick(&[1.0, 1.0, 0.5, 1.000_001]);
        mesh.vertices.iter_mut().for_each(|x| *x = (*x as f64 * by) as f32);
    }
    for _ in 0..random.below(3) {
        if !mesh.vertices.is_empty() {
            let at = random.below(mesh.vertices.len());
            mesh.vertices[at] = edge_float(random);
        }
    }
    mesh
}

/// Fewer than 9 floats or 3 ids: the zero record, whatever else is wrong.
fn nothing_to_measure(random: &mut Random) -> MeshFile {
    let mut mesh = many_faults(random);
    if random.once_in(2) {
        mesh.vertices.truncate(random.below(9));
    } else {
        mesh.ids.truncate(random.below(3));
    }
    mesh
}

/// Wrong in several ways at once: the order of the checks.
fn many_faults(random: &mut Random) -> MeshFile {
    let mut mesh = ragged(random);
    mesh.flags = flags(random);
    if random.once_in(2) {
        mesh.unit = edge_unit(random);
    }
    if random.once_in(2) {
        if let Some(last) = mesh.vertices.last_mut() {
            *last = edge_float(random);
        }
    }
    mesh
}

/// NaNs of all sorts among the vertices, few or nothing else; now and then in the unit, or with nothing to measure.
fn nans(random: &mut Random) -> MeshFile {
    let mut mesh = base(random);
    let seldom = random.pick(&[1, 1, 4, 30]);
    for at in 0..mesh.vertices.len() {
        if random.once_in(seldom) {
            mesh.vertices[at] = f32::from_bits(nan(random));
        }
    }
    match random.below(6) {
        0 => mesh.vertices.truncate(random.below(9)),
        1 => mesh.ids.truncate(random.below(3)),
        2 => mesh.unit = f32::from_bits(nan(random)),
        _ => {}
    }
    mesh
}

/// So flat, by so small a unit, that a volume is 0 or -0 or has few digits left.
fn flattened(random: &mut Random) -> MeshFile {
    let mut mesh = base(random);
    let (axis, by) = (random.below(3), 2f32.powi(-random.within(50, 140) as i32));
    mesh.vertices.iter_mut().skip(axis).step_by(3).for_each(|x| *x *= by);
    mesh.unit = random.pick(&[LEAST_UNIT, LEAST_UNIT, 0.001, 1.0]);
    if random.once_in(2) {
        reverse(&mut mesh.ids);
    }
    mesh
}

/// The smallest meshes, of few whole numbers: about the lengths where there is something to measure.
fn few(random: &mut Random) -> MeshFile {
    let (floats, ids) = (random.within(6, 18) as usize, random.within(0, 18) as usize);
    let reached = floats / 3 + random.below(2);
    MeshFile {
        unit: random.pick(&[1.0, 0.001, LEAST_UNIT, GREATEST_UNIT, 0.3048]),
        vertices: (0..floats).map(|_| random.within(-1, 2) as f32).collect(),
        ids: (0..ids).map(|_| random.below(reached) as u32).collect(),
        flags: flags(random),
    }
}

/// More triangles than a program's file holds, some taken away or turned.
fn medium(random: &mut Random) -> MeshFile {
    let (_, make, _) = SHAPES[random.below(SHAPES.len())];
    let mut shape = make(random.within(40, 900) as usize).shuffled(random);
    for _ in 0..random.below(3) {
        let t = random.below(shape.triangles());
        match random.below(3) {
            0 => shape.remove(t),
            1 => shape.flip(t),
            _ => shape.repeat(t, random.once_in(2)),
        }
    }
    let unit = random.pick(&[1.0, 0.001, 0.01, 0.3048, 4.0]);
    MeshFile { unit, vertices: shape.vertices, ids: shape.ids, flags: flags(random) }
}

/// Edges through the centres of cells, by powers of two so that they stay there; seldom by a factor that rounds.
fn rims(random: &mut Random) -> MeshFile {
    let by = random.pick(&[1.0, 1.0, 2.0, 1.0 / 256.0, 4096.0, 0.1]);
    let shape = rims::shape(random).scaled([by; 3]);
    let unit = random.pick(&[1.0, 0.001, 0.3048]);
    MeshFile { unit, vertices: shape.vertices, ids: shape.ids, flags: flags(random) }
}

/// Mostly with a vertex far off that no triangle names: the box is wide, so that few cells of a raster are tried, and no slope is
/// another, as it would be once the mesh is drawn out.
fn in_wide_box(mut shape: Shape, random: &mut Random) -> Shape {
    if !random.once_in(8) {
        let [x, y, z] = [0; 3].map(|_| random.pick(&[0x10_0000, 0x20_0000, 0x1f_fff9]) as f32);
        shape.vertex(x, y, z);
    }
    shape
}

/// What edition 2 moves (02, A6), and what it just leaves.
fn second_slopes(random: &mut Random) -> MeshFile {
    let shape = in_wide_box(kinds::second_slopes(random), random);
    let unit = random.pick(&[1.0, 0.001, 0.3048, 0.7, LEAST_UNIT, GREATEST_UNIT]);
    MeshFile { unit, vertices: shape.vertices, ids: shape.ids, flags: flags(random) }
}

/// Facets that have a threshold's z, or a neighbour's. By powers of two, so that they keep it; seldom by a factor that rounds.
fn at_thresholds(random: &mut Random) -> MeshFile {
    let by = random.pick(&[1.0, 1.0, 2.0, 1.0 / 256.0, 4096.0, 0.1]);
    let shape = thresholds(random).scaled([by; 3]);
    let unit = random.pick(&[1.0, 0.001, 0.3048]);
    MeshFile { unit, vertices: shape.vertices, ids: shape.ids, flags: flags(random) }
}

/// Whole numbers: some triangles each with the z of a threshold or a neighbour, one way up or both, begun at any corner.
pub fn thresholds(random: &mut Random) -> Shape {
    let mut shape = Shape::default();
    for _ in 0..random.within(1, 12) {
        let near = &NEAR[random.pick(&[0, 1, 2, 2, 3, 3])];
        let (_, [a, b, c]) = random.pick(&near.all());
        let mut facet = Shape::facing(if random.once_in(2) { [a, b, c] } else { [a, -b, c] });
        if !random.once_in(3) {
            facet.remove(random.below(2));
        }
        shape = shape.with(facet.moved([0; 3].map(|_| random.within(0, 500) as f32)));
    }
    in_wide_box(shape.shuffled(random), random)
}

// ---- large

fn of(unit: f32, shape: Shape) -> MeshFile {
    plain(unit, &shape.vertices, &shape.ids)
}

/// As large as can be: every shape, and what else there is to be met at that size.
pub fn large() -> Vec<(&'static str, MeshFile)> {
    let random = &mut Random::new(17);
    let mut all: Vec<(&str, MeshFile)> =
        SHAPES.iter().map(|&(name, make, triangles)| (name, of(1.0, make(triangles)))).collect();
    let most = shapes::TRIANGLES;
    let flags = Flags { clip: true, defect: 3 };
    all.push(("in millimetres, far out", of(0.001, sphere(most).scaled([1e3; 3]).moved([6e8, 6.7e9, 100.0]))));
    all.push(("mixed up, inside out", of(1.0, sphere(most).flipped().shuffled(random))));
    all.push(("with flags", MeshFile { flags, ..of(0.3048, shapes::torus(most)) }));
    all.push(("a level sheet", of(1.0, shapes::sheet(most).scaled([1.0, 1.0, 0.0]))));
    let twice = sphere(most / 6);
    all.push(("welded, each face twice", of(1.0, twice.clone().exploded().with(twice.exploded()))));
    all.push(("a sheet from both sides, to be welded", of(1.0, shapes::double_sheet(shapes::APART).exploded())));
    let mut beyond = sphere(most);
    beyond.vertices.truncate(3 * 9000);
    all.push(("half its ids out of range", of(1.0, beyond)));
    let count = |n: usize| (0..n as u32).collect::<Vec<_>>();
    let lattice: Vec<f32> = (0..MOST).map(|i| (i * 7919 % 1000) as f32 * 0.001).collect();
    all.push(("every id once, few in range", plain(1.0, &lattice[..300], &count(MOST))));
    all.push((
        "full",
        plain(1.0, &[soup_at_most(), vec![9.0; 6]].concat(), &[count(32_766), vec![7; 65_538]].concat()),
    ));
    all.push(("one id", plain(1.0, &lattice, &vec![5; MOST])));
    all.push(("rows that the sort splits badly", of(1.0, split_badly(500))));
    all
}

fn soup_at_most() -> Vec<f32> {
    shapes::soup(shapes::APART).vertices
}

/// Lengths about the limit, with and without faults that come later in the order.
pub fn limits() -> impl Iterator<Item = MeshFile> {
    let lengths = |small: usize| [MOST - 1, MOST, MOST + 1, small];
    let whole = boxes(shapes::TRIANGLES);
    lengths(8).into_iter().flat_map(move |floats| {
        let whole = whole.clone();
        lengths(2).into_iter().flat_map(move |ids| {
            let mut shape = whole.clone();
            shape.vertices.resize(floats, 1.0);
            shape.ids.resize(ids, 0);
            let good = of(1.0, shape);
            let mut far = good.clone();
            far.vertices[floats - 1] = FARTHEST.next_up();
            let neither = MeshFile { unit: GREATEST_UNIT.next_up(), ..far.clone() };
            [good, far, neither]
        })
    })
}
