//! `oracle speed compute`: how long a record takes under each edition, how long the original's, how long that of the original with
//! edition 2's two thresholds in the place of its own (`mesh::second`), and how long the plain counts of triangles that the original has
//! not, in one process.

use super::areas::{Areas, WORDS};
use super::capi;
use super::compare::Call;
use super::shapes::SHAPES;
use crate::counts::counts;
use crate::file::MeshFile;
use crate::linked::bits;
use crate::mesh::{qto, second};
use crate::record::{plain, Lent};
use crate::slopes::EDITIONS;
use crate::solids::Shape;
use std::hint::black_box;
use std::time::Instant;

/// Seconds that a race takes at least, and how many turns.
const ENOUGH: f64 = 0.2;
const TURNS: usize = 9;
/// Seconds that a turn takes at least: a call on a small mesh is too short to be measured.
const TURN: f64 = 0.001;

pub struct Row {
    pub on: &'static str,
    pub triangles: usize,
    /// Seconds a call, under editions 1 and 2; under 2 the original is the one with two numbers changed.
    pub port: [f64; 2],
    pub rust: [f64; 2],
    /// The counts of A1 alone, by the plain reference.
    pub counts: f64,
}

/// Each shape at an eighth of its most triangles, a quarter, a half and all: how the time grows.
pub fn rows() -> impl Iterator<Item = Row> {
    SHAPES.into_iter().flat_map(|(on, make, most)| [8, 4, 2, 1].map(|share| race(on, make(most / share))))
}

/// Small meshes.
pub fn small() -> impl Iterator<Item = Row> {
    let mut open = Shape::cube(2.0);
    open.remove(2);
    let mut turned = Shape::cube(2.0).turned(0.3, 0.2);
    turned.remove(2);
    [
        ("tetrahedron", Shape::tetrahedron(1.0)),
        ("cube", Shape::cube(2.0)),
        ("cube to be welded", Shape::cube(2.0).exploded()),
        ("cylinder of 24 sides", Shape::cylinder(1.0, 3.0, 24)),
        ("cube without a triangle", open),
        ("cube without a triangle, turned", turned),
    ]
    .into_iter()
    .map(|(on, shape)| race(on, shape))
}

/// The best of several turns, port, original and plain counts one after the other; the port under both editions over the same areas.
pub fn race(on: &'static str, shape: Shape) -> Row {
    let mesh = plain(1.0, &shape.vertices, &shape.ids);
    let mut port = lent_port(&mesh);
    let rust = |mesh: &MeshFile| drop(black_box(qto::compute(&mesh.vertices, &mesh.ids, mesh.unit)));
    let changed = |mesh: &MeshFile| drop(black_box(second::compute(&mesh.vertices, &mesh.ids, mesh.unit)));
    let rusts: [&dyn Fn(&MeshFile); 2] = [&rust, &changed];
    let plain = |mesh: &MeshFile| counts(&mesh.vertices, &mesh.ids);
    let never = f64::INFINITY;
    let mut row = Row { on, triangles: shape.triangles(), port: [never; 2], rust: [never; 2], counts: never };
    let once = time(1, &mesh, |mesh| port(mesh, 1)).min(time(1, &mesh, rust));
    let calls = (TURN / once).ceil() as usize;
    let begun = Instant::now();
    let mut turns = 0;
    while turns < TURNS || begun.elapsed().as_secs_f64() < ENOUGH {
        // neither edition always behind the same other
        for i in [turns % 2, 1 - turns % 2] {
            row.port[i] = row.port[i].min(time(calls, &mesh, |mesh| port(mesh, EDITIONS[i])));
            row.rust[i] = row.rust[i].min(time(calls, &mesh, rusts[i]));
        }
        row.counts = row.counts.min(time(calls, &mesh, plain));
        turns += 1;
    }
    row
}

/// So many calls of the port on a mesh, under edition 1.
pub fn repeat(shape: &Shape, times: usize) {
    let mesh = plain(1.0, &shape.vertices, &shape.ids);
    let mut port = lent_port(&mesh);
    for _ in 0..times {
        black_box(port(black_box(&mesh), 1));
    }
}

/// The port with areas of just the size that a mesh needs, under any edition.
fn lent_port(mesh: &MeshFile) -> impl FnMut(&MeshFile, u32) -> u32 {
    let lent = Lent::exactly(mesh.vertices.len(), mesh.ids.len());
    let (mut work, mut raster, mut surfaces) = (vec![1; lent.work], vec![1; lent.raster], vec![1; lent.surfaces]);
    let (mut vertices, mut ids, mut record) = (bits(&mesh.vertices), mesh.ids.clone(), [0; WORDS]);
    move |mesh, edition| {
        let (vertices, ids) = (&mut vertices[..], &mut ids[..]);
        let areas = Areas { vertices, ids, work: &mut work, raster: &mut raster, surfaces: &mut surfaces };
        capi::compute(&Call { mesh, edition, clip: 0, defect: 0 }, areas, &mut record)
    }
}

fn time<T>(calls: usize, mesh: &MeshFile, mut f: impl FnMut(&MeshFile) -> T) -> f64 {
    let start = Instant::now();
    for _ in 0..calls {
        black_box(f(black_box(mesh)));
    }
    start.elapsed().as_secs_f64() / calls as f64
}
