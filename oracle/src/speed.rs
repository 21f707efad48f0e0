//! `oracle speed`: every routine of the C interface beside the original in one process, on the meshes whose ratios are
//! bounded. The table stands in docs/PERFORMANCE.md.

use crate::compute::shapes::{boxes, soup, sphere, torus, unwelded, wall, Make, APART, SHAPES, TRIANGLES};
use crate::compute::speed::{self as compute, race};
use crate::ids::routines::{MOST_IDS, ROUTINES};
use crate::ids::{lists, speed as ids};
use crate::solids::Shape;

/// What a ratio to the original may be at most.
const CLOSED: f64 = 0.5;
const WELDED: f64 = 0.4;
const OPEN: f64 = 0.6;
const IDS: f64 = 0.4;
const PIECES: f64 = 0.5;
const PIECES_MIXED: f64 = 1.5;

/// What twice the size may take at most.
pub const GROWTH: f64 = 2.2;

pub struct Row {
    pub routine: &'static str,
    pub on: String,
    /// Triangles.
    pub size: usize,
    /// Seconds a call.
    pub port: f64,
    pub rust: f64,
    pub most: f64,
}

pub struct Growth {
    pub routine: &'static str,
    pub on: &'static str,
    /// Seconds at a quarter of the most triangles, a half and all.
    pub port: [f64; 3],
}

impl Growth {
    /// The greater of the two steps.
    pub fn step(&self) -> f64 {
        (self.port[1] / self.port[0]).max(self.port[2] / self.port[1])
    }
}

/// So many bands and so many triangle pairs around: 36, 168, 720, 2,976, 12,096 and 31,750 triangles.
const SPHERES: [(u32, u32); 6] = [(4, 6), (8, 12), (16, 24), (32, 48), (64, 96), (126, 127)];

fn ball((rings, around): (u32, u32)) -> Shape {
    Shape::sphere(5.0, rings, around).turned(0.3, 0.2)
}

/// Without two of its triangles.
fn cut(mut shape: Shape) -> Shape {
    let n = shape.triangles();
    shape.remove(2 * n / 3);
    shape.remove(n / 2);
    shape
}

/// Separate triangles with ids up to the limit, of which a third name vertices.
fn distinct_ids(_: usize) -> Shape {
    let mut shape = soup(APART);
    shape.ids = (0..MOST_IDS as u32).collect();
    shape
}

/// `compute` on each mesh under edition 1, as the bounds have them, and under edition 2, beside the original with two numbers changed.
pub fn records() -> impl Iterator<Item = Row> {
    let closed = SPHERES.map(|size| ("closed sphere", ball(size), CLOSED));
    let separate = [1, 100, 2730].map(|n| ("boxes", boxes(12 * n), CLOSED));
    let welded = [720, 2976, APART].map(|n| ("soup that welds", unwelded(n), WELDED));
    let open = SPHERES.map(|size| ("open sphere", cut(ball(size)), OPEN));
    let distinct = [("soup of distinct ids", distinct_ids(0), OPEN)];
    closed.into_iter().chain(separate).chain(welded).chain(open).chain(distinct).flat_map(|(on, shape, most)| {
        let row = race(on, shape);
        let name = |edition: usize| if edition == 0 { on.into() } else { format!("{on}, edition 2") };
        let (routine, size, port, rust) = ("compute", row.triangles, row.port, row.rust);
        [0, 1].map(|i| Row { routine, on: name(i), size, port: port[i], rust: rust[i], most })
    })
}

/// The id routines at the limit, on lists as they come and mixed up.
pub fn lists() -> impl Iterator<Item = Row> {
    ROUTINES.iter().flat_map(ids::at_the_limit).map(|row| Row {
        routine: row.name,
        most: match row.name {
            "pieces" if row.on.ends_with("mixed up") => PIECES_MIXED,
            "pieces" => PIECES,
            _ => IDS,
        },
        on: row.on,
        size: row.ids / 3,
        port: row.port / 1e3,
        rust: row.rust / 1e3,
    })
}

/// Growth at n, 2n and 4n.
pub fn growth() -> impl Iterator<Item = Growth> {
    const MESHES: [(&str, Make, usize); 6] = [
        ("closed sphere", sphere, TRIANGLES),
        ("torus", torus, TRIANGLES),
        ("wall", wall, TRIANGLES),
        ("boxes", boxes, TRIANGLES),
        ("soup that welds", unwelded, APART),
        ("soup", soup, APART),
    ];
    const LISTS: [(&str, lists::Shape); 4] =
        [("torus", lists::torus), ("soup", lists::soup), ("fan", lists::fan), ("boxes", lists::boxes)];
    let records = MESHES.into_iter().map(|(on, make, most)| Growth {
        routine: "compute",
        on,
        port: [4, 2, 1].map(|share| race(on, make(most / share)).port[0]),
    });
    let lists = ROUTINES.iter().flat_map(|routine| {
        LISTS.into_iter().map(|(on, make)| Growth {
            routine: routine.name,
            on,
            port: [4, 2, 1].map(|share| ids::race(routine, on.into(), &make(TRIANGLES / share)).port / 1e3),
        })
    });
    records.chain(lists)
}

/// Calls the port's routine and nothing else, so that a profiler sees it alone: how many triangles the mesh of that name has, or none
/// where there is no such routine or mesh.
pub fn repeat(routine: &str, on: &str, triangles: usize, times: usize) -> Option<usize> {
    if routine == "compute" {
        let (_, make, most) = SHAPES.into_iter().find(|(name, ..)| *name == on)?;
        let shape = make(triangles.min(most));
        compute::repeat(&shape, times);
        return Some(shape.triangles());
    }
    let routine = ROUTINES.iter().find(|known| known.name == routine)?;
    let (_, make) = lists::SHAPES.into_iter().find(|(name, _)| *name == on)?;
    let list = make(triangles.min(TRIANGLES));
    ids::repeat(routine, &list, times);
    Some(list.len() / 3)
}
