//! Point tests and counts of cells that are not 02's (A3), for ports that are right in all else.

use mowfrost_oracle::raster::cells::{by_values, place, values, Cells, Grid, Had, Place, Point};

type Test = fn(Point, [Point; 3]) -> Place;
type Count = fn(&Grid) -> Cells;

fn both_signs(d: [f32; 3]) -> bool {
    d.iter().any(|&d| d > 0.0) && d.iter().any(|&d| d < 0.0)
}

/// The values in f64: by exact geometry, or nearly so.
fn wide(p: Point, corners: [Point; 3]) -> [f32; 3] {
    let p = p.map(f64::from);
    let [a, b, c] = corners.map(|corner| corner.map(f64::from));
    let side = |q: [f64; 2], r: [f64; 2]| (p[0] - r[0]) * (q[1] - r[1]) - (q[0] - r[0]) * (p[1] - r[1]);
    [side(a, b), side(b, c), side(c, a)].map(|d| if d == 0.0 { 0.0 } else { d.signum() as f32 })
}

pub const WRONG_TESTS: [(&str, Test); 8] = [
    ("a zero beside both signs is on the edge", |p, corners| {
        let d = values(p, corners);
        if both_signs(d) && d.contains(&0.0) {
            Place::Edge
        } else {
            by_values(d)
        }
    }),
    ("-0 is no zero", |p, corners| {
        let d = values(p, corners);
        match by_values(d) {
            Place::Edge if d.iter().all(|d| d.to_bits() != 0) => Place::Inside,
            right => right,
        }
    }),
    ("on the edge is outside", |p, corners| match place(p, corners) {
        Place::Edge => Place::Outside,
        right => right,
    }),
    ("on the edge is inside", |p, corners| match place(p, corners) {
        Place::Edge => Place::Inside,
        right => right,
    }),
    ("a corner is no edge", |p, corners| match place(p, corners) {
        Place::Edge if values(p, corners).iter().filter(|&&d| d == 0.0).count() > 1 => Place::Inside,
        right => right,
    }),
    ("the last value is not asked for a zero", |p, corners| {
        let [d, e, f] = values(p, corners);
        match by_values([d, e, f]) {
            Place::Edge if d != 0.0 && e != 0.0 => Place::Inside,
            right => right,
        }
    }),
    ("the corners in another order", |p, [a, b, c]| place(p, [a, c, b])),
    ("in f64", |p, corners| by_values(wide(p, corners))),
];

fn count(grid: &Grid, test: impl Fn(Had) -> bool) -> u32 {
    grid.had.iter().filter(|had| test(**had)).count() as u32
}

pub const WRONG_CELLS: [(&str, Count); 6] = [
    ("on one triangle's edge and inside another is rim", |grid| Cells {
        rim: count(grid, |had| had.edge > 0),
        ..grid.cells()
    }),
    ("rim cells are not covered", |grid| Cells { covered: count(grid, |had| had.inside > 0), ..grid.cells() }),
    ("inside some is covered, whatever is on an edge too", |grid| Cells {
        covered: count(grid, |had| had.inside > 0 && had.edge == 0) + grid.cells().rim,
        ..grid.cells()
    }),
    ("on the edges of two is no rim", |grid| Cells {
        rim: count(grid, |had| had.is_rim() && had.edge == 1),
        ..grid.cells()
    }),
    ("on the edges of three is no rim", |grid| Cells {
        rim: count(grid, |had| had.is_rim() && had.edge < 3),
        ..grid.cells()
    }),
    ("rim cells once for each triangle", |grid| Cells {
        rim: grid.had.iter().filter(|had| had.is_rim()).map(|had| had.edge as u32).sum(),
        ..grid.cells()
    }),
];
