//! `oracle raster N`: the footprint's bits, its covered and rim cells, every byte of the lent raster, that vertices and ids are as they
//! were, bit for bit, and the point test with its three answers. The rim is held to the plain reference, which is itself held to the
//! original: by its yes or no for a point, by its area for the cells that are covered.

use super::capi;
use super::cells::{by_values, grid, place, values, Cells, Grid, Met, Place};
use super::meshes::{by_chance, fine_sheet, in_its_box, open_box, open_sphere, small_soup, Scene};
use crate::linked::bits;
use crate::mesh::qto::probe;
use crate::random::Random;
use std::hint::black_box;

pub const BYTES: usize = 65_536;

#[derive(Default)]
pub struct Count {
    pub agree: u64,
    pub differ: u64,
    /// Of those that agree: 0, more, not a number, and a raster that was too short.
    pub nothing: u64,
    pub some: u64,
    pub nan: u64,
    pub untaken: u64,
    /// Those whose area tells how many cells the original covered, and what their cells were.
    pub told: u64,
    pub met: Met,
    /// The first that differ, for a look.
    pub shown: Vec<String>,
}

const SHOWN: usize = 5;

/// Answers the area and stores covered and rim.
pub type Port<'a> = &'a dyn Fn(&Scene, &mut [u8], &mut [u32; 2]) -> f32;

pub const PORT: Port<'static> = &capi::footprint_raw;

/// What stands in a raster before a call: no byte of it is 0.
fn noise(place: usize, salt: u8) -> u8 {
    (place as u8).wrapping_mul(37).wrapping_add(salt) | 1
}

fn same(one: f32, other: f32) -> bool {
    one.to_bits() == other.to_bits() || one.is_nan() && other.is_nan()
}

/// What the reference says of a scene, held to the original's area: every normal number tells the count.
struct Right {
    area: f32,
    grid: Option<Grid>,
    cells: Cells,
    is_told: bool,
    wrong: Option<String>,
}

impl Right {
    fn of(Scene { vertices, ids, axes, u, v }: &Scene) -> Right {
        let area = probe::footprint_raw(vertices, ids, *axes, *u, *v);
        let grid = grid(vertices, ids, *axes, *u, *v, place);
        let cells = grid.as_ref().map_or(Cells::default(), Grid::cells);
        let by_cells = grid.as_ref().map_or(0.0, |grid| grid.area(cells.covered));
        let is_told = grid.as_ref().is_none_or(|grid| grid.tells(cells.covered));
        let wrong = (!same(by_cells, area) || area.is_normal() && !is_told)
            .then(|| format!("the reference has {cells:?}, an area of {by_cells:?}, and the original {area:?}"));
        Right { area, grid, cells, is_told, wrong }
    }
}

impl Count {
    /// One scene, over a raster that is just long enough or longer, and now and then one that is too short.
    fn add(&mut self, port: Port, scene: &Scene, random: &mut Random, raster: &mut Vec<u8>) {
        let lent = match random.below(20) {
            0 => BYTES - 1 - random.below(3),
            1..=9 => BYTES + random.below(30),
            _ => BYTES,
        };
        let salt = random.bits() as u8;
        raster.clear();
        raster.extend((0..lent).map(|place| noise(place, salt)));
        let before = (bits(&scene.vertices), scene.ids.clone());
        let noisy = [random.bits() as u32 | 1, random.bits() as u32 | 1];
        let mut cells = noisy;
        let given = port(scene, raster, &mut cells);
        let kept = (bits(black_box(&scene.vertices)), black_box(&scene.ids).clone()) == before;
        let fits = lent >= BYTES;
        let right = Right::of(scene);
        let (area, covered_and_rim) =
            if fits { (right.area, [right.cells.covered, right.cells.rim]) } else { (0.0, noisy) };
        let wrong = (0..lent).find(|&i| raster[i] != if fits && i < BYTES { 0 } else { noise(i, salt) });
        if same(given, area) && cells == covered_and_rim && kept && wrong.is_none() && right.wrong.is_none() {
            return self.met(right, fits);
        }
        let reference = right.wrong.map_or(String::new(), |wrong| format!("{wrong}; "));
        self.show(|| {
            let Scene { vertices, ids, axes, u, v } = scene;
            let (some, count) = (&vertices[..vertices.len().min(30)], ids.len());
            format!(
                "{reference}{given:?} and {cells:?}, should be {area:?} and {covered_and_rim:?}, mesh kept {kept}, byte {wrong:?}; \
                 {lent} bytes, axes {axes:?}, {u:?} by {v:?}, {some:?}, {count} ids {:?}",
                &ids[..count.min(30)]
            )
        });
    }

    fn met(&mut self, right: Right, fits: bool) {
        self.agree += 1;
        if !fits {
            self.untaken += 1;
            return;
        }
        *(match right.area {
            x if x.is_nan() => &mut self.nan,
            0.0 => &mut self.nothing,
            _ => &mut self.some,
        }) += 1;
        self.told += right.is_told as u64;
        right.grid.iter().for_each(|grid| self.met.add(grid));
    }

    fn show(&mut self, why: impl FnOnce() -> String) {
        self.differ += 1;
        if self.shown.len() < SHOWN {
            self.shown.push(why());
        }
    }
}

fn over(port: Port, seed: u64, scenes: impl Iterator<Item = Scene>) -> Count {
    let (mut count, mut raster, mut random) = (Count::default(), Vec::new(), Random::new(seed));
    scenes.for_each(|scene| count.add(port, &scene, &mut random, &mut raster));
    count
}

pub fn on_large(port: Port) -> Count {
    let shapes = [open_sphere(), small_soup(10_922, &mut Random::new(3)), fine_sheet(), open_box()];
    let scenes = shapes
        .into_iter()
        .flat_map(|shape| [[0, 1], [0, 2], [1, 2], [1, 0], [2, 2]].map(|axes| in_its_box(shape.clone(), axes)));
    over(port, 1, scenes)
}

pub fn on_chance(port: Port, n: u64) -> Count {
    over(port, 2, (0..n).map(|turn| by_chance(&mut Random::new(turn))))
}

// ---- points

/// Answers 0 for outside, 1 for on the edge, 2 for inside.
pub type PointTest<'a> = &'a dyn Fn([f32; 2], [f32; 2], [f32; 2], [f32; 2]) -> u32;

pub const POINT_TEST: PointTest<'static> = &capi::point_in_triangle;

#[derive(Default)]
pub struct Points {
    pub agree: u64,
    pub differ: u64,
    /// Of those that agree: outside, on the edge, inside.
    pub places: [u64; 3],
    /// Of those outside the ones with a zero among the values, and of the others the ones with a NaN.
    pub outside_with_zero: u64,
    pub nan: u64,
    pub shown: Vec<String>,
}

/// Four points of a small lattice, or a fourth on the line through two of the others, or any bits.
fn four_points(random: &mut Random) -> [[f32; 2]; 4] {
    let lattice = random.pick(&[3, 3, 9]);
    let step = random.pick(&[1.0, 1.0, 0.1, 1e-20, 1e-23, 1e19, 3e37]);
    let at = |random: &mut Random| random.within(-lattice, lattice) as f32 * step;
    let mut points = [[0; 2]; 4].map(|point| point.map(|_: i32| at(random)));
    match random.below(6) {
        0 => points = points.map(|point| point.map(|_| f32::from_bits(random.bits() as u32))),
        1 => points[random.below(4)][random.below(2)] = random.pick(&[f32::NAN, f32::INFINITY, f32::MIN, -0.0, 1e-45]),
        2 => {
            let [_, a, b, _] = points;
            let part = random.between(-0.2, 1.2) as f32;
            points[0] = [a[0] + part * (b[0] - a[0]), a[1] + part * (b[1] - a[1])];
        }
        _ => {}
    }
    points
}

/// The answer is the reference's, and it is not outside exactly where the original says yes.
pub fn on_points(test: PointTest, n: u64) -> Points {
    let (mut count, mut random) = (Points::default(), Random::new(4));
    for _ in 0..n {
        let [p, a, b, c] = four_points(&mut random);
        let values = values(p, [a, b, c]);
        let (given, right, yes) = (test(p, a, b, c), by_values(values), probe::point_in_triangle(p, a, b, c));
        if given == right as u32 && (right != Place::Outside) == yes {
            count.agree += 1;
            count.places[right as usize] += 1;
            count.outside_with_zero += (!yes && values.contains(&0.0)) as u64;
            count.nan += (yes && values.iter().any(|x| x.is_nan())) as u64;
        } else {
            count.differ += 1;
            if count.shown.len() < SHOWN {
                count.shown.push(format!(
                    "{given}, should be {right:?}, and the original says {yes}: {p:?} by {a:?} {b:?} {c:?}"
                ));
            }
        }
    }
    count
}
