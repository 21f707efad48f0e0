//! `oracle speed raster`: how long a mesh's three footprints take, how long the original's, and how long a plain form in Rust that
//! counts the rim too, in one process.

use super::capi;
use super::cells::{Cells, AXES};
use super::compare::BYTES;
use super::meshes::{fine_sheet, in_its_box, open_box, open_sphere, small_soup, Scene};
use crate::mesh::qto::probe;
use crate::random::Random;
use crate::solids::Shape;
use std::hint::black_box;
use std::time::Instant;

const BEST_OF: usize = 15;

pub struct Row {
    pub on: &'static str,
    pub triangles: usize,
    pub port: f64,
    pub rust: f64,
    /// The plain form with the rim.
    pub rim: f64,
}

pub fn rows() -> Vec<Row> {
    [
        ("an open sphere", open_sphere()),
        ("a fine sheet, uneven", fine_sheet()),
        ("small triangles by chance", small_soup(10_922, &mut Random::new(3))),
        ("an open box, turned", open_box()),
    ]
    .map(|(on, shape)| race(on, shape))
    .into()
}

/// Milliseconds for the footprints along z, y and x together, the best of several runs that take turns.
fn race(on: &'static str, shape: Shape) -> Row {
    let mut raster = vec![1; BYTES];
    let (mut row, endless) = (Row { on, triangles: shape.triangles(), port: 0.0, rust: 0.0, rim: 0.0 }, f64::INFINITY);
    (row.port, row.rust, row.rim) = (endless, endless, endless);
    let scenes = AXES.map(|axes| in_its_box(shape.clone(), axes));
    for _ in 0..BEST_OF {
        row.port = row.port.min(time(&scenes, |scene| {
            let mut cells = [0; 2];
            (capi::footprint_raw(scene, &mut raster, &mut cells), cells)
        }));
        row.rust = row.rust.min(time(&scenes, |s| probe::footprint_raw(&s.vertices, &s.ids, s.axes, s.u, s.v)));
        row.rim = row.rim.min(time(&scenes, with_rim));
    }
    row
}

fn time<T>(scenes: &[Scene], mut f: impl FnMut(&Scene) -> T) -> f64 {
    let start = Instant::now();
    scenes.iter().for_each(|scene| drop(black_box(f(black_box(scene)))));
    start.elapsed().as_secs_f64() * 1e3
}

/// The original's footprint as one would write it in Rust to have the rim as well: a byte a cell, 0, 1 for an edge, 2 for inside.
pub fn with_rim(Scene { vertices, ids, axes, u, v }: &Scene) -> (f32, Cells) {
    let ([umin, umax], [vmin, vmax]) = (*u, *v);
    let (w, h) = ((umax - umin).max(0.0), (vmax - vmin).max(0.0));
    let cell = w.max(h) / 256.0;
    if w <= 0.0 || h <= 0.0 || cell <= 0.0 {
        return (0.0, Cells::default());
    }
    let nx = ((w / cell).ceil() as usize).clamp(1, 256);
    let ny = ((h / cell).ceil() as usize).clamp(1, 256);
    let (cell_w, cell_h) = (w / nx as f32, h / ny as f32);
    let mut marks = vec![0u8; nx * ny];
    for t in ids.as_chunks::<3>().0 {
        let [ia, ib, ic] = t.map(|id| 3 * id as usize);
        if ia + 2 >= vertices.len() || ib + 2 >= vertices.len() || ic + 2 >= vertices.len() {
            continue;
        }
        let [[ax, ay], [bx, by], [cx, cy]] = [ia, ib, ic].map(|first| axes.map(|axis| vertices[first + axis]));
        if ((bx - ax) * (cy - ay) - (cx - ax) * (by - ay)).abs() < 1e-12 {
            continue;
        }
        let column = |x: f32| (((x - umin) / cell_w).floor() as isize).clamp(0, nx as isize - 1) as usize;
        let row = |y: f32| (((y - vmin) / cell_h).floor() as isize).clamp(0, ny as isize - 1) as usize;
        let (left, right) = (column(ax.min(bx).min(cx)), column(ax.max(bx).max(cx)));
        let (top, bottom) = (row(ay.min(by).min(cy)), row(ay.max(by).max(cy)));
        for gy in top..=bottom {
            let py = vmin + (gy as f32 + 0.5) * cell_h;
            for (gx, mark) in (left..).zip(&mut marks[gy * nx + left..=gy * nx + right]) {
                let px = umin + (gx as f32 + 0.5) * cell_w;
                let d1 = (px - bx) * (ay - by) - (ax - bx) * (py - by);
                let d2 = (px - cx) * (by - cy) - (bx - cx) * (py - cy);
                let d3 = (px - ax) * (cy - ay) - (cx - ax) * (py - ay);
                let below = d1 < 0.0 || d2 < 0.0 || d3 < 0.0;
                let above = d1 > 0.0 || d2 > 0.0 || d3 > 0.0;
                let edge = d1 == 0.0 || d2 == 0.0 || d3 == 0.0;
                *mark = (*mark).max(if below && above { 0 } else { 2 - edge as u8 });
            }
        }
    }
    let covered = marks.iter().filter(|&&mark| mark > 0).count() as u32;
    let rim = marks.iter().filter(|&&mark| mark == 1).count() as u32;
    (covered as f32 * cell_w * cell_h, Cells { covered, rim })
}
