//! The record as documents 01 and 02 promise it: the original's answer, with the refusals, the flags and the exact form of
//! the one exception around it, and beside it A1's counts and A3's cells, which the original does not have. Under edition 2 the
//! four areas by slope are those of the plain form (A6).

use crate::counts::{counts, Counts};
use crate::exception::{cube_exceeds, is_near};
use crate::file::{Flags, MeshFile};
use crate::mesh::{qto, ProductMesh};
use crate::raster::cells::{footprints, Cells};
use crate::slopes::{areas, thresholds};

/// At most so many vertex floats, and so many ids.
pub const MOST: usize = 98_304;
/// Coordinates have this magnitude at most: 2^33.
pub const FARTHEST: f32 = 8_589_934_592.0;
pub const LEAST_UNIT: f32 = 1.0 / 1_048_576.0;
pub const GREATEST_UNIT: f32 = 16.0;
pub const RASTER_BYTES: usize = 65_536;
/// The quality of an open shell.
pub const OPEN: &str = "open_shell";

/// The lengths of the lent areas.
#[derive(Clone, Copy, Debug)]
pub struct Lent {
    pub work: usize,
    pub raster: usize,
    pub surfaces: usize,
}

impl Lent {
    /// What a call with so many floats and ids asks for, and no more.
    pub fn exactly(floats: usize, ids: usize) -> Lent {
        Lent { work: 5 * ids + 4 * (ids / 3) + 8 * (floats / 3), raster: RASTER_BYTES, surfaces: 4 * (ids / 3) }
    }

    pub fn holds(&self, asked: Lent) -> bool {
        self.work >= asked.work && self.raster >= asked.raster && self.surfaces >= asked.surfaces
    }
}

#[derive(Clone, Debug)]
pub struct Record {
    pub quality: &'static str,
    pub reliable: bool,
    pub method: &'static str,
    pub profile: Option<&'static str>,
    pub volume: f32,
    pub aabb: f32,
    pub surface: f32,
    pub top: f32,
    pub bottom: f32,
    pub side: f32,
    pub inclined: f32,
    pub largest: f32,
    pub smallest: f32,
    pub best: f32,
    /// None is 'not computed'; the original has NaN there.
    pub prism: Option<f32>,
    /// Not the original's: by the plain reference.
    pub counts: Counts,
    /// Beside the record: the cells of the z, y and x footprints, likewise by the reference.
    pub cells: [Cells; 3],
    /// area, nx, ny, nz
    pub rows: Vec<[f32; 4]>,
}

/// How the original's answer stands to the one exception.
#[derive(Clone, Copy, Debug, PartialEq)]
pub enum Exception {
    /// Not within its reach.
    Apart,
    /// |8s³ - p²| ≤ p²/65,536 on an open shell with a prism of at least 1e-3: the two tests may differ.
    Near { changed: bool },
    /// The two differ although 01 says that they cannot: a finding.
    Outside,
}

#[derive(Clone, Debug)]
pub enum Answer {
    Refused(u32),
    Record(Record, Exception),
}

/// Under edition 1, which is the original's and the programs'.
pub fn compute(mesh: &MeshFile, lent: Lent) -> Answer {
    compute_under(mesh, 1, lent)
}

/// Document 01's table with 02's row, row by row; then the original.
pub fn compute_under(mesh: &MeshFile, edition: u32, lent: Lent) -> Answer {
    let (floats, ids) = (mesh.vertices.len(), mesh.ids.len());
    if floats > MOST || ids > MOST {
        return Answer::Refused(1);
    }
    if !is_zero_record(mesh) {
        if !(LEAST_UNIT..=GREATEST_UNIT).contains(&mesh.unit) {
            return Answer::Refused(2);
        }
        if thresholds(edition).is_none() {
            return Answer::Refused(7);
        }
        if !lent.holds(Lent::exactly(floats, ids)) {
            return Answer::Refused(3);
        }
        if !mesh.vertices.iter().all(|v| v.abs() <= FARTHEST) {
            return Answer::Refused(4);
        }
    }
    let mut answer = qto::compute(&mesh.vertices, &mesh.ids, mesh.unit);
    let exception = settle_exception(&mut answer);
    let product = ProductMesh { clip_unapplied: mesh.flags.clip, profile_invalid: mesh.flags.profile() };
    qto::apply_product_flags(&mut answer, &product);
    let record = Record::of(answer, &mesh.vertices, &mesh.ids);
    Answer::Record(record.under(edition, mesh), exception)
}

/// Whatever its unit, its floats and the edition.
pub fn is_zero_record(mesh: &MeshFile) -> bool {
    has_nothing(&mesh.vertices, &mesh.ids)
}

fn has_nothing(vertices: &[f32], ids: &[u32]) -> bool {
    ids.len() < 3 || vertices.len() < 9
}

/// A zero record counts nothing.
fn counted(vertices: &[f32], ids: &[u32]) -> Counts {
    if has_nothing(vertices, ids) {
        Counts::default()
    } else {
        counts(vertices, ids)
    }
}

/// The cells of an open shell; no other takes a footprint.
fn celled(quality: &str, vertices: &[f32], ids: &[u32]) -> [Cells; 3] {
    if quality == OPEN {
        footprints(vertices, ids)
    } else {
        Default::default()
    }
}

/// The original's answer without flags and refusals, for callers that ask about the original alone.
pub fn original(vertices: &[f32], ids: &[u32], unit: f32) -> Record {
    Record::of(qto::compute(vertices, ids, unit), vertices, ids)
}

/// Best volume of an open shell once more, by document 01's words with 8s³ > p² in `powf`'s place.
fn settle_exception(answer: &mut qto::MeshQto) -> Exception {
    let prism = answer.volume_prism_bound_m3;
    if answer.mesh_quality != OPEN || prism < 1e-3 {
        return Exception::Apart;
    }
    let (volume, aabb, surface) = (answer.volume_m3.abs(), answer.aabb_volume_m3, answer.surface_area_m2);
    let upper = if aabb > 0.0 && aabb < prism { aabb } else { prism };
    let collapsed = cube_exceeds(surface, prism) && volume < upper * 1e-3;
    let trusted = volume > 0.0 && !collapsed && volume <= upper * 1.05;
    let (best, method) = if trusted { (volume, "mesh_open") } else { (prism, "prism_fallback") };
    let changed = (best.to_bits(), method, trusted)
        != (answer.volume_best_m3.to_bits(), answer.volume_method, answer.volume_reliable);
    answer.volume_best_m3 = best;
    answer.volume_method = method;
    answer.volume_reliable = trusted;
    match (is_near(surface, prism), changed) {
        (true, changed) => Exception::Near { changed },
        (false, true) => Exception::Outside,
        (false, false) => Exception::Apart,
    }
}

impl Record {
    fn of(answer: qto::MeshQto, vertices: &[f32], ids: &[u32]) -> Record {
        Record {
            quality: answer.mesh_quality,
            reliable: answer.volume_reliable,
            method: answer.volume_method,
            profile: answer.profile_invalid,
            volume: answer.volume_m3,
            aabb: answer.aabb_volume_m3,
            surface: answer.surface_area_m2,
            top: answer.area_top_m2,
            bottom: answer.area_bottom_m2,
            side: answer.area_side_m2,
            inclined: answer.area_inclined_m2,
            largest: answer.largest_surface_m2,
            smallest: answer.smallest_surface_m2,
            best: answer.volume_best_m3,
            prism: Some(answer.volume_prism_bound_m3).filter(|p| !p.is_nan()),
            counts: counted(vertices, ids),
            cells: celled(answer.mesh_quality, vertices, ids),
            rows: answer.surfaces.iter().map(|s| [s.area_m2, s.nx, s.ny, s.nz]).collect(),
        }
    }

    /// Top, bottom, side and inclined.
    pub fn slopes(&self) -> [f32; 4] {
        [self.top, self.bottom, self.side, self.inclined]
    }

    /// The mesh's record under edition 1, under this edition: nothing but the areas by slope hangs on it, and those of a full record
    /// alone. Under 1 they are the original's.
    pub fn under(mut self, edition: u32, mesh: &MeshFile) -> Record {
        if let (Some(thresholds), false) = (thresholds(edition), edition == 1 || is_zero_record(mesh)) {
            let slopes = areas(&mesh.vertices, &mesh.ids, mesh.unit, thresholds);
            [self.top, self.bottom, self.side, self.inclined] = slopes;
        }
        self
    }
}

impl Answer {
    /// Of a mesh under edition 1, over areas that are long enough: the same under an edition that is known.
    pub fn under(&self, edition: u32, mesh: &MeshFile) -> Answer {
        match self {
            Answer::Refused(number) => Answer::Refused(*number),
            Answer::Record(record, exception) => Answer::Record(record.clone().under(edition, mesh), *exception),
        }
    }
}

/// A mesh without flags.
pub fn plain(unit: f32, vertices: &[f32], ids: &[u32]) -> MeshFile {
    MeshFile { unit, vertices: vertices.to_vec(), ids: ids.to_vec(), flags: Flags::default() }
}
