//! What a call is passed and lent: noise before it, and after it a look at every place.

use super::nans::Nans;
use crate::area::{noise_byte, noise_float, noise_word, told, Area, BEGINNINGS, RIM};
use crate::file::MeshFile;
use crate::random::Random;
use crate::record::{Lent, MOST, RASTER_BYTES};

/// The words of a record, and of them the number of rows.
pub const WORDS: usize = 26;
pub const ROWS: usize = 16;
/// The first of the words that are beside the record: covered and rim cells of the z, y and x footprints.
pub const CELLS: usize = 20;

/// The slices of one call. Floats are in bits: there a NaN is a word like any other.
pub struct Areas<'a> {
    /// The mesh's own, to be read and not to be written: a port that does write them is found.
    pub vertices: &'a mut [u32],
    pub ids: &'a mut [u32],
    /// Lent.
    pub work: &'a mut [u32],
    pub raster: &'a mut [u8],
    pub surfaces: &'a mut [u32],
}

/// What stands at the front of each area after a call; all behind it is untouched.
#[derive(Clone, Copy)]
pub struct Fronts<'a> {
    pub record: &'a [u32],
    /// So many zeros.
    pub work: usize,
    pub raster: usize,
    pub surfaces: &'a [u32],
}

/// How long the front of each area is that a call may have changed; of work and raster it is then 0.
#[derive(Clone, Copy, Default)]
pub struct Written {
    pub record: usize,
    pub work: usize,
    pub raster: usize,
    pub surfaces: usize,
}

static ZERO_WORDS: [u32; 5 * MOST + 12 * (MOST / 3)] = [0; 5 * MOST + 12 * (MOST / 3)];
static ZERO_BYTES: [u8; RASTER_BYTES] = [0; RASTER_BYTES];

/// All that calls are lent, one call after the other.
pub struct Lending {
    vertices: Area<u32>,
    ids: Area<u32>,
    /// The vertices of the mesh that is passed.
    bits: Vec<u32>,
    work: Area<u32>,
    raster: Area<u8>,
    surfaces: Area<u32>,
    record: Area<u32>,
}

impl Lending {
    pub fn new(seed: u64) -> Lending {
        Lending {
            vertices: Area::new(6 * seed, noise_float),
            ids: Area::new(6 * seed + 1, noise_word),
            bits: Vec::new(),
            work: Area::new(6 * seed + 2, noise_word),
            raster: Area::new(6 * seed + 3, noise_byte),
            surfaces: Area::new(6 * seed + 4, noise_float),
            record: Area::new(6 * seed + 5, noise_word),
        }
    }

    /// The next calls find other noise.
    pub fn elsewhere(&mut self, random: &mut Random) {
        let mut from = || RIM + random.below(BEGINNINGS);
        (self.work.from, self.raster.from, self.surfaces.from, self.record.from) = (from(), from(), from(), from());
        (self.vertices.from, self.ids.from) = (from(), from());
    }

    pub fn lend(&mut self, mesh: &MeshFile, lent: Lent) -> (Areas<'_>, &mut [u32; WORDS]) {
        self.bits.clear();
        self.bits.extend(mesh.vertices.iter().map(|x| x.to_bits()));
        self.vertices.lend(self.bits.len()).copy_from_slice(&self.bits);
        self.ids.lend(mesh.ids.len()).copy_from_slice(&mesh.ids);
        let areas = Areas {
            vertices: self.vertices.lend(self.bits.len()),
            ids: self.ids.lend(mesh.ids.len()),
            work: self.work.lend(lent.work),
            raster: self.raster.lend(lent.raster),
            surfaces: self.surfaces.lend(lent.surfaces),
        };
        (areas, self.record.lend(WORDS).try_into().expect("so many words"))
    }

    /// The first place of the mesh that a call changed, vertices and ids. Then all is noise again.
    fn settle_mesh(&mut self, mesh: &MeshFile) -> impl Iterator<Item = String> {
        let vertices = self.vertices.settle(self.bits.len(), &self.bits).map(|wrong| told("vertex float", wrong));
        let ids = self.ids.settle(mesh.ids.len(), &mesh.ids).map(|wrong| told("id", wrong));
        [vertices, ids].into_iter().flatten()
    }

    /// The first fault of each area after a call.
    pub fn settle(&mut self, mesh: &MeshFile, lent: Lent, fronts: Fronts) -> Vec<String> {
        let mesh = self.settle_mesh(mesh);
        let record = self.record.settle(WORDS, fronts.record).map(|wrong| told("record", wrong));
        let surfaces = self.surfaces.settle(lent.surfaces, fronts.surfaces).map(|wrong| told("surface", wrong));
        let work = self.work.settle(lent.work, &ZERO_WORDS[..fronts.work]).map(|wrong| told("work", wrong));
        let raster = self.raster.settle(lent.raster, &ZERO_BYTES[..fronts.raster]).map(|wrong| told("raster", wrong));
        mesh.chain([record, surfaces, work, raster].into_iter().flatten()).collect()
    }

    /// The NaNs that stood in the surface area behind so many floats.
    pub fn nans_behind(&self, lent: Lent, front: usize) -> Nans {
        let from = self.surfaces.from;
        Nans::among(&self.surfaces.noise[from + front.min(lent.surfaces)..from + lent.surfaces])
    }

    /// The NaNs among the vertices of the last call.
    pub fn nans_passed(&self) -> Nans {
        Nans::among(&self.bits)
    }

    /// All that a call left, and what is wrong with it: changed though it was to stay, or not cleared. The next call
    /// finds what this one found.
    pub fn take(&mut self, mesh: &MeshFile, lent: Lent, written: Written) -> Left {
        let words = zeros(&ZERO_WORDS, written.work, lent.work);
        let bytes = zeros(&ZERO_BYTES, written.raster, lent.raster);
        let record = self.record.changed(WORDS, written.record).map(|wrong| told("record", wrong));
        let surfaces = self.surfaces.changed(lent.surfaces, written.surfaces).map(|wrong| told("surface", wrong));
        let work = self.work.wrong(lent.work, words).map(|wrong| told("work", wrong));
        let raster = self.raster.wrong(lent.raster, bytes).map(|wrong| told("raster", wrong));
        let wrong = self.settle_mesh(mesh).chain([record, surfaces, work, raster].into_iter().flatten()).collect();
        Left {
            wrong,
            work: self.work.take(lent.work),
            raster: self.raster.take(lent.raster),
            surfaces: self.surfaces.take(lent.surfaces),
            record: self.record.take(WORDS),
        }
    }
}

/// What a call left in each area and in its rims.
#[derive(Clone)]
pub struct Left {
    /// The first place of each area that should be as it was, or cleared, and is not.
    pub wrong: Vec<String>,
    work: Vec<u32>,
    raster: Vec<u8>,
    surfaces: Vec<u32>,
    record: Vec<u32>,
}

impl Left {
    pub fn record(&self) -> [u32; WORDS] {
        self.record[RIM..RIM + WORDS].try_into().expect("so many words")
    }

    /// The rows that the record counts, or as many of them as were lent; area, nx, ny and nz each.
    pub fn rows(&self) -> &[[u32; 4]] {
        let (lent, _) = self.surfaces[RIM..self.surfaces.len() - RIM].as_chunks();
        &lent[..lent.len().min(self.record()[ROWS] as usize)]
    }

    /// The same with another record, and other rows in place of the first of these.
    pub fn with(&self, record: [u32; WORDS], rows: &[[u32; 4]]) -> Left {
        let mut other = self.clone();
        other.record[RIM..RIM + WORDS].copy_from_slice(&record);
        other.surfaces[RIM..RIM + 4 * rows.len()].copy_from_slice(rows.as_flattened());
        other
    }

    /// The first place of each area where two calls that were lent alike left something else. The free words of the record
    /// are not looked at.
    pub fn differences(&self, other: &Left, free: &[usize]) -> Vec<String> {
        let mut record = other.record.clone();
        free.iter().for_each(|word| record[RIM + word] = self.record[RIM + word]);
        let differences = [
            first_difference("record", &self.record, &record),
            first_difference("surface", &self.surfaces, &other.surfaces),
            first_difference("work", &self.work, &other.work),
            first_difference("raster", &self.raster, &other.raster),
        ];
        differences.into_iter().flatten().collect()
    }
}

/// So many zeros, or fewer where a wrong port answers although an area is too short or there are too many ids.
fn zeros<T>(all: &[T], written: usize, lent: usize) -> &[T] {
    &all[..written.min(lent).min(all.len())]
}

fn first_difference<T: PartialEq + std::fmt::LowerHex>(area: &str, one: &[T], other: &[T]) -> Option<String> {
    if one == other {
        return None;
    }
    let at = one.iter().zip(other).position(|(one, other)| one != other)?;
    Some(format!("{area} {} is {:x} and {:x}", at as i64 - RIM as i64, one[at], other[at]))
}

#[cfg(test)]
mod tests {
    use super::*;
    use crate::record::plain;

    /// No routine that keeps to its slices can write there.
    #[test]
    fn rims_are_compared() {
        let (lent, mesh) = (Lent { work: 5, raster: 7, surfaces: 3 }, plain(1.0, &[1.0; 4], &[7; 2]));
        let mut lending = Lending::new(1);
        let mut left = |spoil: fn(&mut Lending)| {
            lending.lend(&mesh, lent);
            spoil(&mut lending);
            lending.take(&mesh, lent, Written::default())
        };
        let right = left(|_| {});
        assert!(right.wrong.is_empty() && right.differences(&left(|_| {}), &[]).is_empty());
        let mut found = |place: &str, spoil: fn(&mut Lending)| {
            let spoilt = left(spoil);
            let found = right.differences(&spoilt, &[]);
            assert!(found.len() == 1 && found[0].starts_with(&format!("{place} is ")), "{place}: {found:?}");
            assert!(spoilt.wrong.len() == 1 && spoilt.wrong[0].starts_with(&format!("{place} is ")), "{place}");
        };
        found("work -1", |all| all.work.now[RIM - 1] = 0);
        found("work 5", |all| all.work.now[RIM + 5] = 0);
        found("raster -32", |all| all.raster.now[0] = 0);
        found("raster 38", |all| all.raster.now[RIM + 38] = 0);
        found("surface -1", |all| all.surfaces.now[RIM - 1] = 0);
        found("surface 3", |all| all.surfaces.now[RIM + 3] = 0);
        found("record -1", |all| all.record.now[RIM - 1] = 0);
        found("record 26", |all| all.record.now[RIM + WORDS] = 0);
        let mut found = |place: &str, spoil: fn(&mut Lending)| {
            let found = left(spoil).wrong;
            assert!(found.len() == 1 && found[0].starts_with(&format!("{place} is ")), "{place}: {found:?}");
        };
        found("vertex float -1", |all| all.vertices.now[RIM - 1] = 0);
        found("vertex float 3", |all| all.vertices.now[RIM + 3] = 0);
        found("vertex float 4", |all| all.vertices.now[RIM + 4] = 0);
        found("id 1", |all| all.ids.now[RIM + 1] = 0);
        found("id 2", |all| all.ids.now[RIM + 2] = 0);
        let again = left(|_| {});
        assert!(again.wrong.is_empty() && right.differences(&again, &[]).is_empty(), "all is noise again");
    }

    /// Behind the front all is as it was; in front of it anything may stand.
    #[test]
    fn what_is_written_may_differ() {
        let (lent, mesh) = (Lent { work: 5, raster: 7, surfaces: 3 }, plain(1.0, &[], &[]));
        let mut lending = Lending::new(1);
        let mut changed = |surfaces: usize| {
            lending.lend(&mesh, lent).0.surfaces[1] = 0;
            lending.take(&mesh, lent, Written { surfaces, ..Written::default() }).wrong.len()
        };
        assert_eq!([0, 1, 2, 3].map(&mut changed), [1, 1, 0, 0]);
    }

    /// In front of work and raster stands 0.
    #[test]
    fn what_is_not_cleared_is_wrong() {
        let (lent, mesh) = (Lent { work: 5, raster: 7, surfaces: 3 }, plain(1.0, &[], &[]));
        let mut lending = Lending::new(1);
        let mut wrong = |cleared: usize| {
            let areas = lending.lend(&mesh, lent).0;
            areas.work[..cleared].fill(0);
            areas.raster[..cleared].fill(0);
            lending.take(&mesh, lent, Written { work: 4, raster: 4, ..Written::default() }).wrong
        };
        assert_eq!([3, 4, 5].map(|cleared| wrong(cleared).len()), [2, 0, 2]);
        assert!(wrong(3)[0].starts_with("work 3 is ") && wrong(3)[1].starts_with("raster 3 is "));
    }
}
