//! How far a run held to the plain references what the original has not: A1's counts and A3's cells.

use crate::counts::{self, lengths, SHORTEST};
use crate::file::MeshFile;
use crate::raster::cells::{self, grids, place};
use crate::record::{Record, OPEN};

#[derive(Default)]
pub struct Counted {
    /// The calls that agree with a full and with a zero record, and of the full ones those of an open shell.
    pub full: u64,
    pub zero: u64,
    pub open: u64,
    /// The meshes that have a full record.
    pub met: counts::Met,
    /// Those with a length that is a step under 1e-12, just that, and a step above.
    pub limit: [u64; 3],
    /// The footprints of the open ones.
    pub cells: cells::Met,
}

impl Counted {
    /// A mesh with a full record.
    pub fn meet(&mut self, mesh: &MeshFile, record: &Record) {
        self.met.add(record.counts);
        let steps = [SHORTEST.next_down(), SHORTEST, SHORTEST.next_up()];
        for (step, times) in steps.into_iter().zip(&mut self.limit) {
            *times += lengths(&mesh.vertices, &mesh.ids).any(|length| length == Some(step)) as u64;
        }
        if record.quality == OPEN {
            grids(&mesh.vertices, &mesh.ids, place).iter().flatten().for_each(|grid| self.cells.add(grid));
        }
    }

    pub fn join(&mut self, other: &Counted) {
        (self.full, self.zero, self.open) = (self.full + other.full, self.zero + other.zero, self.open + other.open);
        self.met.join(&other.met);
        (0..3).for_each(|i| self.limit[i] += other.limit[i]);
        self.cells.join(&other.cells);
    }

    pub fn told(&self) -> [String; 2] {
        let Counted { full, zero, open, met, limit: [under, just, above], cells } = self;
        let counts = format!(
            "counts, by the plain reference: in {full} full and {zero} zero records. Meshes with a full record {}; with a length a step \
             under 1e-12 {under}, just that {just}, a step above {above}",
            met.told()
        );
        let others = full + zero - open;
        let cells = format!(
            "cells, by the plain reference: beside {open} records of open shells, and 0 beside {others} others. Of the meshes of \
             open shells {}",
            cells.told()
        );
        [counts, cells]
    }
}
