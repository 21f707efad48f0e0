//! Ports written for the tests: documents 01 and 02 over the original, right or with one mistake.

use mowfrost_oracle::compute::areas::{Areas, WORDS};
use mowfrost_oracle::compute::compare::{words, Call, REFUSED};
use mowfrost_oracle::file::{Flags, MeshFile};
use mowfrost_oracle::record::{compute_under, is_zero_record, Answer, Lent, Record};

/// A port in document 01's words over the original, with one thing of it open.
pub struct Way {
    pub flags: fn(u32, u32) -> Option<Flags>,
    /// The mesh that is taken for the one given.
    pub mesh: fn(&mut MeshFile),
    /// Before the table of refusals.
    pub first: fn(&MeshFile, Lent) -> Option<u32>,
    /// The lengths that the table sees.
    pub asked: fn(&MeshFile, Lent) -> Lent,
    pub record: fn(&MeshFile, &mut Record),
    pub words: fn(&mut [u32; WORDS]),
    /// So many work words and raster bytes are zeroed more than promised.
    pub more: (i64, i64),
    /// After all else.
    pub last: fn(u32, &MeshFile, &mut Areas, &mut [u32; WORDS]),
}

pub const RIGHT: Way = Way {
    flags: |clip, defect| (clip < 2 && defect < 5).then_some(Flags { clip: clip == 1, defect: defect as u8 }),
    mesh: |_| {},
    first: |_, _| None,
    asked: |_, lent| lent,
    record: |_, _| {},
    words: |_| {},
    more: (0, 0),
    last: |_, _, _, _| {},
};

impl Way {
    pub fn call(&self, call: &Call, mut areas: Areas, record: &mut [u32; WORDS]) -> u32 {
        let answer = self.answer(call, &mut areas, record);
        (self.last)(answer, call.mesh, &mut areas, record);
        answer
    }

    pub fn answer(&self, call: &Call, areas: &mut Areas, record: &mut [u32; WORDS]) -> u32 {
        let Some(flags) = (self.flags)(call.clip, call.defect) else { return REFUSED | 5 };
        let mut mesh = MeshFile { flags, ..call.mesh.clone() };
        (self.mesh)(&mut mesh);
        let lent = Lent { work: areas.work.len(), raster: areas.raster.len(), surfaces: areas.surfaces.len() };
        if let Some(refusal) = (self.first)(&mesh, lent) {
            return REFUSED | refusal;
        }
        let mut right = match compute_under(&mesh, call.edition, (self.asked)(&mesh, lent)) {
            Answer::Refused(refusal) => return REFUSED | refusal,
            Answer::Record(right, _) => right,
        };
        (self.record)(&mesh, &mut right);
        *record = words(&right);
        (self.words)(record);
        if !is_zero_record(&mesh) {
            let exact = Lent::exactly(mesh.vertices.len(), mesh.ids.len());
            let zeroed = |exact: usize, more: i64, lent: usize| exact.saturating_add_signed(more as isize).min(lent);
            areas.work[..zeroed(exact.work, self.more.0, lent.work)].fill(0);
            areas.raster[..zeroed(exact.raster, self.more.1, lent.raster)].fill(0);
            right.rows.iter().flatten().zip(areas.surfaces.iter_mut()).for_each(|(x, to)| *to = x.to_bits());
        }
        0
    }
}
