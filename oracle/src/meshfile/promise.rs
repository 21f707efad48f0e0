//! What a call of the writer or of the reader has to answer, by the plain forms of `file` and by 02's order of refusals.

use super::areas::Lent;
use crate::file::{length, patterns, write_patterns, Flags, Patterns, MOST};

/// What a call of the writer is passed beside its area. Floats are in bits.
#[derive(Clone, Copy, Debug)]
pub struct Call<'a> {
    pub unit: u32,
    pub vertices: &'a [u32],
    pub ids: &'a [u32],
    pub clip: u32,
    pub defect: u32,
}

impl Call<'_> {
    pub fn of(mesh: &Patterns) -> Call<'_> {
        let Patterns { unit, vertices, ids, flags } = mesh;
        Call { unit: *unit, vertices, ids, clip: flags.clip as u32, defect: flags.defect as u32 }
    }

    /// The bytes that a file of it has or would have.
    pub fn asks(&self) -> usize {
        length(self.vertices.len(), self.ids.len())
    }

    /// Flag values that are none, too many floats or ids, an area of so many bytes that is too short.
    pub fn faults(&self, room: usize) -> [bool; 3] {
        let many = self.vertices.len() > MOST || self.ids.len() > MOST;
        [self.clip > 1 || self.defect > 4, many, room < self.asks()]
    }
}

/// The file that a call with so many bytes of room has to write, or the refusal: 5, 6 and 3 for the faults in their order.
pub fn written(call: &Call, room: usize) -> Result<Vec<u8>, u32> {
    match call.faults(room) {
        [true, ..] => return Err(5),
        [_, true, _] => return Err(6),
        [.., true] => return Err(3),
        _ => {}
    }
    let flags = Flags { clip: call.clip == 1, defect: call.defect as u8 };
    let mesh = Patterns { unit: call.unit, vertices: call.vertices.to_vec(), ids: call.ids.to_vec(), flags };
    Ok(write_patterns(&mesh, true))
}

/// The mesh that a call over such areas has to read, or the refusal: 5 or 6 for the fault met first, then 3.
pub fn read(bytes: &[u8], lent: Lent) -> Result<Patterns, u32> {
    patterns(bytes).and_then(|mesh| if lent.holds(Lent::exactly(&mesh)) { Ok(mesh) } else { Err(3) })
}

/// Floats, ids, unit, clip, defect.
pub fn counts(mesh: &Patterns) -> [u32; 5] {
    let Flags { clip, defect } = mesh.flags;
    [mesh.vertices.len() as u32, mesh.ids.len() as u32, mesh.unit, clip as u32, defect as u32]
}
