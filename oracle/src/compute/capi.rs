//! The port's `compute`, from the static library.

use super::areas::{Areas, WORDS};
use super::compare::Call;

mod c {
    crate::linked::linked! {
        fn mf_compute(
            vertices: *const f32,
            vertices_len: usize,
            ids: *const u32,
            ids_len: usize,
            unit: f32,
            edition: u32,
            clip: u32,
            defect: u32,
            work: *mut u32,
            work_len: usize,
            raster: *mut u8,
            raster_len: usize,
            surfaces: *mut f32,
            surfaces_len: usize,
            record: *mut u32,
        ) -> u32;
    }
}

/// 0 with the record filled, or 0x80000000 and a refusal's number.
pub fn compute(call: &Call, areas: Areas, record: &mut [u32; WORDS]) -> u32 {
    let Call { mesh, edition, clip, defect } = call;
    // SAFETY: slices that do not overlap; a u32 has an f32's size and alignment, and any bits are an f32. The routine is
    // proved to stay within them for any contents. The mesh is passed where it could be written, to see that it is not.
    unsafe {
        c::mf_compute(
            areas.vertices.as_mut_ptr().cast_const().cast(),
            areas.vertices.len(),
            areas.ids.as_mut_ptr().cast_const(),
            areas.ids.len(),
            mesh.unit,
            *edition,
            *clip,
            *defect,
            areas.work.as_mut_ptr(),
            areas.work.len(),
            areas.raster.as_mut_ptr(),
            areas.raster.len(),
            areas.surfaces.as_mut_ptr().cast(),
            areas.surfaces.len(),
            record.as_mut_ptr(),
        )
    }
}
