//! The port's weld, from the static library `probe`: exports for these runs alone, in no header.

mod c {
    crate::linked::linked! {
        fn probe_welded_indices(
            vertices: *const f32,
            vertices_len: usize,
            ids: *const u32,
            ids_len: usize,
            eps: f32,
            part: *mut u32,
            part_len: usize,
        ) -> bool;
        fn probe_epsilon(distance: f32, unit: f32) -> f32;
    }
}

/// Says whether the part has just the words needed, and the vertices are not too many; else nothing is done.
pub fn welded_indices(vertices: &[f32], ids: &[u32], eps: f32, part: &mut [u32]) -> bool {
    // SAFETY: three slices that do not overlap; the routine is proved to stay within them for any contents.
    unsafe {
        c::probe_welded_indices(
            vertices.as_ptr(),
            vertices.len(),
            ids.as_ptr(),
            ids.len(),
            eps,
            part.as_mut_ptr(),
            part.len(),
        )
    }
}

pub fn epsilon(distance: f32, unit: f32) -> f32 {
    // SAFETY: numbers alone.
    unsafe { c::probe_epsilon(distance, unit) }
}
