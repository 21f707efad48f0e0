//! The port's point test and footprint, from the static library `probe`: exports for these runs alone, in no header.

use super::meshes::Scene;

mod c {
    crate::linked::linked! {
        fn probe_point_in_triangle(q: *const f32) -> u32;
        fn probe_footprint_raw(
            vertices: *const f32,
            vertices_len: usize,
            ids: *const u32,
            ids_len: usize,
            axes: *const u32,
            bounds: *const f32,
            raster: *mut u8,
            raster_len: usize,
            cells: *mut u32,
        ) -> f32;
    }
}

/// 0 outside, 1 on the edge, 2 inside.
pub fn point_in_triangle(p: [f32; 2], a: [f32; 2], b: [f32; 2], c: [f32; 2]) -> u32 {
    let q = [p[0], p[1], a[0], a[1], b[0], b[1], c[0], c[1]];
    // SAFETY: the eight floats that the routine reads.
    unsafe { c::probe_point_in_triangle(q.as_ptr()) }
}

/// The area; covered and rim cells are stored. Over a raster of fewer than 65,536 bytes nothing is done, and the answer is 0.
pub fn footprint_raw(scene: &Scene, raster: &mut [u8], cells: &mut [u32; 2]) -> f32 {
    let Scene { vertices, ids, axes, u, v } = scene;
    let numbers = [axes[0] as u32, axes[1] as u32];
    let bounds = [u[0], u[1], v[0], v[1]];
    // SAFETY: two axes, four bounds, two words and three slices that do not overlap; the routine is proved to stay within them for any
    // contents.
    unsafe {
        c::probe_footprint_raw(
            vertices.as_ptr(),
            vertices.len(),
            ids.as_ptr(),
            ids.len(),
            numbers.as_ptr(),
            bounds.as_ptr(),
            raster.as_mut_ptr(),
            raster.len(),
            cells.as_mut_ptr(),
        )
    }
}
