//! The port's writer and reader of mesh files, from the static library.

use super::areas::{Reading, Writing};

mod c {
    crate::linked::linked! {
        fn mf_write_mesh(
            unit: u32,
            vertices: *const u32,
            vertices_len: usize,
            ids: *const u32,
            ids_len: usize,
            clip: u32,
            defect: u32,
            bytes: *mut u8,
            bytes_len: usize,
        ) -> u32;
        fn mf_read_mesh(
            bytes: *const u8,
            bytes_len: usize,
            vertices: *mut u32,
            vertices_len: usize,
            ids: *mut u32,
            ids_len: usize,
            counts: *mut u32,
        ) -> u32;
    }
}

/// The file's length, or 0x80000000 and a refusal's number.
pub fn write(Writing { unit, vertices, ids, clip, defect, bytes }: Writing) -> u32 {
    // SAFETY: slices that do not overlap. The routine is proved to stay within them for any contents. The mesh is passed where it
    // could be written, to see that it is not.
    unsafe {
        c::mf_write_mesh(
            unit,
            vertices.as_mut_ptr().cast_const(),
            vertices.len(),
            ids.as_mut_ptr().cast_const(),
            ids.len(),
            clip,
            defect,
            bytes.as_mut_ptr(),
            bytes.len(),
        )
    }
}

/// 0 with the counts filled, or 0x80000000 and a refusal's number.
pub fn read(Reading { bytes, vertices, ids, counts }: Reading) -> u32 {
    // SAFETY: as for `write`; the counts are five words.
    unsafe {
        c::mf_read_mesh(
            bytes.as_mut_ptr().cast_const(),
            bytes.len(),
            vertices.as_mut_ptr(),
            vertices.len(),
            ids.as_mut_ptr(),
            ids.len(),
            counts.as_mut_ptr(),
        )
    }
}
