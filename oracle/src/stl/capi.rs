//! The port's two readers, from the static library.

use super::areas::Areas;
use super::file::MOST;

macro_rules! port {
    ($($name:ident;)+) => {
        mod c {
            crate::linked::linked! {
                $(fn $name(
                    bytes: *const u8,
                    bytes_len: usize,
                    vertices: *mut f32,
                    vertices_len: usize,
                    ids: *mut u32,
                    ids_len: usize,
                ) -> u32;)+
            }
        }
        $(fn $name(areas: Areas) -> u32 {
            let Areas { bytes, vertices, ids } = areas;
            // SAFETY: slices that do not overlap; a u32 has an f32's size and alignment, and any bits are an f32. The routine is
            // proved to stay within them for any contents. The file is passed where it could be written, to see that it is not.
            unsafe {
                c::$name(
                    bytes.as_mut_ptr().cast_const(),
                    bytes.len(),
                    vertices.as_mut_ptr().cast(),
                    vertices.len(),
                    ids.as_mut_ptr(),
                    ids.len(),
                )
            }
        })+
    };
}

port! {
    mf_read_stl;
    mf_read_stl_large;
}

/// The number of triangles, or 0x80000000 and a refusal's number.
pub fn read(most: usize, areas: Areas) -> u32 {
    if most == MOST {
        mf_read_stl(areas)
    } else {
        mf_read_stl_large(areas)
    }
}
