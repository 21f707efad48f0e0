//! The port's id routines, from the static library: ids, a lent area, and the answer's number.

macro_rules! port {
    ($($name:ident;)+) => {
        mod c {
            crate::linked::linked! {
                $(fn $name(ids: *const u32, ids_len: usize, work: *mut u32, work_len: usize) -> u32;)+
            }
        }
        $(pub fn $name(ids: &[u32], work: &mut [u32]) -> u32 {
            // SAFETY: two slices that do not overlap; the routine is proved to stay within them for any contents.
            unsafe { c::$name(ids.as_ptr(), ids.len(), work.as_mut_ptr(), work.len()) }
        })+
    };
}

port! {
    mf_edge_chain;
    mf_face_net;
    mf_is_closed_manifold;
    mf_winding_coherent;
    mf_pieces;
}
