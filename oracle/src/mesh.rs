//! The place that the original expects around `qto`: `crate::mesh`. Of the modules beside it document 01 takes only
//! `ProfileDefect` (cut from the original's own text) and the meaning of `has_unapplied_clip` (the flag, as it is).
//!
//! `second` is the original with two numbers changed: edition 2's thresholds of slope (02, A6) in the place of its own. It is not the
//! original, and no answer comes from it: the plain form (`slopes`) is held to it, and the port under edition 2 is raced with it.

/// Stands in for the original's `ProductMesh`: the two fields that the flags read.
pub struct ProductMesh {
    pub clip_unapplied: bool,
    pub profile_invalid: Option<profile_check::ProfileDefect>,
}

pub fn has_unapplied_clip(mesh: &ProductMesh) -> bool {
    mesh.clip_unapplied
}

include!(concat!(env!("OUT_DIR"), "/original.rs"));
