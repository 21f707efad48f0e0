//! The port's weld against the original's.

mod capi;
pub mod compare;
pub mod meshes;
pub mod speed;
