//! The port's point test and footprint against the original's, and the cells that A3 counts against a plain reference.

mod capi;
pub mod cells;
pub mod compare;
pub mod meshes;
pub mod rims;
pub mod speed;
