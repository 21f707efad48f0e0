//! The port's record against document 01's: the original's answer with the refusals, flags and areas around it. Only the
//! port's own routine and the races need its library.

pub mod areas;
mod capi;
pub mod compare;
pub mod counted;
pub mod editions;
pub mod meshes;
pub mod nans;
pub mod shapes;
pub mod speed;
pub mod split;
