//! The glove (02, A9) as a property of the port: a mesh and the same with every triangle turned over, pair by pair.

pub mod compare;
pub mod ids;
pub mod meshes;
