//! Demand 3 as a property of the port: a whole-number mesh and the same mesh moved by whole numbers, one call each, over areas
//! that hold the same. What the two calls answer and leave behind is held against each other, not against the original.

pub mod compare;
pub mod meshes;
