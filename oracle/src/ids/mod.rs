//! The port's id routines against the original's, and the piece count against a plain reference.

mod capi;
pub mod compare;
pub mod lists;
pub mod routines;
pub mod speed;
