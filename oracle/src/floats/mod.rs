//! The port's float helpers against Rust's operations.

mod capi;
pub mod compare;
pub mod helpers;
pub mod patterns;
pub mod speed;
