//! The mesh file written and read back in bits (02, A5): meshes and files by chance, damaged files, and the port's writer and reader beside
//! the plain ones of `file`. Only the port's own routines and the race need its library.

pub mod areas;
pub mod capi;
pub mod compare;
pub mod count;
pub mod damage;
pub mod limits;
pub mod meshes;
pub mod promise;
pub mod replayed;
pub mod speed;
