//! The Rust original beside the port: its answer to any mesh, in document 01's words.
//!
//! `mesh::qto` is the original's own text, unchanged, compiled from where the build script found it. Everything else
//! here is ours: what document 01 adds to it (refusals, flags in one call, pieces, the exact form of the one
//! exception) and document 02 (the counts of triangles; pieces by edges; cells on the rim; binary STL; mesh files written
//! and read back in bits; areas by slope under a second edition), the program's file format, the listing, the meshes to
//! try, and two laws about pairs of meshes as properties (`pairs`): demand 3 (`moves`) and 02's A9 (`glove`).

#[allow(dead_code, clippy::all)]
pub mod mesh;

pub mod area;
pub mod compute;
pub mod counts;
pub mod exception;
pub mod file;
pub mod floats;
pub mod frames;
pub mod glove;
pub mod ids;
pub mod kinds;
pub mod linked;
pub mod listing;
pub mod meshfile;
pub mod moves;
pub mod pairs;
pub mod pieces;
pub mod program;
pub mod random;
pub mod raster;
pub mod reach;
pub mod record;
pub mod sent;
pub mod slopes;
pub mod solids;
pub mod speed;
pub mod stl;
pub mod stored;
pub mod weld;
