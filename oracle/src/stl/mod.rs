//! Binary STL (02, A4): a plain reader and a writer, files of every kind, and the port's reader and program beside them. Only the
//! port's own routines and the race need its library.

pub mod areas;
pub mod capi;
pub mod compare;
pub mod damage;
pub mod dress;
pub mod file;
pub mod kinds;
pub mod limits;
pub mod sent;
pub mod speed;
pub mod stored;

use crate::listing::listed;
use crate::program::Task;
use crate::reach::Reach;
use crate::record::Exception;

/// The text that the program has to print for an STL file, and how it stands to the one exception. `replay` prints no more.
pub fn listing(bytes: &[u8]) -> (String, Exception) {
    listed(file::read(bytes, file::MOST))
}

/// `takeoff --stl`.
pub const MOUNTS: Task = Task {
    sent: sent::sent,
    right: listing,
    reach: |reach: &mut Reach, bytes| reach.add(file::read(bytes, file::MOST)),
};
