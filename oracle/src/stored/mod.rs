//! The meshes that the crate `replay` holds, so that the gate has some of the Rust's answers without the Rust: those made
//! by hand for document 01's examples, limits and orders, for what A1 and A3 count, A2 joins, A5 writes back and A6 moves and for A9's
//! pairs, then of each kind the smallest and the one that reaches most.

mod editions;
pub mod examples;
mod faults;
mod gloves;
mod left_out;
mod limits;
mod patterns;
mod places;
pub mod readings;
mod rims;
mod thresholds;
mod touching;

use crate::file::{write, MeshFile};
use crate::kinds::{mesh, KINDS};
use crate::listing::listing;
use crate::reach::Reach;
use crate::record::Exception;

pub struct Stored {
    pub name: String,
    /// What document 01 makes of it: quality, reliable and method, or the refusal. Less or nothing where that is not plain.
    pub says: &'static str,
    pub bytes: Vec<u8>,
}

/// The list under construction.
#[derive(Default)]
struct List(Vec<Stored>);

impl List {
    fn file(&mut self, says: &'static str, name: impl Into<String>, bytes: Vec<u8>) {
        self.0.push(Stored { name: name.into(), says, bytes });
    }

    fn mesh(&mut self, says: &'static str, name: impl Into<String>, mesh: &MeshFile) {
        self.file(says, name, write(mesh, false));
    }
}

pub fn all() -> Vec<Stored> {
    let mut list = List(by_hand());
    found(&mut list);
    list.0
}

/// Those made by hand, without a search: the first of all.
pub fn by_hand() -> Vec<Stored> {
    let mut list = List::default();
    examples::examples(&mut list);
    examples::flags(&mut list);
    limits::refusals(&mut list);
    limits::lengths(&mut list);
    readings::readings(&mut list);
    thresholds::thresholds(&mut list);
    readings::mistakes(&mut list);
    faults::faults(&mut list);
    places::places(&mut list);
    left_out::left_out(&mut list);
    gloves::gloves(&mut list);
    touching::touches(&mut list);
    rims::rims(&mut list);
    patterns::patterns(&mut list);
    editions::editions(&mut list);
    list.0
}

/// The seed of the search, how many of each kind it looks at, and how long the longest is.
const SEED: u64 = 2026;
const LOOKED_AT: u64 = 60;
const LONGEST: usize = 4096;

/// What one file reaches. Its pieces have no say in it, so that the choice stays when a document joins them otherwise.
fn reached(bytes: &[u8]) -> Vec<&'static str> {
    let reach = Reach::of([bytes.to_vec()].into_iter());
    reach.counts().map(|(what, _)| what).filter(|what| !what.ends_with(" piece")).collect()
}

/// Of each kind the smallest, the smallest that comes elsewhere, and the one that reaches most. Near the one exception
/// stand those by hand alone, where the power is exact on every machine.
fn found(list: &mut List) {
    for (place, kind) in KINDS.iter().enumerate() {
        let numbers = (0..LOOKED_AT).map(|turn| turn * KINDS.len() as u64 + place as u64);
        let mut files: Vec<(u64, Vec<u8>)> = numbers.map(|number| (number, mesh(SEED, number))).collect();
        files.retain(|(_, bytes)| bytes.len() <= LONGEST && list.0.iter().all(|stored| stored.bytes != *bytes));
        files.retain(|(_, bytes)| listing(bytes).1 == Exception::Apart);
        files.sort_by_key(|(number, bytes)| (bytes.len(), *number));
        let reached: Vec<Vec<&str>> = files.iter().map(|(_, bytes)| reached(bytes)).collect();
        let first = (!files.is_empty()).then_some(0);
        let second = (0..files.len()).find(|&i| reached[i] != reached[0]);
        // the smallest of those that reach as much
        let richest = (0..files.len()).rev().max_by_key(|&i| reached[i].len());
        let mut taken: Vec<usize> = [first, second, richest].into_iter().flatten().collect();
        taken.sort_unstable();
        taken.dedup();
        for i in taken {
            let (number, bytes) = files[i].clone();
            list.file("", format!("{}: mesh {number} of seed {SEED}", kind.name), bytes);
        }
    }
}
