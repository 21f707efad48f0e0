//! What the tests of laws about two calls share: faults that are planted behind a port, and what a port leaves of a
//! stored mesh.

use crate::ways::RIGHT;
use mowfrost_oracle::compute::areas::{Areas, WORDS};
use mowfrost_oracle::compute::compare::{Call, Port, PORT, REFUSED};
use mowfrost_oracle::file::{read, MeshFile};
use mowfrost_oracle::linked::bits;
use mowfrost_oracle::record::{is_zero_record, Lent};
use mowfrost_oracle::slopes::{areas_by, Slope};
use mowfrost_oracle::stored::by_hand;

pub const ORIGINAL: Port<'static> = &|call, areas, record| RIGHT.call(call, areas, record);

/// What faults are planted in.
pub const BASE: Port<'static> = if cfg!(port) { PORT } else { ORIGINAL };

/// The words that may differ between two open shells, in the order in which they are counted: four of the record, and the cells of
/// the z, y and x footprints beside it, covered and rim.
pub const EXCEPTIONS: [usize; 10] = [BEST, METHOD, RELIABLE, BOUND, 20, 21, 22, 23, 24, 25];
pub const RELIABLE: usize = 1;
pub const METHOD: usize = 2;
pub const BEST: usize = 13;
pub const BOUND: usize = 15;
/// Covered cells of the z footprint, and its rim cells.
pub const COVERED: usize = 20;
pub const RIM: usize = 21;

// ---- planted faults

/// What a call has given, to be spoilt.
pub struct Given<'a> {
    pub answer: u32,
    pub areas: Areas<'a>,
    pub record: &'a mut [u32; WORDS],
}

/// By their numbers; `compute` has no 6.
const REFUSALS: [&str; 7] = ["refused 1", "refused 2", "refused 3", "refused 4", "refused 5", "refused 6", "refused 7"];

impl Given<'_> {
    pub fn came_to(&self, mesh: &MeshFile) -> &'static str {
        match self.answer {
            0 if is_zero_record(mesh) => "zero record",
            0 => ["closed", "open", "degenerate"][self.record[0] as usize],
            _ => REFUSALS[(self.answer & !REFUSED) as usize - 1],
        }
    }

    pub fn is_full(&self, mesh: &MeshFile) -> bool {
        self.answer == 0 && !is_zero_record(mesh)
    }
}

pub type Fault<'a> = &'a dyn Fn(&MeshFile, &mut Given);

/// The port, and a fault behind it.
pub fn with(fault: Fault<'_>) -> impl Fn(&Call, Areas, &mut [u32; WORDS]) -> u32 + '_ {
    move |call, Areas { vertices, ids, work, raster, surfaces }, record| {
        let (mesh, lent) = ((&mut *vertices, &mut *ids), (&mut *work, &mut *raster, &mut *surfaces));
        let again = Areas { vertices: mesh.0, ids: mesh.1, work: lent.0, raster: lent.1, surfaces: lent.2 };
        let answer = BASE(call, again, record);
        let mut given = Given { answer, areas: Areas { vertices, ids, work, raster, surfaces }, record };
        fault(call.mesh, &mut given);
        given.answer
    }
}

/// The port under another edition than the one that is named.
pub fn taken_for(edition: impl Fn(&Call) -> u32) -> impl Fn(&Call, Areas, &mut [u32; WORDS]) -> u32 {
    move |call, areas, record| BASE(&Call { edition: edition(call), ..*call }, areas, record)
}

/// The port with slopes by another rule under edition 2.
pub fn by_slope(rule: fn(&MeshFile, f32) -> Slope) -> impl Fn(&Call, Areas, &mut [u32; WORDS]) -> u32 {
    move |call, areas, record| {
        let answer = BASE(call, areas, record);
        if answer == 0 && call.edition == 2 && !is_zero_record(call.mesh) {
            let MeshFile { unit, vertices, ids, .. } = call.mesh;
            record[7..11].copy_from_slice(&bits(&areas_by(vertices, ids, *unit, |nz| rule(call.mesh, nz))));
        }
        answer
    }
}

pub fn quieted(floats: &mut [u32]) {
    floats.iter_mut().filter(|bits| f32::from_bits(**bits).is_nan()).for_each(|bits| *bits |= 0x0040_0000);
}

// ---- faults in every place

/// One place that a call can show something in.
#[derive(Clone, Copy, Debug)]
enum Shows {
    Answer,
    Record(usize),
    Work { last: bool },
    Raster { last: bool },
    Surfaces { last: bool },
}

fn end<T>(area: &mut [T], last: bool) -> Option<&mut T> {
    if last {
        area.last_mut()
    } else {
        area.first_mut()
    }
}

impl Shows {
    fn all() -> impl Iterator<Item = Shows> {
        let ends = [false, true].into_iter();
        let areas = ends.flat_map(|last| [Shows::Work { last }, Shows::Raster { last }, Shows::Surfaces { last }]);
        [Shows::Answer].into_iter().chain((0..WORDS).map(Shows::Record)).chain(areas)
    }

    /// A bit of the place: an answer becomes refusal 4, or 2 where it is that, and a quality another one.
    fn show(self, bit: u32, given: &mut Given) {
        let Given { answer, areas: Areas { work, raster, surfaces, .. }, record } = given;
        match self {
            Shows::Answer if bit == 0 => {}
            Shows::Answer => *answer = if *answer == REFUSED | 4 { REFUSED | 2 } else { REFUSED | 4 },
            Shows::Record(0) => record[0] = (record[0] + bit) % 3,
            Shows::Record(word) => record[word] ^= bit,
            Shows::Work { last } => end(work, last).into_iter().for_each(|word| *word ^= bit),
            Shows::Raster { last } => end(raster, last).into_iter().for_each(|byte| *byte ^= bit as u8),
            Shows::Surfaces { last } => end(surfaces, last).into_iter().for_each(|word| *word ^= bit),
        }
    }
}

/// In the answer, in a word of the record or at an end of an area, of calls that come to `of`: a bit that is not the
/// same of both meshes is found, but for the free words of an open shell. `differ` says how many pairs differ, of
/// meshes many of which come to that.
pub fn assert_found_wherever_it_shows(of: &str, bit: fn(&MeshFile) -> u32, differ: &dyn Fn(Port) -> u64) {
    for shows in Shows::all() {
        let fault: Fault = &|mesh, given| {
            if given.came_to(mesh) == of {
                shows.show(bit(mesh), given);
            }
        };
        let free = of == "open" && matches!(shows, Shows::Record(word) if EXCEPTIONS.contains(&word));
        assert_eq!(differ(&with(fault)) == 0, free, "{shows:?} of {of}");
    }
}

// ---- stored pairs

pub fn stored(name: &str) -> MeshFile {
    let stored = by_hand().into_iter().find(|stored| stored.name == name);
    read(&stored.unwrap_or_else(|| panic!("none is named {name}")).bytes).expect("it can be read")
}

/// The record and the areas that a port leaves under an edition, over areas that held nothing: work, surfaces and raster.
pub fn left(port: Port, edition: u32, mesh: &MeshFile) -> ([u32; WORDS], [Vec<u32>; 2], Vec<u8>) {
    let exact = Lent::exactly(mesh.vertices.len(), mesh.ids.len());
    let (mut work, mut raster, mut surfaces) = (vec![0; exact.work], vec![0; exact.raster], vec![0; exact.surfaces]);
    let (mut record, mut vertices, mut ids) = ([0; WORDS], bits(&mesh.vertices), mesh.ids.clone());
    let (vertices, ids) = (&mut vertices[..], &mut ids[..]);
    let areas = Areas { vertices, ids, work: &mut work, raster: &mut raster, surfaces: &mut surfaces };
    let answer = port(&Call::of(mesh, edition), areas, &mut record);
    assert_eq!(answer, 0);
    (record, [work, surfaces], raster)
}

/// The words that differ.
pub fn differing(one: &[u32; WORDS], other: &[u32; WORDS]) -> Vec<usize> {
    (0..WORDS).filter(|&word| one[word] != other[word]).collect()
}

/// The mesh with its coordinates on other axes: x, y and z of a vertex are those of the axes named.
pub fn along(mesh: &MeshFile, axes: [usize; 3]) -> MeshFile {
    let vertices = mesh.vertices.chunks_exact(3).flat_map(|vertex| axes.map(|axis| vertex[axis])).collect();
    MeshFile { vertices, ..mesh.clone() }
}
