//! The program's input (01, 'The program `takeoff`'): bytes to a mesh with its flags, and back, its floats as numbers or in bits.

use crate::linked::bits;
use crate::mesh::profile_check::ProfileDefect;

/// At most so many floats, and so many ids, in a file.
pub const MOST: usize = 1536;

/// The bytes of a file of so many floats and ids, with its kind 4.
pub const fn length(floats: usize, ids: usize) -> usize {
    6 + 4 + 6 + 4 * floats + 6 + 4 * ids + FLAGS
}

/// The bytes of kind 4.
pub const FLAGS: usize = 6 + 2;

#[derive(Clone, Debug, Default)]
pub struct MeshFile {
    pub unit: f32,
    pub vertices: Vec<f32>,
    pub ids: Vec<u32>,
    pub flags: Flags,
}

/// The same with its floats in bits, as they stand in the file: there a NaN is a word like any other.
#[derive(Clone, Debug, Default, PartialEq)]
pub struct Patterns {
    pub unit: u32,
    pub vertices: Vec<u32>,
    pub ids: Vec<u32>,
    pub flags: Flags,
}

impl Patterns {
    pub fn of(mesh: &MeshFile) -> Patterns {
        let MeshFile { unit, vertices, ids, flags } = mesh;
        Patterns { unit: unit.to_bits(), vertices: bits(vertices), ids: ids.clone(), flags: *flags }
    }

    pub fn mesh(self) -> MeshFile {
        let vertices = self.vertices.into_iter().map(f32::from_bits).collect();
        MeshFile { unit: f32::from_bits(self.unit), vertices, ids: self.ids, flags: self.flags }
    }
}

/// Kind 4, in its own numbers: defect 0 is none, 1 to 4 are as `ProfileDefect` lists them.
#[derive(Clone, Copy, Debug, Default, PartialEq)]
pub struct Flags {
    pub clip: bool,
    pub defect: u8,
}

/// `ProfileDefect`'s cases in the order in which the original lists them.
pub const DEFECTS: [ProfileDefect; 4] = [
    ProfileDefect::SelfIntersecting,
    ProfileDefect::Degenerate,
    ProfileDefect::HoleOutside,
    ProfileDefect::Overlapping,
];

impl Flags {
    pub fn profile(self) -> Option<ProfileDefect> {
        DEFECTS.get((self.defect as usize).wrapping_sub(1)).copied()
    }
}

/// What is left of the input.
struct Rest<'a>(&'a [u8]);

impl<'a> Rest<'a> {
    fn take(&mut self, n: usize) -> Option<&'a [u8]> {
        let (taken, rest) = self.0.split_at_checked(n)?;
        self.0 = rest;
        Some(taken)
    }

    /// One record's payload. Tried in this order: header, kind, length as the kind has it (5); too many (6); payload (5).
    fn record(&mut self, kind: u16, length_fits: fn(usize) -> bool) -> Result<&'a [u8], u32> {
        let header = self.take(6).ok_or(5u32)?;
        let length = u32::from_le_bytes([header[0], header[1], header[2], header[3]]) as usize;
        if u16::from_le_bytes([header[4], header[5]]) != kind || !length_fits(length) {
            return Err(5);
        }
        if length / 4 > MOST {
            return Err(6);
        }
        self.take(length).ok_or(5)
    }
}

/// Four bytes a word.
pub fn words(payload: &[u8]) -> impl Iterator<Item = u32> + '_ {
    payload.chunks_exact(4).map(|w| u32::from_le_bytes([w[0], w[1], w[2], w[3]]))
}

/// What stands in a whole file: the payloads of the first three kinds, and the flags.
pub struct Parts<'a> {
    pub unit: &'a [u8],
    pub floats: &'a [u8],
    pub ids: &'a [u8],
    pub flags: Flags,
}

/// The parts of a file, or the refusal, 5 or 6, of the fault met first.
pub fn parts(bytes: &[u8]) -> Result<Parts<'_>, u32> {
    let mut rest = Rest(bytes);
    let unit = rest.record(1, |n| n == 4)?;
    let floats = rest.record(2, |n| n % 4 == 0)?;
    let ids = rest.record(3, |n| n % 4 == 0)?;
    let mut flags = Flags::default();
    if !rest.0.is_empty() {
        flags = match rest.record(4, |n| n == 2)? {
            &[clip @ 0..=1, defect @ 0..=4] => Flags { clip: clip == 1, defect },
            _ => return Err(5),
        };
    }
    if !rest.0.is_empty() {
        return Err(5);
    }
    Ok(Parts { unit, floats, ids, flags })
}

/// The mesh that the bytes hold, bit for bit, or the refusal.
pub fn patterns(bytes: &[u8]) -> Result<Patterns, u32> {
    let Parts { unit, floats, ids, flags } = parts(bytes)?;
    let unit = words(unit).next().ok_or(5u32)?;
    Ok(Patterns { unit, vertices: words(floats).collect(), ids: words(ids).collect(), flags })
}

/// The same with numbers for floats.
pub fn read(bytes: &[u8]) -> Result<MeshFile, u32> {
    patterns(bytes).map(Patterns::mesh)
}

/// A record as it may stand in a file, right or wrong: a kind, the length that is told, and what is there of it.
pub type Record = (u16, u32, Vec<u8>);

/// Records one behind the other.
pub fn joined(records: &[Record]) -> Vec<u8> {
    let mut bytes = Vec::with_capacity(records.iter().map(|(_, _, payload)| 6 + payload.len()).sum());
    for (kind, length, payload) in records {
        bytes.extend(length.to_le_bytes());
        bytes.extend(kind.to_le_bytes());
        bytes.extend(payload);
    }
    bytes
}

/// One record of the format, whatever it says.
pub fn push_record(to: &mut Vec<u8>, kind: u16, payload: &[u8]) {
    to.extend(joined(&[(kind, payload.len() as u32, payload.to_vec())]));
}

/// The records of a mesh, all four of them.
pub fn records(mesh: &Patterns) -> [Record; 4] {
    let bytes = |words: &[u32]| words.iter().flat_map(|word| word.to_le_bytes()).collect::<Vec<u8>>();
    let record = |kind: u16, payload: Vec<u8>| (kind, payload.len() as u32, payload);
    let flags = vec![mesh.flags.clip as u8, mesh.flags.defect];
    [record(1, bytes(&[mesh.unit])), record(2, bytes(&mesh.vertices)), record(3, bytes(&mesh.ids)), record(4, flags)]
}

/// The mesh in the program's format, bit for bit. Kind 4 is written where `with_flags` says so, and wherever a flag is set.
pub fn write_patterns(mesh: &Patterns, with_flags: bool) -> Vec<u8> {
    let with_flags = with_flags || mesh.flags != Flags::default();
    joined(&records(mesh)[..3 + with_flags as usize])
}

/// The same from numbers.
pub fn write(mesh: &MeshFile, with_flags: bool) -> Vec<u8> {
    write_patterns(&Patterns::of(mesh), with_flags)
}
