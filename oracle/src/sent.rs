//! What the program is sent: meshes of every kind in turn, those by hand that `replay` holds, and files that matter to a
//! program alone, since it reads them off a pipe: longer than any valid one, exactly full, empty, in parts.

use crate::file::{length, push_record, write, Flags, MeshFile, MOST};
use crate::kinds::{self, KINDS};
use crate::random::Random;
use crate::solids::Shape;
use crate::stored::{self, Stored};
use std::sync::LazyLock;

/// The seed of all that the program is sent.
pub const SEED: u64 = 3;

/// The bytes of a file that is full: as many floats and ids as may be, and kind 4.
pub const FULL: usize = length(MOST, MOST);

/// About so many bytes stand behind a whole file at most: more than a pipe holds.
pub const TAIL: usize = 70_000;

pub struct Sent {
    pub name: &'static str,
    pub bytes: Vec<u8>,
    /// The lengths of its first parts, with a pause behind each; then comes the rest.
    pub parts: Vec<usize>,
}

type Own = (&'static str, fn(&mut Random, u64) -> Vec<u8>);

static BY_HAND: LazyLock<Vec<Stored>> = LazyLock::new(stored::by_hand);

const OWN: [Own; 10] = [
    ("by hand", |_, turn| BY_HAND[turn as usize % BY_HAND.len()].bytes.clone()),
    ("empty", |_, _| Vec::new()),
    ("short", |random, _| short(random)),
    ("tail", |random, _| tail(random)),
    ("promised", |random, _| promised(random)),
    ("full", |random, _| full(random)),
    ("full less one", |random, _| full(random)[..FULL - 1].to_vec()),
    ("full and one", |random, _| [full(random), vec![random.pick(&[0, 4])]].concat()),
    ("in parts", |random, _| anything(random)),
    ("long, in parts", |random, _| tail(random)),
];

/// After so many files every kind has had its turn.
pub const TURN: u64 = (KINDS.len() + OWN.len()) as u64;

/// The file of a number, whatever came before it. The meshes among them are those of `kinds::mesh`, in its order.
pub fn sent(number: u64) -> Sent {
    let (turn, place) = (number / TURN, (number % TURN) as usize);
    if let Some(kind) = KINDS.get(place) {
        let bytes = kinds::mesh(SEED, turn * KINDS.len() as u64 + place as u64);
        return Sent { name: kind.name, bytes, parts: Vec::new() };
    }
    let (name, make) = OWN[place - KINDS.len()];
    let random = &mut Random::new(SEED.wrapping_mul(0x1_0000_0001).wrapping_sub(1 + number));
    let bytes = make(random, turn);
    let parts = if name.ends_with("in parts") { parts(random, bytes.len(), &[6, 10, 16]) } else { Vec::new() };
    Sent { name, bytes, parts }
}

/// The first bytes of a good file: mostly headers.
fn short(random: &mut Random) -> Vec<u8> {
    let mut bytes = good(random);
    bytes.truncate(random.below(33));
    bytes
}

/// A whole file and something behind it, up to and about where a page, a full file or a pipe ends.
fn tail(random: &mut Random) -> Vec<u8> {
    let mut bytes = good(random);
    let more = match random.below(3) {
        0 => {
            let end = random.pick(&[4096, 4097, FULL, FULL + 1, FULL + 2, 65_535, 65_536, 65_537, TAIL]);
            end.saturating_sub(bytes.len()).max(1)
        }
        1 => random.within(1, 9) as usize,
        _ => random.within(1, TAIL as i64) as usize,
    };
    let length = bytes.len() + more;
    match random.below(4) {
        0 => bytes.resize(length, 0),
        // the same file over and over
        1 => bytes = bytes.iter().copied().cycle().take(length).collect(),
        2 => push_record(&mut bytes, 4, &vec![0; more.saturating_sub(6)]),
        _ => bytes.extend((0..more).map(|_| random.bits() as u8)),
    }
    bytes
}

/// A record that promises about 4 GiB, with little or much of it there.
fn promised(random: &mut Random) -> Vec<u8> {
    let mesh = MeshFile { unit: 1.0, vertices: vec![0.0; 9], ids: vec![0; 3], flags: Flags { clip: true, defect: 1 } };
    let mut bytes = write(&mesh, true);
    let at = random.pick(&[0, 10, 10, 52, 52, 70]);
    let length = random.pick(&[u32::MAX, 0xffff_fffc, 0xffff_fffc, 0x8000_0000, 0x7fff_fffc, 4 * MOST as u32 + 4]);
    bytes[at..at + 4].copy_from_slice(&length.to_le_bytes());
    match random.below(3) {
        0 => bytes.truncate(at + 6),
        1 => {}
        _ => bytes.resize(random.within(100, TAIL as i64) as usize, 0),
    }
    bytes
}

/// As many floats, ids and flags as a file may have. Vertices that no triangle names lie within the rest.
fn full(random: &mut Random) -> Vec<u8> {
    let shape = if random.once_in(3) {
        Shape::blocks([8, 8, 4])
    } else {
        let rough = random.within(1, 4);
        Shape::sheet(16, 16, |_, _| random.within(0, rough) as f32)
    };
    let Shape { mut vertices, ids } = shape.shuffled(random);
    vertices.resize_with(MOST, || random.within(0, 1) as f32);
    let flags = Flags { clip: random.once_in(3), defect: random.below(5) as u8 };
    let bytes = write(&MeshFile { unit: random.pick(&[1.0, 0.001, 0.25]), vertices, ids, flags }, true);
    assert_eq!(bytes.len(), FULL);
    bytes
}

fn good(random: &mut Random) -> Vec<u8> {
    let kind = &KINDS[random.below(3)];
    (kind.make)(random)
}

fn anything(random: &mut Random) -> Vec<u8> {
    match random.below(4) {
        0 => full(random),
        1 => good(random),
        _ => (KINDS[random.below(KINDS.len())].make)(random),
    }
}

/// Where to stop on the way: anywhere, after each of the first bytes, at the ends of headers, before and after all.
pub fn parts(random: &mut Random, length: usize, headers: &[usize]) -> Vec<usize> {
    let mut ends: Vec<usize> = match random.below(5) {
        0 => (0..random.within(1, 8)).map(|_| random.below(length + 1)).collect(),
        1 => (1..=random.within(1, 24) as usize).collect(),
        2 => headers.to_vec(),
        3 => vec![1, length.saturating_sub(1)],
        _ => vec![length],
    };
    ends.retain(|&end| end <= length);
    ends.sort_unstable();
    ends.dedup();
    ends.iter().scan(0, |before, &end| Some(end - std::mem::replace(before, end))).collect()
}
