//! Damaged mesh files: cut, going on, with other kinds, lengths, flags or records, with more promised than there is, too long. Some can be
//! read all the same; the plain reader knows.

use super::meshes::{flags, short, words};
use crate::file::{joined, records, Record, MOST};
use crate::random::Random;

pub type Damage = (&'static str, fn(&mut Random, &mut Vec<Record>));

/// What is done to the records of a file: of the first nothing. Behind all of it the bytes may still be cut or go on.
pub const DAMAGES: [Damage; 9] = [
    ("cut or going on", |_, _| {}),
    ("another kind", |random, records| kind(random, records)),
    ("another length", |random, records| told_length(random, records)),
    ("another payload", |random, records| payload(random, records)),
    ("flag values", flag_values),
    ("a long length", promised),
    ("too many", |random, records| too_many(random, records)),
    ("other records", order),
    ("a bit changed", |random, records| a_bit(random, records)),
];

/// What is done to the bytes.
const BYTES: [Bytes; 4] = [
    |_, _| {},
    |random, bytes| bytes.truncate(random.below(bytes.len() + 1)),
    |random, bytes| bytes.push(random.bits() as u8),
    |random, bytes| (0..random.within(1, 20)).for_each(|_| bytes.push(random.pick(&[0, 0, 2, 4, 255]))),
];

type Bytes = fn(&mut Random, &mut Vec<u8>);

/// The name of what is done first to the file of a number.
pub fn name(number: u64) -> &'static str {
    DAMAGES[number as usize % DAMAGES.len()].0
}

/// A file with one fault or more: the faults in turn, and now and then a second that may stand before the first.
pub fn damaged(random: &mut Random, number: u64) -> Vec<u8> {
    if random.once_in(40) {
        return (0..random.below(64)).map(|_| random.bits() as u8).collect();
    }
    let mesh = short(random, flags(number));
    let mut records = records(&mesh)[..3 + random.below(4).min(1)].to_vec();
    let first = number as usize % DAMAGES.len();
    DAMAGES[first].1(random, &mut records);
    if random.once_in(4) {
        random.pick(&DAMAGES).1(random, &mut records);
    }
    let mut bytes = joined(&records);
    let then = if first == 0 { 1 + random.below(3) } else { random.pick(&[0, 0, 0, 1, 2, 3]) };
    BYTES[then](random, &mut bytes);
    bytes
}

/// One of the records; there is none where another damage took them all away.
fn some<'a>(random: &mut Random, records: &'a mut [Record]) -> Option<&'a mut Record> {
    match records.len() {
        0 => None,
        n => records.get_mut(random.below(n)),
    }
}

fn kind(random: &mut Random, records: &mut [Record]) {
    if let Some((kind, ..)) = some(random, records) {
        let right = *kind;
        *kind = random.pick(&[0, 1, 2, 3, 4, 5, right + 1, right ^ 0x100, right.swap_bytes(), 0xffff]);
    }
}

/// What is told is another length than is there.
fn told_length(random: &mut Random, records: &mut [Record]) {
    if let Some((_, length, _)) = some(random, records) {
        let right = *length;
        let off = random.pick(&[1u32, 1, 2, 3, 4, 4, 8, 256]);
        *length = random.pick(&[
            0,
            2,
            4,
            right.wrapping_add(off),
            right.wrapping_sub(off),
            right.swap_bytes(),
            right ^ 0x8000_0000,
        ]);
    }
}

/// Another length than the kind has, and so many bytes.
fn payload(random: &mut Random, records: &mut [Record]) {
    if let Some((_, length, payload)) = some(random, records) {
        let long = random.pick(&[0, 1, 2, 3, 4, 5, 6, 8, 12, payload.len() + 1, payload.len() + 2, payload.len() + 4]);
        payload.resize(long, 1);
        *length = payload.len() as u32;
    }
}

/// A kind 4 at the end, with any two bytes or with one that is just too large.
fn flag_values(random: &mut Random, records: &mut Vec<Record>) {
    let any = |random: &mut Random| random.bits() as u8;
    let values = match random.below(6) {
        0 => [2, random.below(5) as u8],
        1 => [random.below(2) as u8, 5],
        2 => [any(random), random.below(5) as u8],
        3 => [random.below(2) as u8, any(random)],
        4 => [random.below(5) as u8, random.below(2) as u8],
        _ => [any(random), any(random)],
    };
    records.truncate(3);
    records.push((4, 2, values.to_vec()));
}

/// About the most that may be, about what fits into fewer bits, and about 4 GiB; little of it is there.
fn promised(random: &mut Random, records: &mut Vec<Record>) {
    let full = 4 * MOST as u32;
    let length = random.pick(&[
        full,
        full + 1,
        full + 2,
        full + 4,
        full + 4,
        full + 8,
        0x1_0000,
        0x1_0004,
        0x4000_0000,
        0x7fff_fffc,
        0x8000_0000,
        0x8000_0004,
        0xffff_fff8,
        0xffff_fffc,
        0xffff_fffe,
        u32::MAX,
    ]);
    // mostly of floats or ids: there it is too many
    let at = random.pick(&[0, 1, 1, 1, 2, 2, 2, 3]);
    if let Some(record) = records.get_mut(at) {
        record.1 = length;
    }
    if random.once_in(3) {
        records.truncate(at + 1);
    }
}

/// More floats or ids than may be, or just as many, and all of them there.
fn too_many(random: &mut Random, records: &mut [Record]) {
    let many = MOST + random.pick(&[0, 1, 1, 2, 3, 100]);
    let at = random.pick(&[1, 2]);
    if let Some((_, length, payload)) = records.get_mut(at) {
        *payload = words(random, many).into_iter().flat_map(u32::to_le_bytes).collect();
        *length = payload.len() as u32;
    }
}

/// One missing, two swapped, one twice, a kind 5, no more than the first ones.
fn order(random: &mut Random, records: &mut Vec<Record>) {
    let n = records.len();
    if n == 0 {
        return;
    }
    let (one, other) = (random.below(n), random.below(n));
    match random.below(5) {
        0 => drop(records.remove(one)),
        1 => records.swap(one, other),
        2 => records.insert(one, records[other].clone()),
        3 => records.push((5, 2, vec![0, 0])),
        _ => records.truncate(one),
    }
}

/// One bit of a header, or of what it is of.
fn a_bit(random: &mut Random, records: &mut [Record]) {
    let (sort, bit) = (random.below(4), random.below(32));
    if let Some((kind, length, payload)) = some(random, records) {
        match sort {
            0 => *kind ^= 1 << (bit % 16),
            1 | 2 => *length ^= 1 << bit,
            _ => payload.iter_mut().take(2).for_each(|byte| *byte ^= 1 << (bit % 8)),
        }
    }
}
