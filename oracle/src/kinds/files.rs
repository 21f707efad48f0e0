//! Damaged files: what refusals 5 and 6 are for.

use super::topology::closed;
use crate::file::{push_record, read};
use crate::random::Random;

/// A good file with one thing wrong: a kind, a length, an order, a flag, something missing, something behind.
pub fn damaged(random: &mut Random) -> Vec<u8> {
    let good = closed(random);
    let mesh = read(&good).expect("a closed solid's file is whole");
    let unit = mesh.unit.to_bits().to_le_bytes().to_vec();
    let floats: Vec<u8> = mesh.vertices.iter().flat_map(|v| v.to_le_bytes()).collect();
    let ids: Vec<u8> = mesh.ids.iter().flat_map(|v| v.to_le_bytes()).collect();
    let mut records =
        vec![(1u16, unit), (2, floats), (3, ids), (4, vec![random.below(2) as u8, random.below(5) as u8])];
    if random.once_in(2) {
        records.pop();
    }
    let at = random.below(records.len());
    match random.below(9) {
        0 => records[at].0 = random.pick(&[0, 1, 2, 3, 4, 5, 256, u16::MAX]),
        1 => records[at].1.push(7),
        2 => drop(records[at].1.pop()),
        3 => drop(records.remove(at)),
        4 => records.swap(at, 0),
        5 => {
            let again = records[at].clone();
            records.push(again);
        }
        6 => records.push((4, vec![random.below(4) as u8, random.below(7) as u8])),
        7 => records[at].1 = vec![0; random.pick(&[0usize, 1, 2, 4, 6140, 6144, 6145, 6148, 6152])],
        _ => records.truncate(at),
    }
    let mut bytes = Vec::new();
    for (kind, payload) in &records {
        push_record(&mut bytes, *kind, payload);
    }
    if random.once_in(6) {
        bytes.extend((0..random.within(1, 9)).map(|_| 0u8));
    }
    bytes
}

/// A good file cut anywhere, one byte changed, or a length that promises more than there is.
pub fn cut_file(random: &mut Random) -> Vec<u8> {
    let mut bytes = closed(random);
    match random.below(4) {
        0 => bytes.truncate(random.below(bytes.len() + 1)),
        1 => {
            let at = random.below(bytes.len().min(40));
            bytes[at] = random.bits() as u8;
        }
        // the second record's length, just under and over what a file may hold
        2 => {
            let length = random.pick(&[0u32, 4, 36, 6144, 6145, 6148, 6152, 0x7fff_fffc, 0xffff_fffc, u32::MAX]);
            bytes[10..14].copy_from_slice(&length.to_le_bytes());
        }
        _ => bytes = (0..random.below(64)).map(|_| random.bits() as u8).collect(),
    }
    bytes
}
