//! Files that are no mesh, and their faults in order.

use super::examples::tilted;
use super::List;
use crate::file::{self, joined, push_record, write, Flags, MeshFile, Patterns, Record};

/// The records of one triangle with flags: 78 bytes, of which kind 4 has the last eight.
fn records() -> [Record; 4] {
    file::records(&Patterns::of(&tilted()))
}

/// The file with one record changed, and with as many behind it as are wanted.
fn with(at: usize, record: Record, keep: usize) -> Vec<u8> {
    let mut records = records();
    records[at] = record;
    joined(&records[..keep.max(at + 1)])
}

const NAMES: [&str; 4] = ["unit", "floats", "ids", "flags"];

pub fn faults(list: &mut List) {
    let whole = joined(&records());
    assert_eq!(whole, write(&MeshFile { flags: Flags::default(), ..tilted() }, true));
    // in every header, in the unit and in the flags; of floats and ids at the ends and within a word. At 70 it is whole
    let cuts = (0..=17).chain([20]).chain(52..=59).chain([69]).chain(71..=77);
    for cut in cuts {
        list.file("refused 5", format!("cut to {cut} bytes"), whole[..cut].to_vec());
    }

    for (at, name) in NAMES.iter().enumerate() {
        let (kind, length, payload) = records()[at].clone();
        for wrong in [kind - 1, kind % 4 + 1, 0x100 + kind] {
            list.file("refused 5", format!("{name} of kind {wrong:x}"), with(at, (wrong, length, payload.clone()), 4));
        }
        let off: &[u32] = match at {
            0 => &[0, 3, 8],
            3 => &[0, 1, 3],
            _ => &[2, 39],
        };
        for &length in off {
            let payload = payload.iter().copied().cycle().take(length as usize).collect();
            list.file("refused 5", format!("{name} of {length} bytes"), with(at, (kind, length, payload), 4));
        }
        list.file("refused 5", format!("{name}, 4 GiB less a byte promised"), with(at, (kind, u32::MAX, vec![]), 0));
    }
    for at in [1, 2] {
        let (kind, name) = (at as u16 + 1, NAMES[at]);
        for (says, kind, length) in [
            ("refused 6", kind, 0xffff_fffc),
            ("refused 6", kind, 6148),
            ("refused 5", kind, 6144),
            ("refused 5", kind, 6150),
            ("refused 5", 9, 6148),
        ] {
            let name = format!("{name} of kind {kind}, {length} bytes promised and none there");
            list.file(says, name, with(at, (kind, length, vec![]), 0));
        }
    }
    let late = [with(1, (2, 6148, vec![0; 6148]), 0), vec![0; 3]].concat();
    list.file("refused 6", "too many floats, then a cut header", late);
    for flags in [[2, 0], [0, 5], [1, 255], [2, 5]] {
        list.file("refused 5", format!("flags {flags:?}"), with(3, (4, 2, flags.to_vec()), 4));
    }

    let order = |order: &[usize]| joined(&order.iter().map(|&at| records()[at].clone()).collect::<Vec<_>>());
    for wrong in [&[1, 0, 2][..], &[0, 2, 1], &[0, 2], &[0, 1, 3], &[3], &[0, 1, 2, 2], &[0, 1, 2, 3, 3]] {
        let names: Vec<_> = wrong.iter().map(|&at| NAMES[at]).collect();
        list.file("refused 5", format!("in this order: {}", names.join(", ")), order(wrong));
    }
    for behind in [vec![0], vec![0; 6], whole.clone()] {
        let name = format!("{} bytes after the end", behind.len());
        list.file("refused 5", name, [whole.clone(), behind].concat());
    }
    let mut more = whole[..70].to_vec();
    push_record(&mut more, 5, &[0, 0]);
    list.file("refused 5", "a kind 5 after the ids", more);
    let none = [(1, 4, vec![0; 4]), (2, 0, vec![]), (3, 0, vec![])];
    list.file("degenerate 0 prism_fallback", "floats and ids of no length", joined(&none));
}
