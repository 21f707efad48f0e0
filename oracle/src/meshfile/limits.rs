//! Every limit of the writer and of the reader by name, each once: lengths about the most, every value of a flag byte and of a kind, every
//! length up to the most and about each power of two, cuts at every byte.

use super::areas::Lent;
use super::meshes::{flags, words};
use super::promise::Call;
use crate::file::{joined, length, records, write_patterns, Flags, Patterns, Record, FLAGS, MOST};
use crate::random::Random;

const LENGTHS: [usize; 9] = [0, 1, 2, 3, MOST - 1, MOST, MOST + 1, MOST + 2, 65_536 + 1];

/// Flag values: those that are some, the next ones, and those that a narrower number would take for some.
fn values() -> impl Iterator<Item = u32> + Clone {
    let powers = (3..32).map(|k| 1 << k);
    (0..9).chain(powers.clone()).chain(powers.map(|power: u32| power + 1)).chain([255, u32::MAX - 1, u32::MAX])
}

/// A mesh of so many floats and ids, always the same.
fn sized(floats: usize, ids: usize) -> Patterns {
    let random = &mut Random::new((floats * 4096 + ids) as u64);
    Patterns {
        unit: 0xffa5_5a81,
        vertices: words(random, floats),
        ids: words(random, ids),
        flags: flags(floats as u64),
    }
}

/// Calls each `take` with a name, what the writer is passed, and the bytes of its area.
pub fn writes(mut take: impl FnMut(&str, &Call, usize)) {
    for floats in LENGTHS {
        for ids in LENGTHS {
            let mesh = sized(floats, ids);
            let asks = length(floats, ids);
            for (clip, defect) in [(0, 0), (1, 4), (2, 0), (0, 5), (u32::MAX, u32::MAX)] {
                let call = Call { clip, defect, ..Call::of(&mesh) };
                for room in [0, asks / 2, asks - FLAGS, asks - 1, asks, asks + 1, asks + 200] {
                    take(&format!("{floats} floats and {ids} ids, flags {clip} and {defect}"), &call, room);
                }
            }
        }
    }
    let mesh = sized(2, 1);
    for clip in values() {
        for defect in values() {
            let call = Call { clip, defect, ..Call::of(&mesh) };
            take("flag values", &call, call.asks() + 3);
        }
    }
}

/// Calls each `take` with a name, a file, and the lengths of the reader's areas.
pub fn reads(mut take: impl FnMut(&str, &[u8], Lent)) {
    const WHOLE: [usize; 6] = [0, 1, 2, 3, MOST - 1, MOST];
    for floats in WHOLE {
        for ids in WHOLE {
            let mut mesh = sized(floats, ids);
            for with_flags in [true, false] {
                mesh.flags = if with_flags { mesh.flags } else { Flags::default() };
                let bytes = write_patterns(&mesh, with_flags);
                about(floats).for_each(|vertices| {
                    about(ids).for_each(|ids| take("lengths of areas", &bytes, Lent { vertices, ids }))
                });
            }
        }
    }
    let (mesh, lent) = (sized(2, 3), Lent { vertices: 4, ids: 4 });
    let right = records(&mesh);
    let mut with = |name: &str, at: usize, record: Record, keep: usize| {
        let mut records = right.clone();
        records[at] = record;
        take(name, &joined(&records[..keep]), lent);
    };
    for [clip, defect] in (0..=u16::MAX).map(u16::to_le_bytes) {
        with("flag bytes", 3, (4, 2, vec![clip, defect]), 4);
    }
    for (at, (kind, length, payload)) in right.iter().enumerate() {
        (0..=u16::MAX).for_each(|kind| with("kinds", at, (kind, *length, payload.clone()), 4));
        // as they are told, with what was there before, and with nothing
        let most = 4 * MOST as u32 + 9;
        let powers = (3..32).flat_map(|k| [-5i64, -4, -1, 0, 1, 4].map(|off| ((1i64 << k) + off) as u32));
        for length in (0..most).chain(powers).chain([u32::MAX - 3, u32::MAX - 1, u32::MAX]) {
            with("lengths as told", at, (*kind, length, payload.clone()), 4);
            with("lengths as told, nothing there", at, (*kind, length, vec![]), at + 1);
        }
    }
    for at in [1, 2] {
        for long in [4 * MOST - 4, 4 * MOST - 1, 4 * MOST, 4 * MOST + 1, 4 * MOST + 2, 4 * MOST + 4, 4 * MOST + 8] {
            let record = (at as u16 + 1, long as u32, vec![3; long]);
            let mut records = right.clone();
            records[at] = record;
            let bytes = joined(&records);
            for most in [0, MOST - 2, MOST - 1, MOST, MOST + 1] {
                take("about the most", &bytes, Lent { vertices: most, ids: most });
            }
        }
    }
    let whole = joined(&right);
    for cut in 0..=whole.len() {
        [lent, Lent { vertices: 0, ids: 0 }].into_iter().for_each(|lent| take("cuts", &whole[..cut], lent));
    }
    for more in [&[0][..], &[4], &[0; 6], &[0; 8], &[2, 0, 0, 0, 4, 0, 0, 0], &whole] {
        for front in [&whole[..], &whole[..whole.len() - FLAGS]] {
            take("bytes behind", &[front, more].concat(), lent);
        }
    }
}

/// Lengths about one: none, one less, the same, one more, many more.
fn about(n: usize) -> impl Iterator<Item = usize> {
    [0, n.saturating_sub(1), n, n + 1, n + 70].into_iter()
}
