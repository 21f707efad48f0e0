//! What `takeoff --stl` is sent: STL files of every kind in turn, half of them damaged, those that `replay` holds, and files that matter
//! to a program alone, since it reads them off a pipe: longer than any that it reads, exactly full, empty, in parts.

use super::damage::{counted, many};
use super::file::{FRONT, FULL, MOST, RECORD};
use super::kinds::{self, some};
use super::stored;
use crate::random::Random;
use crate::sent::{parts, Sent, SEED, TAIL};
use crate::stored::Stored;
use std::sync::LazyLock;

type Own = (&'static str, fn(&mut Random, u64) -> Vec<u8>);

static BY_HAND: LazyLock<Vec<Stored>> = LazyLock::new(stored::all);

const OWN: [Own; 10] = [
    ("by hand", |_, turn| BY_HAND[turn as usize % BY_HAND.len()].bytes.clone()),
    ("empty", |_, _| Vec::new()),
    ("short", |random, _| {
        let keep = random.below(FRONT + RECORD);
        some(random).bytes()[..].iter().copied().take(keep).collect()
    }),
    ("tail", |random, turn| tail(random, turn % 4 == 0)),
    ("full", |random, _| full(random)),
    ("full less one", |random, _| full(random)[..FULL - 1].to_vec()),
    ("full and one", |random, _| [full(random), vec![random.pick(&[0, 7])]].concat()),
    ("full and two", |random, _| [full(random), vec![random.pick(&[0, 7]); 2]].concat()),
    ("in parts", |random, turn| if turn % 2 == 0 { full(random) } else { some(random).bytes() }),
    ("long, in parts", |random, turn| tail(random, turn % 4 == 1)),
];

/// After so many files every kind has had its turn.
pub fn turn() -> u64 {
    kinds::turn() + OWN.len() as u64
}

/// The file of a number, whatever came before it.
pub fn sent(number: u64) -> Sent {
    let (turn, place) = (number / turn(), number % turn());
    if place < kinds::turn() {
        let number = turn * kinds::turn() + place;
        return Sent { name: kinds::name(number), bytes: kinds::file(SEED, number), parts: Vec::new() };
    }
    let (name, make) = OWN[(place - kinds::turn()) as usize];
    let random = &mut Random::new(SEED.wrapping_mul(0x1_0000_0001).wrapping_sub(1 + number));
    let bytes = make(random, turn);
    let headers = [80, FRONT, FRONT + 12, FRONT + RECORD];
    let parts = if name.ends_with("in parts") { parts(random, bytes.len(), &headers) } else { Vec::new() };
    Sent { name, bytes, parts }
}

/// As many triangles as the program reads.
fn full(random: &mut Random) -> Vec<u8> {
    let bytes = many(random, MOST).bytes();
    assert_eq!(bytes.len(), FULL);
    bytes
}

/// Far too long, or up to and about where a page, a full file or a pipe ends; the count says what was there first, all of it, or too many.
fn tail(random: &mut Random, far: bool) -> Vec<u8> {
    let stl = some(random);
    let bytes = stl.bytes();
    if far {
        return counted(bytes, TAIL, stl.count);
    }
    let end = match random.below(3) {
        0 => random.pick(&[4096, FULL, FULL + 1, FULL + 2, 65_535, 65_536, 65_537]),
        1 => random.within(FULL as i64, FULL as i64 + 300) as usize,
        _ => random.within(FULL as i64, TAIL as i64) as usize,
    };
    let fits = (end - FRONT) / RECORD;
    let count = random.pick(&[stl.count, stl.count, (MOST as u32).to_le_bytes(), (fits as u32).to_le_bytes()]);
    counted(bytes, end.max(FRONT), count)
}
