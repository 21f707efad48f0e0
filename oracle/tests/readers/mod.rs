//! Readers of STL files written for the tests: by 02's words, right or with one mistake.

use mowfrost_oracle::stl::areas::Areas;

const REFUSED: u32 = 0x8000_0000;

/// A reader with one thing of it open.
pub struct Reader {
    /// Before all else, by the file's bytes.
    pub first: fn(&[u8]) -> Option<u32>,
    pub count: fn([u8; 4]) -> u64,
    /// The refusal of a length, a count, the most that may be, and the lengths of the two areas.
    pub refusal: fn(u64, Option<u64>, u64, u64, u64) -> Option<u32>,
    /// Where in a triangle its corners stand, and how a float is read.
    pub corners_at: usize,
    pub float: fn([u8; 4]) -> u32,
    pub ids: fn(u32) -> [u32; 3],
    /// After all else, with the answer.
    pub last: fn(u32, &mut Areas),
}

fn refusal(long: u64, count: Option<u64>, most: u64, floats: u64, ids: u64) -> Option<u32> {
    match count {
        None => Some(5),
        Some(n) if n > most => Some(6),
        Some(n) if long != 84 + 50 * n => Some(5),
        Some(n) if floats < 9 * n || ids < 3 * n => Some(3),
        Some(_) => None,
    }
}

pub const RIGHT: Reader = Reader {
    first: |_| None,
    count: |word| u32::from_le_bytes(word) as u64,
    refusal,
    corners_at: 12,
    float: u32::from_le_bytes,
    ids: |t| [3 * t, 3 * t + 1, 3 * t + 2],
    last: |_, _| {},
};

impl Reader {
    pub fn read(&self, most: usize, mut areas: Areas) -> u32 {
        let answer = self.answer(most, &mut areas);
        (self.last)(answer, &mut areas);
        answer
    }

    fn answer(&self, most: usize, areas: &mut Areas) -> u32 {
        let Areas { bytes, vertices, ids } = areas;
        if let Some(number) = (self.first)(bytes) {
            return REFUSED | number;
        }
        let word = |at: usize| bytes.get(at..at + 4).map(|word| [word[0], word[1], word[2], word[3]]);
        let count = if bytes.len() < 84 { None } else { word(80).map(self.count) };
        let [long, floats, names] = [bytes.len(), vertices.len(), ids.len()].map(|length| length as u64);
        if let Some(number) = (self.refusal)(long, count, most as u64, floats, names) {
            return REFUSED | number;
        }
        // a wrong one may go on where it should have refused: what is not there is 0, and nothing is written beyond an area
        let n = count.unwrap_or(0).min(20_000) as usize;
        for t in 0..n {
            for k in 0..9 {
                let bits = word(84 + 50 * t + self.corners_at + 4 * k).map_or(0, self.float);
                vertices.iter_mut().skip(9 * t + k).take(1).for_each(|to| *to = bits);
            }
            let names = (self.ids)(t as u32);
            ids.iter_mut().skip(3 * t).zip(names).for_each(|(to, id)| *to = id);
        }
        n as u32
    }
}

fn longer_taken(long: u64, count: Option<u64>, most: u64, floats: u64, ids: u64) -> Option<u32> {
    let least = count.map_or(long, |n| long.min(84 + 50 * n.min(most)));
    refusal(least, count, most, floats, ids)
}

fn first(holds: bool, area: &mut [u32]) {
    if holds {
        area.iter_mut().take(1).for_each(|word| *word ^= 1);
    }
}

/// The place behind what was read, so many a triangle.
fn behind(answer: u32, each: usize, area: &mut [u32]) {
    if answer < REFUSED {
        area.iter_mut().skip(each * answer as usize).take(1).for_each(|word| *word = 0);
    }
}

/// As a move through a float register of an older kind would leave it.
fn quieted(answer: u32, area: &mut [u32]) {
    if answer < REFUSED {
        let nans = area.iter_mut().skip(9 * answer as usize).filter(|word| f32::from_bits(**word).is_nan());
        nans.for_each(|word| *word |= 0x0040_0000);
    }
}

/// Each with one mistake, and what it is.
pub fn wrong() -> Vec<(&'static str, Reader)> {
    vec![
        ("corners from the normal's place", Reader { corners_at: 0, ..RIGHT }),
        ("corners behind the attributes", Reader { corners_at: 14, ..RIGHT }),
        ("the count big-endian", Reader { count: |word| u32::from_be_bytes(word) as u64, ..RIGHT }),
        ("the count in two bytes", Reader { count: |word| u16::from_le_bytes([word[0], word[1]]) as u64, ..RIGHT }),
        ("the count with a sign", Reader { count: |word| (u32::from_le_bytes(word) & 0x7fff_ffff) as u64, ..RIGHT }),
        ("floats big-endian", Reader { float: u32::from_be_bytes, ..RIGHT }),
        ("-0 read as 0", Reader { float: |word| (f32::from_le_bytes(word) + 0.0).to_bits(), ..RIGHT }),
        (
            "a NaN read as a number",
            Reader { float: |word| (f32::from_le_bytes(word).max(f32::MIN)).to_bits(), ..RIGHT },
        ),
        ("the last two corners swapped", Reader { ids: |t| [3 * t, 3 * t + 2, 3 * t + 1], ..RIGHT }),
        ("ids from 1", Reader { ids: |t| [3 * t + 1, 3 * t + 2, 3 * t + 3], ..RIGHT }),
        ("ids in a byte", Reader { ids: |t| [3 * t, 3 * t + 1, 3 * t + 2].map(|id| id & 0xff), ..RIGHT }),
        ("ids in two bytes", Reader { ids: |t| [3 * t, 3 * t + 1, 3 * t + 2].map(|id| id & 0x3fff), ..RIGHT }),
        (
            "the length before the count",
            Reader {
                refusal: |long, count, most, floats, ids| match count {
                    Some(n) if long != 84 + 50 * n => Some(5),
                    _ => refusal(long, count, most, floats, ids),
                },
                ..RIGHT
            },
        ),
        (
            "the areas before the length",
            Reader {
                refusal: |long, count, most, floats, ids| match count {
                    Some(n) if n <= most && (floats < 9 * n || ids < 3 * n) => Some(3),
                    _ => refusal(long, count, most, floats, ids),
                },
                ..RIGHT
            },
        ),
        (
            "the areas before the count",
            Reader {
                refusal: |long, count, most, floats, ids| match count {
                    Some(n) if floats < 9 * n || ids < 3 * n => Some(3),
                    _ => refusal(long, count, most, floats, ids),
                },
                ..RIGHT
            },
        ),
        ("bytes behind are taken", Reader { refusal: longer_taken, ..RIGHT }),
        (
            "one byte short is taken",
            Reader { refusal: |l, n, m, f, i| refusal(l + (l == 133) as u64, n, m, f, i), ..RIGHT },
        ),
        (
            "lengths in 32 bits",
            Reader { refusal: |l, n, m, f, i| refusal(l, n.map(|n| n & 0x7fff_ffff), m, f, i), ..RIGHT },
        ),
        ("169 at most", Reader { refusal: |l, n, m, f, i| refusal(l, n, m - 1, f, i), ..RIGHT }),
        ("171 at most", Reader { refusal: |l, n, m, f, i| refusal(l, n, m + 1, f, i), ..RIGHT }),
        ("170 at most in both forms", Reader { refusal: |l, n, _, f, i| refusal(l, n, 170, f, i), ..RIGHT }),
        ("10,922 at most in both forms", Reader { refusal: |l, n, _, f, i| refusal(l, n, 10_922, f, i), ..RIGHT }),
        (
            "no triangle is refused",
            Reader { refusal: |l, n, m, f, i| refusal(l, n, m, f, i).or((n? == 0).then_some(5)), ..RIGHT },
        ),
        ("one float short is taken", Reader { refusal: |l, n, m, f, i| refusal(l, n, m, f + 1, i), ..RIGHT }),
        ("one id short is taken", Reader { refusal: |l, n, m, f, i| refusal(l, n, m, f, i + 1), ..RIGHT }),
        (
            "one float more is asked for",
            Reader { refusal: |l, n, m, f, i| refusal(l, n, m, f.saturating_sub(1), i), ..RIGHT },
        ),
        (
            "one id more is asked for",
            Reader { refusal: |l, n, m, f, i| refusal(l, n, m, f, i.saturating_sub(1)), ..RIGHT },
        ),
        ("a header with solid is refused", Reader { first: |bytes| bytes.starts_with(b"solid").then_some(5), ..RIGHT }),
        (
            "a normal that is a NaN is refused",
            Reader {
                first: |bytes| (bytes.get(87)? & 0x7f == 0x7f && bytes.get(86)? & 0x80 > 0).then_some(4),
                ..RIGHT
            },
        ),
        (
            "the first float is written on a refusal",
            Reader { last: |answer, areas| first(answer >= REFUSED, areas.vertices), ..RIGHT },
        ),
        (
            "the first id is written on a refusal",
            Reader { last: |answer, areas| first(answer >= REFUSED, areas.ids), ..RIGHT },
        ),
        ("the floats behind are cleared", Reader { last: |answer, areas| behind(answer, 9, areas.vertices), ..RIGHT }),
        ("the ids behind are cleared", Reader { last: |answer, areas| behind(answer, 3, areas.ids), ..RIGHT }),
        ("a NaN behind loses its digits", Reader { last: |answer, areas| quieted(answer, areas.vertices), ..RIGHT }),
        (
            "the file is written",
            Reader { last: |_, areas| areas.bytes.iter_mut().take(1).for_each(|byte| *byte ^= 1), ..RIGHT },
        ),
    ]
}
