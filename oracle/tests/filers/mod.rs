//! Writers and readers of mesh files written for the tests: by 02's words, right or with one mistake.

use mowfrost_oracle::meshfile::areas::{Reading, Writing};

const REFUSED: u32 = 0x8000_0000;
const MOST: usize = 1536;

/// A writer with one thing of it open.
pub struct Writer {
    /// The refusal by clip and defect, the numbers of floats and ids, and the bytes of the area.
    pub refusal: fn(u32, u32, usize, usize, usize) -> Option<u32>,
    /// The file of unit, floats, ids and flags.
    pub unit: fn(u32) -> u32,
    pub word: fn(u32) -> [u8; 4],
    pub lengths: fn(usize) -> u32,
    pub kinds: [u16; 4],
    pub flags: fn(u32, u32) -> Vec<u8>,
    /// The answer to a file of such a length.
    pub answer: fn(u32) -> u32,
    /// After all else, with the answer.
    pub last: fn(u32, &mut Writing),
}

fn refusal(clip: u32, defect: u32, floats: usize, ids: usize, room: usize) -> Option<u32> {
    if clip > 1 || defect > 4 {
        Some(5)
    } else if floats > MOST || ids > MOST {
        Some(6)
    } else if room < 30 + 4 * floats + 4 * ids {
        Some(3)
    } else {
        None
    }
}

pub const WRITES: Writer = Writer {
    refusal,
    unit: |bits| bits,
    word: u32::to_le_bytes,
    lengths: |words| 4 * words as u32,
    kinds: [1, 2, 3, 4],
    flags: |clip, defect| vec![clip as u8, defect as u8],
    answer: |long| long,
    last: |_, _| {},
};

impl Writer {
    pub fn write(&self, mut writing: Writing) -> u32 {
        let answer = self.answer(&mut writing);
        (self.last)(answer, &mut writing);
        answer
    }

    fn answer(&self, writing: &mut Writing) -> u32 {
        let Writing { unit, vertices, ids, clip, defect, bytes } = writing;
        if let Some(number) = (self.refusal)(*clip, *defect, vertices.len(), ids.len(), bytes.len()) {
            return REFUSED | number;
        }
        let words = |words: &[u32]| words.iter().flat_map(|word| (self.word)(*word)).collect::<Vec<u8>>();
        let [one, two, three, four] = self.kinds.map(u16::to_le_bytes);
        let length = |n: usize| (self.lengths)(n).to_le_bytes();
        let flags = (self.flags)(*clip, *defect);
        let mut file = [&length(1)[..], &one, &(self.unit)(*unit).to_le_bytes()].concat();
        file.extend([&length(vertices.len())[..], &two, &words(vertices)].concat());
        file.extend([&length(ids.len())[..], &three, &words(ids)].concat());
        if !flags.is_empty() {
            file.extend([&2u32.to_le_bytes()[..], &four, &flags].concat());
        }
        // a wrong one may go on where it should have refused: nothing is written beyond an area
        bytes.iter_mut().zip(&file).for_each(|(to, byte)| *to = *byte);
        (self.answer)(file.len() as u32)
    }
}

/// A reader with one thing of it open.
pub struct Reader {
    /// The refusal of a record by its kind and length, of the place that it has, and of the bytes that are left behind its header.
    pub record: fn(usize, u16, u64, u64) -> Option<u32>,
    pub flags: fn(u8, u8) -> bool,
    /// Whether so many bytes may stand behind the end, and whether a file may end before kind 4.
    pub behind: fn(usize) -> bool,
    pub without: bool,
    /// Whether the areas are too short, by what is lent and what is asked for.
    pub short: fn([usize; 2], [usize; 2]) -> bool,
    pub word: fn([u8; 4]) -> u32,
    pub unit: fn(u32) -> u32,
    pub counts: fn([u32; 5]) -> [u32; 5],
    /// After all else, with the answer.
    pub last: fn(u32, &mut Reading),
}

fn record(place: usize, kind: u16, length: u64, left: u64) -> Option<u32> {
    let fits = [length == 4, length % 4 == 0, length % 4 == 0, length == 2][place];
    if kind as usize != place + 1 || !fits {
        Some(5)
    } else if length / 4 > MOST as u64 {
        Some(6)
    } else if left < length {
        Some(5)
    } else {
        None
    }
}

pub const READS: Reader = Reader {
    record,
    flags: |clip, defect| clip < 2 && defect < 5,
    behind: |bytes| bytes == 0,
    without: true,
    short: |[floats, ids], [asked, names]| floats < asked || ids < names,
    word: u32::from_le_bytes,
    unit: |bits| bits,
    counts: |counts| counts,
    last: |_, _| {},
};

impl Reader {
    pub fn read(&self, mut reading: Reading) -> u32 {
        let answer = self.answer(&mut reading).map_or_else(|number| REFUSED | number, |()| 0);
        (self.last)(answer, &mut reading);
        answer
    }

    fn answer(&self, reading: &mut Reading) -> Result<(), u32> {
        let Reading { bytes, vertices, ids, counts } = reading;
        let (mut rest, mut payloads) = (&bytes[..], Vec::new());
        for place in 0..4 {
            if place == 3 && rest.is_empty() && self.without {
                payloads.push(&[0, 0][..]);
                break;
            }
            let (header, left) = rest.split_at_checked(6).ok_or(5u32)?;
            let length = u32::from_le_bytes([header[0], header[1], header[2], header[3]]) as u64;
            let kind = u16::from_le_bytes([header[4], header[5]]);
            (self.record)(place, kind, length, left.len() as u64).map_or(Ok(()), Err)?;
            // a wrong one may go on where it should have refused: what is not there is not taken
            let (payload, behind) = left.split_at(left.len().min(length as usize));
            payloads.push(payload);
            rest = behind;
        }
        let &[clip, defect] = &payloads[3].iter().copied().chain([0, 0]).take(2).collect::<Vec<_>>()[..] else {
            return Err(5);
        };
        if !(self.flags)(clip, defect) || !(self.behind)(rest.len()) {
            return Err(5);
        }
        let word = |w: &[u8]| (self.word)([w[0], w[1], w[2], w[3]]);
        let [unit, floats, names] =
            [0, 1, 2].map(|place| payloads[place].chunks_exact(4).map(word).collect::<Vec<_>>());
        if (self.short)([vertices.len(), ids.len()], [floats.len(), names.len()]) {
            return Err(3);
        }
        vertices.iter_mut().zip(&floats).for_each(|(to, bits)| *to = *bits);
        ids.iter_mut().zip(&names).for_each(|(to, id)| *to = *id);
        let unit = (self.unit)(unit.first().copied().unwrap_or(0));
        **counts = (self.counts)([floats.len() as u32, names.len() as u32, unit, clip as u32, defect as u32]);
        Ok(())
    }
}

/// As a move through a float register of an older kind would leave it.
fn quieted(bits: u32) -> u32 {
    if f32::from_bits(bits).is_nan() {
        bits | 0x0040_0000
    } else {
        bits
    }
}

fn one_nan(bits: u32) -> u32 {
    if f32::from_bits(bits).is_nan() {
        0x7fc0_0000
    } else {
        bits
    }
}

fn first<T>(area: &mut [T], spoil: fn(&mut T)) {
    area.iter_mut().take(1).for_each(spoil);
}

/// Each with one mistake, and what it is.
pub fn wrong_writers() -> Vec<(&'static str, Writer)> {
    vec![
        ("NaNs made quiet", Writer { word: |bits| quieted(bits).to_le_bytes(), ..WRITES }),
        ("one NaN for all", Writer { word: |bits| one_nan(bits).to_le_bytes(), ..WRITES }),
        ("-0 written as 0", Writer { word: |bits| (bits * (bits != REFUSED) as u32).to_le_bytes(), ..WRITES }),
        ("words big-endian", Writer { word: u32::to_be_bytes, ..WRITES }),
        ("a unit that is a NaN made quiet", Writer { unit: quieted, ..WRITES }),
        ("one NaN for all units", Writer { unit: one_nan, ..WRITES }),
        ("lengths in words", Writer { lengths: |n| n as u32, ..WRITES }),
        ("lengths in a byte", Writer { lengths: |n| (4 * n as u32) & 0xff, ..WRITES }),
        ("kinds 2 and 3 swapped", Writer { kinds: [1, 3, 2, 4], ..WRITES }),
        ("no kind 4", Writer { flags: |_, _| vec![], ..WRITES }),
        (
            "no kind 4 of no flags",
            Writer { flags: |c, d| if c + d == 0 { vec![] } else { vec![c as u8, d as u8] }, ..WRITES },
        ),
        ("flags swapped", Writer { flags: |clip, defect| vec![defect as u8, clip as u8], ..WRITES }),
        ("clip alone", Writer { flags: |clip, _| vec![clip as u8, 0], ..WRITES }),
        ("defect 4 written as 3", Writer { flags: |clip, defect| vec![clip as u8, defect.min(3) as u8], ..WRITES }),
        ("the answer is 0", Writer { answer: |_| 0, ..WRITES }),
        ("the answer is without kind 4", Writer { answer: |long| long - 8, ..WRITES }),
        (
            "6 before 5",
            Writer { refusal: |c, d, f, i, r| refusal(0, 0, f, i, usize::MAX).or(refusal(c, d, f, i, r)), ..WRITES },
        ),
        (
            "3 before 5",
            Writer {
                refusal: |c, d, f, i, r| refusal(0, 0, f.min(MOST), i.min(MOST), r).or(refusal(c, d, f, i, r)),
                ..WRITES
            },
        ),
        (
            "3 before 6",
            Writer {
                refusal: |c, d, f, i, r| {
                    refusal(c, d, 0, 0, 30).or((r < 30 + 4 * f + 4 * i).then_some(3)).or(refusal(c, d, f, i, r))
                },
                ..WRITES
            },
        ),
        ("clip 2 taken", Writer { refusal: |c, d, f, i, r| refusal(c & !2, d, f, i, r), ..WRITES }),
        ("defect 5 taken", Writer { refusal: |c, d, f, i, r| refusal(c, d - (d == 5) as u32, f, i, r), ..WRITES }),
        ("flags in a byte", Writer { refusal: |c, d, f, i, r| refusal(c & 0xff, d & 0xff, f, i, r), ..WRITES }),
        ("flags in two bytes", Writer { refusal: |c, d, f, i, r| refusal(c & 0xffff, d & 0xffff, f, i, r), ..WRITES }),
        ("clip 1 refused", Writer { refusal: |c, d, f, i, r| refusal(2 * c, d, f, i, r), ..WRITES }),
        (
            "1,537 floats taken",
            Writer { refusal: |c, d, f, i, r| refusal(c, d, f - (f == 1537) as usize, i, r), ..WRITES },
        ),
        (
            "1,537 ids taken",
            Writer { refusal: |c, d, f, i, r| refusal(c, d, f, i - (i == 1537) as usize, r), ..WRITES },
        ),
        (
            "1,536 floats refused",
            Writer { refusal: |c, d, f, i, r| refusal(c, d, f + (f == 1536) as usize, i, r), ..WRITES },
        ),
        (
            "1,536 ids refused",
            Writer { refusal: |c, d, f, i, r| refusal(c, d, f, i + (i == 1536) as usize, r), ..WRITES },
        ),
        ("lengths in two bytes", Writer { refusal: |c, d, f, i, r| refusal(c, d, f & 0xffff, i, r), ..WRITES }),
        ("a byte short taken", Writer { refusal: |c, d, f, i, r| refusal(c, d, f, i, r + 1), ..WRITES }),
        (
            "a byte more asked for",
            Writer { refusal: |c, d, f, i, r| refusal(c, d, f, i, r.saturating_sub(1)), ..WRITES },
        ),
        ("kind 4 not asked for", Writer { refusal: |c, d, f, i, r| refusal(c, d, f, i, r + 8), ..WRITES }),
        (
            "a byte written on a refusal",
            Writer { last: |a, w| w.bytes.iter_mut().take((a >> 31) as usize).for_each(|byte| *byte ^= 1), ..WRITES },
        ),
        (
            "a byte written behind the file",
            Writer { last: |a, w| w.bytes.iter_mut().skip(a as usize).take(1).for_each(|b| *b ^= 1), ..WRITES },
        ),
        ("the floats are written", Writer { last: |_, w| first(w.vertices, |bits| *bits ^= 1), ..WRITES }),
        ("the ids are written", Writer { last: |_, w| first(w.ids, |id| *id ^= 1), ..WRITES }),
    ]
}

/// The place behind what was read.
fn behind(answer: u32, area: &mut [u32], count: u32) {
    if answer == 0 {
        area.iter_mut().skip(count as usize).take(1).for_each(|word| *word = 0);
    }
}

fn on_refusal(answer: u32, area: &mut [u32]) {
    if answer > 0 {
        first(area, |word| *word ^= 1);
    }
}

/// Each with one mistake, and what it is.
pub fn wrong_readers() -> Vec<(&'static str, Reader)> {
    vec![
        ("NaNs made quiet", Reader { word: |word| quieted(u32::from_le_bytes(word)), ..READS }),
        ("one NaN for all", Reader { word: |word| one_nan(u32::from_le_bytes(word)), ..READS }),
        ("words big-endian", Reader { word: u32::from_be_bytes, ..READS }),
        ("a unit that is a NaN made quiet", Reader { unit: quieted, ..READS }),
        ("floats and ids swapped in the counts", Reader { counts: |[f, i, u, c, d]| [i, f, u, c, d], ..READS }),
        ("clip and defect swapped", Reader { counts: |[f, i, u, c, d]| [f, i, u, d, c], ..READS }),
        ("bytes in the counts", Reader { counts: |[f, i, u, c, d]| [4 * f, 4 * i, u, c, d], ..READS }),
        ("no flags in the counts", Reader { counts: |[f, i, u, ..]| [f, i, u, 0, 0], ..READS }),
        ("flags wanted", Reader { without: false, ..READS }),
        ("any clip", Reader { flags: |_, defect| defect < 5, ..READS }),
        ("any defect", Reader { flags: |clip, _| clip < 2, ..READS }),
        ("clip 2", Reader { flags: |clip, defect| clip < 3 && defect < 5, ..READS }),
        ("defect 5", Reader { flags: |clip, defect| clip < 2 && defect < 6, ..READS }),
        ("no defect 4", Reader { flags: |clip, defect| clip < 2 && defect < 4, ..READS }),
        ("clip and defect only one", Reader { flags: |clip, defect| clip + defect < 5, ..READS }),
        ("a byte behind", Reader { behind: |bytes| bytes < 2, ..READS }),
        ("anything behind", Reader { behind: |_| true, ..READS }),
        ("kinds in a byte", Reader { record: |p, kind, n, left| record(p, kind & 0xff, n, left), ..READS }),
        ("kinds not looked at", Reader { record: |p, _, n, left| record(p, p as u16 + 1, n, left), ..READS }),
        ("lengths in two bytes", Reader { record: |p, kind, n, left| record(p, kind, n & 0xffff, left), ..READS }),
        ("lengths with a sign", Reader { record: |p, kind, n, left| record(p, kind, n & 0x7fff_ffff, left), ..READS }),
        (
            "any length of words",
            Reader { record: |p, kind, n, left| record(p, kind, if p % 3 > 0 { n & !3 } else { n }, left), ..READS },
        ),
        (
            "6 before the kind",
            Reader {
                record: |p, kind, n, left| {
                    (n / 4 > 1536 && n % 4 == 0 && p % 3 > 0).then_some(6).or(record(p, kind, n, left))
                },
                ..READS
            },
        ),
        (
            "6 before the length",
            Reader {
                record: |p, kind, n, left| (n / 4 > 1536 && p % 3 > 0).then_some(6).or(record(p, kind, n, left)),
                ..READS
            },
        ),
        (
            "6 after the payload",
            Reader { record: |p, kind, n, left| (left < n).then_some(5).or(record(p, kind, n, left)), ..READS },
        ),
        (
            "6 for the last byte of the most",
            Reader {
                record: |p, kind, n, left| (n > 6144 && p % 3 > 0).then_some(6).or(record(p, kind, n, left)),
                ..READS
            },
        ),
        (
            "1,537 taken",
            Reader {
                record: |p, kind, n, left| {
                    if n == 6148 {
                        record(p, kind, n - 4, left)
                    } else {
                        record(p, kind, n, left)
                    }
                },
                ..READS
            },
        ),
        (
            "1,536 refused",
            Reader { record: |p, kind, n, left| record(p, kind, n, left).or((n == 6144).then_some(6)), ..READS },
        ),
        ("a cut payload taken", Reader { record: |p, kind, n, left| record(p, kind, n, left + 1), ..READS }),
        (
            "nothing refused",
            Reader { record: |p, kind, n, left| record(p, kind, n, left).or((p == 1 && n == 0).then_some(5)), ..READS },
        ),
        ("a float short taken", Reader { short: |[f, i], [a, b]| f + 1 < a || i < b, ..READS }),
        ("an id short taken", Reader { short: |[f, i], [a, b]| f < a || i + 1 < b, ..READS }),
        ("a float more asked for", Reader { short: |[f, i], [a, b]| f < a + 1 || i < b, ..READS }),
        ("an id more asked for", Reader { short: |[f, i], [a, b]| f < a || i < b + 1, ..READS }),
        ("both areas in sum", Reader { short: |[f, i], [a, b]| f + i < a + b, ..READS }),
        ("full areas asked for", Reader { short: |lent, _| lent < [1536, 1536], ..READS }),
        ("a float written on a refusal", Reader { last: |a, r| on_refusal(a, r.vertices), ..READS }),
        ("an id written on a refusal", Reader { last: |a, r| on_refusal(a, r.ids), ..READS }),
        ("the counts written on a refusal", Reader { last: |a, r| on_refusal(a, r.counts), ..READS }),
        ("the floats behind cleared", Reader { last: |a, r| behind(a, r.vertices, r.counts[0]), ..READS }),
        ("the ids behind cleared", Reader { last: |a, r| behind(a, r.ids, r.counts[1]), ..READS }),
        ("the file is written", Reader { last: |_, r| first(r.bytes, |byte| *byte ^= 1), ..READS }),
    ]
}
