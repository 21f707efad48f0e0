//! Damaged STL files: lengths and counts about every limit, counts that do not fit, files that are cut or go on.

use super::dress::dressed;
use super::file::{corners, length, Stl, FRONT, FULL, HEADER, MOST, MOST_LARGE, RECORD};
use super::kinds::some;
use crate::compute::shapes::{boxes, double_sheet, duplicated, open_sphere, sheet, soup, sphere, torus, Make};
use crate::random::Random;
use crate::sent::TAIL;

pub type Damaged = (&'static str, fn(&mut Random) -> Vec<u8>);

/// Few of them can be read all the same: a count of 0 or 1 at its own length, and what only the large form reads.
pub const DAMAGED: [Damaged; 11] = [
    ("of a named length", named_length),
    ("a length a little off", a_little_off),
    ("another count", another_count),
    ("count big-endian", big_endian),
    ("cut", cut),
    ("bytes behind", behind),
    ("more than 170", too_many),
    ("about 10,922", about_large),
    ("a count that wraps", wraps),
    ("text", text),
    ("bytes by chance", noise),
];

/// The lengths about which a reader decides.
pub const LENGTHS: [usize; 17] =
    [0, 1, 79, 80, 81, 82, 83, 84, 85, 133, 134, 135, FULL - 1, FULL, FULL + 1, FULL + 2, FULL + RECORD];

/// The counts about which it does.
pub const COUNTS: [u32; 14] =
    [0, 1, 2, 169, 170, 171, 256, 0x0100_0000, 10_921, 10_922, 10_923, 0x7fff_ffff, 0x8000_0000, u32::MAX];

/// How far a length may be off.
pub const OFF: [isize; 6] = [-50, -49, -1, 1, 49, 50];

/// So many bytes, of a file over and over, with this count where there is room for it.
pub fn counted(mut bytes: Vec<u8>, long: usize, count: [u8; 4]) -> Vec<u8> {
    let filling = bytes.clone();
    bytes.extend(filling.iter().cycle().take(long.saturating_sub(filling.len())));
    bytes.truncate(long);
    if let Some(place) = bytes.get_mut(HEADER..FRONT) {
        place.copy_from_slice(&count);
    }
    bytes
}

fn named_length(random: &mut Random) -> Vec<u8> {
    let (long, count) = (random.pick(&LENGTHS), random.pick(&COUNTS));
    counted(some(random).bytes(), long, count.to_le_bytes())
}

fn a_little_off(random: &mut Random) -> Vec<u8> {
    let stl = some(random);
    let bytes = stl.bytes();
    let long = bytes.len().saturating_add_signed(random.pick(&OFF));
    counted(bytes, long, stl.count)
}

/// One more or less, a limit, or one bit more.
fn another_count(random: &mut Random) -> Vec<u8> {
    let mut stl = some(random);
    let n = stl.triangles.len() as u32;
    let count = match random.below(4) {
        0 => n + 1,
        1 => n.wrapping_sub(1),
        2 => n ^ 1 << random.below(32),
        _ => random.pick(&COUNTS),
    };
    stl.count = count.to_le_bytes();
    stl.bytes()
}

fn big_endian(random: &mut Random) -> Vec<u8> {
    let mut stl = some(random);
    stl.count.reverse();
    stl.bytes()
}

fn cut(random: &mut Random) -> Vec<u8> {
    let mut bytes = some(random).bytes();
    let keep = match random.below(3) {
        0 => random.below(FRONT + RECORD),
        // at the end of a triangle, or of a part of it
        1 => length(random.below(MOST)) + random.pick(&[0, 12, 24, 36, 48]),
        _ => random.below(bytes.len()),
    };
    bytes.truncate(keep.min(bytes.len() - 1));
    bytes
}

fn behind(random: &mut Random) -> Vec<u8> {
    let mut bytes = some(random).bytes();
    let more = match random.below(4) {
        0 => random.within(1, 9) as usize,
        1 => random.within(1, 3 * RECORD as i64) as usize,
        2 => (FULL + random.below(3)).saturating_sub(bytes.len()).max(1),
        _ if random.once_in(4) => random.within(1, TAIL as i64) as usize,
        _ => 2,
    };
    let byte = random.bits() as u8;
    bytes.extend((0..more).map(|_| if byte < 128 { byte & 1 } else { random.bits() as u8 }));
    bytes
}

/// Just so many small triangles: a shape that has about as many, and behind it triangles without area or again its first ones. (Large ones
/// would take a raster for each.)
pub fn many(random: &mut Random, triangles: usize) -> Stl {
    let make: Make = random.pick(&[sphere, torus, boxes, duplicated, double_sheet, open_sphere, sheet, soup]);
    let mut all = corners(&make(triangles).scaled([random.pick(&[100.0, 1000.0]); 3]));
    let more = if random.once_in(2) { vec![[1.0; 9]; triangles] } else { all.clone() };
    all.extend(more);
    all.truncate(triangles);
    dressed(random, &all)
}

/// A little more than the program reads, at the right length: the large form reads it.
fn too_many(random: &mut Random) -> Vec<u8> {
    let triangles = random.pick(&[171, 171, 172, 200, 255, 256, 257, 300]);
    many(random, triangles).bytes()
}

/// As many as the large form reads, one less or more; seldom, for they are long.
fn about_large(random: &mut Random) -> Vec<u8> {
    if !random.once_in(40) {
        let (count, long) = (random.pick(&[10_921u32, 10_922, 10_923]), random.pick(&[84, 134, 8_583, FULL, 9_000]));
        return counted(some(random).bytes(), long, count.to_le_bytes());
    }
    let triangles = random.pick(&[MOST_LARGE - 1, MOST_LARGE, MOST_LARGE, MOST_LARGE + 1]);
    let mut bytes = many(random, triangles).bytes();
    let long = bytes.len().saturating_add_signed(random.pick(&[0, 0, 0, -50, -1, 1, 50]));
    bytes.resize(long, 7);
    bytes
}

/// A count whose fifty bytes a triangle come to the file's length in 32 bits, and not in more.
fn wraps(random: &mut Random) -> Vec<u8> {
    let mut stl = some(random);
    let n = stl.triangles.len() as u32;
    // 25 · 3,264,175,145 is 1 in 32 bits, so that 50 of these are the length of any file of an even number of bytes
    let fits = |bytes: u32| (bytes / 2).wrapping_mul(3_264_175_145);
    let more = 2 * random.below(40) as u32;
    let count = random.pick(&[n | 0x8000_0000, n + 0x0001_0000, n + 0x0100_0000, fits(RECORD as u32 * n + more)]);
    stl.count = count.to_le_bytes();
    let mut bytes = stl.bytes();
    if count == fits(RECORD as u32 * n + more) {
        bytes.extend(vec![0; more as usize]);
    }
    bytes
}

/// An STL file of the other sort: text, with `solid` in front.
fn text(random: &mut Random) -> Vec<u8> {
    let mut text = String::from("solid mount\n");
    for _ in 0..random.below(9) {
        text += "  facet normal 0 0 1\n    outer loop\n";
        for _ in 0..3 {
            let [x, y, z] = [0; 3].map(|_| random.within(-99, 99));
            text += &format!("      vertex {x} {y} {z}\n");
        }
        text += "    endloop\n  endfacet\n";
    }
    (text + "endsolid mount\n").into_bytes()
}

fn noise(random: &mut Random) -> Vec<u8> {
    let long = random.pick(&[60, 200, 2_000]);
    let mut bytes: Vec<u8> = (0..random.below(long)).map(|_| random.bits() as u8).collect();
    if random.once_in(2) {
        // a count that passes
        let count = random.below(2 * MOST) as u32;
        let long = bytes.len();
        bytes = counted(bytes, long, count.to_le_bytes());
    }
    bytes
}
