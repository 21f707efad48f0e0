//! The lines of `replay` about writing: of each mesh file that can be read how it is written back, and last what is too many.

use super::promise::{written, Call};
use crate::file::{patterns, MOST};

/// `written N A short R`: the length and the Adler-32 of the file written back, kind 4 always there, and the refusal of an area one
/// byte short. Nothing of a file that cannot be read.
pub fn line(bytes: &[u8]) -> String {
    let Ok(mesh) = patterns(bytes) else { return String::new() };
    let call = Call::of(&mesh);
    let file = written(&call, call.asks()).expect("what was read can be written");
    format!("written {} {} short {}\n", file.len(), adler32(&file), refusal(&call, call.asks() - 1))
}

/// `many 6 6`: the refusals of one float and of one id too many, over an area of one byte.
pub fn many() -> String {
    let (one, many) = (&[0][..], &[0; MOST + 1][..]);
    let of = |vertices, ids| refusal(&Call { unit: 0, vertices, ids, clip: 0, defect: 0 }, 1);
    format!("many {} {}\n", of(many, one), of(one, many))
}

/// 0 where it would be written.
fn refusal(call: &Call, room: usize) -> u32 {
    written(call, room).err().unwrap_or(0)
}

/// zlib's checksum.
pub fn adler32(bytes: &[u8]) -> u32 {
    const MODULUS: u32 = 65_521;
    let (a, b) = bytes.iter().fold((1, 0), |(a, b), byte| {
        let a = (a + *byte as u32) % MODULUS;
        (a, (b + a) % MODULUS)
    });
    b << 16 | a
}
