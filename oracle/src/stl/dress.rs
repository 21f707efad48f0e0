//! What an STL file has around its corners and no reader may look at: header, normals and attributes.

use super::file::{Stl, Triangle, HEADER};
use crate::compute::nans::nan;
use crate::random::Random;

/// A header that begins with these bytes.
pub fn beginning(text: &[u8], rest: u8) -> [u8; HEADER] {
    let mut header = [rest; HEADER];
    header[..text.len()].copy_from_slice(text);
    header
}

/// As makers write them, as a text file begins, and by chance; some with the count or another one in each word.
fn header(random: &mut Random, count: [u8; 4]) -> [u8; HEADER] {
    let words = |word: [u8; 4]| word.repeat(HEADER / 4).try_into().expect("so many bytes");
    match random.below(9) {
        0 => [0; HEADER],
        1 => [0xff; HEADER],
        2 => beginning(b"solid", 0),
        3 => beginning(b"solid mount", b' '),
        4 => beginning(b"solid \n  facet normal 0 0 1\n    outer loop\n", b'\n'),
        5 => beginning(b"binary STL, units mm, COLOR=", random.bits() as u8),
        6 => words(count),
        7 => words((random.below(300) as u32).to_le_bytes()),
        _ => [0; HEADER].map(|_: u8| random.bits() as u8),
    }
}

/// The unit normal of three corners by the right hand; what comes of a sliver or a NaN comes.
fn right_normal(corners: [u32; 9]) -> [f32; 3] {
    let at = |corner: usize| [0, 1, 2].map(|axis| f32::from_bits(corners[3 * corner + axis]) as f64);
    let [a, b, c] = [at(0), at(1), at(2)];
    let (u, v) = ([0, 1, 2].map(|k| b[k] - a[k]), [0, 1, 2].map(|k| c[k] - a[k]));
    let cross = [(1, 2), (2, 0), (0, 1)].map(|(i, j)| u[i] * v[j] - u[j] * v[i]);
    let long = cross.iter().map(|x| x * x).sum::<f64>().sqrt();
    cross.map(|x| (x / long) as f32)
}

/// Right, opposite, none, of any length, NaN, infinite, or any bits.
fn normal(random: &mut Random, way: usize, corners: [u32; 9]) -> [u32; 3] {
    match way {
        0 => right_normal(corners).map(f32::to_bits),
        1 => right_normal(corners).map(|x| (-x).to_bits()),
        2 => [0; 3],
        3 => [0; 3].map(|_: u32| (random.within(-900, 900) as f32).to_bits()),
        4 => [0; 3].map(|_: u32| nan(random)),
        5 => [0; 3].map(|_: u32| random.pick(&[f32::INFINITY, f32::NEG_INFINITY]).to_bits()),
        _ => [0; 3].map(|_: u32| random.bits() as u32),
    }
}

/// None, colours of five bits each with the high bit set or not, all bits, any.
fn attribute(random: &mut Random, way: usize) -> u16 {
    match way {
        0 => 0,
        1 => 0x8000 | random.below(0x8000) as u16,
        2 => random.below(0x8000) as u16,
        3 => 0xffff,
        _ => random.bits() as u16,
    }
}

/// The file of these corners, with all around them by chance: each file in one way, or now and then each triangle in its own.
pub fn dressed(random: &mut Random, corners: &[[f32; 9]]) -> Stl {
    let (normals, attributes, mixed) = (random.below(7), random.below(5), random.once_in(5));
    let triangles = corners.iter().map(|corners| {
        let corners = corners.map(f32::to_bits);
        let (to, of) = if mixed { (random.below(7), random.below(5)) } else { (normals, attributes) };
        Triangle { normal: normal(random, to, corners), corners, attribute: attribute(random, of) }
    });
    let mut stl = Stl::from(triangles.collect());
    stl.header = header(random, stl.count);
    stl
}
