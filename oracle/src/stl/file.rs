//! Binary STL (02, A4): bytes to a mesh, by 02's sentences, and triangles to bytes. Nothing of it is from the port.

use crate::file::MeshFile;
use crate::record::plain;
use crate::solids::Shape;

/// The header, and with the count behind it all that stands before the triangles.
pub const HEADER: usize = 80;
pub const FRONT: usize = 84;
/// A triangle: a normal of twelve bytes, nine floats, two attribute bytes.
pub const RECORD: usize = 50;
const NORMAL: usize = 12;

/// At most so many triangles in a file: the program's, and those of the large form.
pub const MOST: usize = 170;
pub const MOST_LARGE: usize = 10_922;

/// Metres a unit; there are no flags.
pub const UNIT: f32 = 0.001;

/// The bytes of a file of so many triangles.
pub const fn length(triangles: usize) -> usize {
    FRONT + RECORD * triangles
}

/// The bytes of the longest file that the program reads.
pub const FULL: usize = length(MOST);

/// What the count says, where there is one.
pub fn count(bytes: &[u8]) -> Option<u32> {
    (bytes.len() >= FRONT).then(|| word(bytes, HEADER))
}

fn word(bytes: &[u8], at: usize) -> u32 {
    u32::from_le_bytes([bytes[at], bytes[at + 1], bytes[at + 2], bytes[at + 3]])
}

/// The mesh that the bytes hold where at most so many triangles may be, or the refusal: under 84 bytes 5; too many 6, whatever the length;
/// a length other than 84 + 50n 5.
pub fn read(bytes: &[u8], most: usize) -> Result<MeshFile, u32> {
    let triangles = count(bytes).ok_or(5u32)? as u64;
    if triangles > most as u64 {
        return Err(6);
    }
    if bytes.len() as u64 != FRONT as u64 + RECORD as u64 * triangles {
        return Err(5);
    }
    let (mut vertices, mut ids) = (Vec::new(), Vec::new());
    for t in 0..triangles as usize {
        for k in 0..9 {
            vertices.push(f32::from_bits(word(bytes, FRONT + RECORD * t + NORMAL + 4 * k)));
        }
        for corner in 0..3 {
            ids.push(3 * t as u32 + corner);
        }
    }
    Ok(plain(UNIT, &vertices, &ids))
}

/// One triangle as it is stored. Floats are in bits: there a NaN is a word like any other.
#[derive(Clone, Copy, Debug, Default, PartialEq)]
pub struct Triangle {
    pub normal: [u32; 3],
    pub corners: [u32; 9],
    pub attribute: u16,
}

/// A file under construction: what it holds, and what its count says.
#[derive(Clone, Debug)]
pub struct Stl {
    pub header: [u8; HEADER],
    pub count: [u8; 4],
    pub triangles: Vec<Triangle>,
}

impl Stl {
    /// Nothing but corners, in an empty header.
    pub fn of(corners: &[[f32; 9]]) -> Stl {
        let bare = |corners: &[f32; 9]| Triangle { corners: corners.map(f32::to_bits), ..Triangle::default() };
        Stl::from(corners.iter().map(bare).collect())
    }

    pub fn from(triangles: Vec<Triangle>) -> Stl {
        Stl { header: [0; HEADER], count: (triangles.len() as u32).to_le_bytes(), triangles }
    }

    pub fn bytes(&self) -> Vec<u8> {
        let mut bytes = [&self.header[..], &self.count].concat();
        for triangle in &self.triangles {
            bytes.extend(triangle.normal.iter().chain(&triangle.corners).flat_map(|bits| bits.to_le_bytes()));
            bytes.extend(triangle.attribute.to_le_bytes());
        }
        bytes
    }
}

/// The corners of the triangles whose ids are in range, in their order.
pub fn corners(shape: &Shape) -> Vec<[f32; 9]> {
    let corner = |id: u32| shape.vertices.get(3 * id as usize..3 * id as usize + 3);
    let triangle = |ids: &[u32]| {
        let [a, b, c] = [corner(ids[0])?, corner(ids[1])?, corner(ids[2])?];
        [a, b, c].concat().try_into().ok()
    };
    shape.ids.chunks_exact(3).filter_map(triangle).collect()
}
