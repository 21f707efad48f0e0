//! The four areas by slope under each edition (02, A6): a plain form, since the original has one pair of thresholds. It is written from
//! 01's 'Triangles' and 'Slope' and 02's sentences, and nothing of it from the port. Under edition 1's pair it has to give the original's
//! four areas, and under edition 2's those of the original with two numbers changed (`mesh::second`), of every mesh that is tried.

use crate::counts::{crosses, length, SHORTEST};

/// The editions that are known.
pub const EDITIONS: [u32; 2] = [1, 2];

/// Both are above zero; what looks down is held to the opposite.
#[derive(Clone, Copy, Debug, PartialEq)]
pub struct Thresholds {
    /// For top and bottom.
    pub top: f32,
    pub side: f32,
}

pub const FIRST: Thresholds = Thresholds { top: 0.940, side: 0.342 };
pub const SECOND: Thresholds = Thresholds { top: 0.866, side: 0.5 };

/// Nothing for an edition that is not known.
pub fn thresholds(edition: u32) -> Option<Thresholds> {
    match edition {
        1 => Some(FIRST),
        2 => Some(SECOND),
        _ => None,
    }
}

/// In the order of the record's words.
#[derive(Clone, Copy, Debug, PartialEq)]
pub enum Slope {
    Top,
    Bottom,
    Side,
    Inclined,
}

impl Thresholds {
    /// By the z of a unit normal, every comparison strict.
    pub fn slope(self, nz: f32) -> Slope {
        if nz > self.top {
            Slope::Top
        } else if nz < -self.top {
            Slope::Bottom
        } else if nz.abs() < self.side {
            Slope::Side
        } else {
            Slope::Inclined
        }
    }
}

/// A triangle that is used: the z of its unit normal, and its area before the unit.
#[derive(Clone, Copy, Debug, PartialEq)]
pub struct Facet {
    pub nz: f32,
    pub area: f32,
}

/// Those of a full record, in the order of the ids. The normal is the cross product times one over its length, and each is narrowed once.
pub fn facets<'a>(vertices: &'a [f32], ids: &'a [u32]) -> impl Iterator<Item = Facet> + 'a {
    let used = crosses(vertices, ids).flatten().map(|cross| (cross[2], length(cross)));
    let used = used.filter(|(_, length)| *length >= SHORTEST);
    used.map(|(z, length)| Facet { nz: (z * (1.0 / length)) as f32, area: (0.5 * length) as f32 })
}

/// Top, bottom, side and inclined of a full record in m², by any rule: the facets of each added in f32 in their order, then times u².
pub fn areas_by(vertices: &[f32], ids: &[u32], unit: f32, slope: impl Fn(f32) -> Slope) -> [f32; 4] {
    let mut sums = [0.0f32; 4];
    facets(vertices, ids).for_each(|facet| sums[slope(facet.nz) as usize] += facet.area);
    sums.map(|area| area * (unit * unit))
}

pub fn areas(vertices: &[f32], ids: &[u32], unit: f32, thresholds: Thresholds) -> [f32; 4] {
    areas_by(vertices, ids, unit, |nz| thresholds.slope(nz))
}

/// Directions of whole numbers whose unit z, narrowed, is a threshold, a step under it or a step above, found by search. Of the two that
/// are the threshold once narrowed, the first is under its decimal before that, the second above.
pub struct Near {
    pub threshold: f32,
    pub under: [i32; 3],
    pub just: [[i32; 3]; 2],
    pub above: [i32; 3],
}

impl Near {
    /// All four, each with its z.
    pub fn all(&self) -> [(f32, [i32; 3]); 4] {
        let Near { threshold: at, under, just: [one, other], above } = *self;
        [(at.next_down(), under), (at, one), (at, other), (at.next_up(), above)]
    }
}

/// For top and side under edition 1, then under edition 2.
pub const NEAR: [Near; 4] = [
    Near { threshold: FIRST.top, under: [18, 170, 471], just: [[32, 278, 771], [43, 12, 123]], above: [170, 132, 593] },
    Near {
        threshold: FIRST.side,
        under: [288, 130, 115],
        just: [[517, 670, 308], [542, 413, 248]],
        above: [137, 235, 99],
    },
    Near {
        threshold: SECOND.top,
        under: [61, 127, 244],
        just: [[104, 221, 423], [166, 310, 609]],
        above: [51, 230, 408],
    },
    Near {
        threshold: SECOND.side,
        under: [1200, 1663, 1184],
        just: [[1145, 3372, 2056], [1391, 2089, 1449]],
        above: [671, 1289, 839],
    },
];
