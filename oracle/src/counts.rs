//! How many triangles were left out (02, A1): a plain reference, since the original has no such counts. It is written from 02's
//! sentences and 01's 'Triangles', and nothing of it from the port. The comparison with the original leaves the three out;
//! they are held to this.

/// Of the complete triples: used, with an id out of range, slivers. Beside a zero record all are 0.
#[derive(Clone, Copy, Debug, Default, PartialEq)]
pub struct Counts {
    pub used: u32,
    pub range: u32,
    pub sliver: u32,
}

/// Under this length a cross product is a sliver's.
pub const SHORTEST: f64 = 1e-12;

/// The counts of a full record, each by its own sentence. No length is a NaN there: no coordinate is, and none is so large that a
/// square overflows.
pub fn counts(vertices: &[f32], ids: &[u32]) -> Counts {
    let lengths: Vec<Option<f64>> = lengths(vertices, ids).collect();
    let count = |test: fn(Option<f64>) -> bool| lengths.iter().filter(|length| test(**length)).count() as u32;
    Counts {
        used: count(|length| length.is_some_and(|length| length >= SHORTEST)),
        range: count(|length| length.is_none()),
        sliver: count(|length| length.is_some_and(|length| length < SHORTEST)),
    }
}

/// The length of each complete triple's cross product; nothing where an id is out of range, which is asked first.
pub fn lengths<'a>(vertices: &'a [f32], ids: &'a [u32]) -> impl Iterator<Item = Option<f64>> + 'a {
    crosses(vertices, ids).map(|cross| cross.map(length))
}

/// The cross products themselves.
pub fn crosses<'a>(vertices: &'a [f32], ids: &'a [u32]) -> impl Iterator<Item = Option<[f64; 3]>> + 'a {
    let low = [0, 1, 2].map(|axis| least(vertices, axis));
    ids.chunks_exact(3).map(move |t| {
        let [a, b, c] = [t[0], t[1], t[2]].map(|id| corner(vertices, id, low));
        Some(cross(a?, b?, c?))
    })
}

/// The box's minimum on an axis, over complete vertices.
fn least(vertices: &[f32], axis: usize) -> f64 {
    vertices.chunks_exact(3).fold(f32::INFINITY, |least, vertex| least.min(vertex[axis])) as f64
}

/// An id i is in range when 3i + 2 < F. The corner is rebased by the box's minimum in f64.
fn corner(vertices: &[f32], id: u32, low: [f64; 3]) -> Option<[f64; 3]> {
    let first = 3 * id as u64;
    (first + 2 < vertices.len() as u64)
        .then(|| [0, 1, 2].map(|axis| vertices[first as usize + axis] as f64 - low[axis]))
}

/// Of the two sides that leave the first corner, each step rounded once.
fn cross(a: [f64; 3], b: [f64; 3], c: [f64; 3]) -> [f64; 3] {
    let (u, v) = ([0, 1, 2].map(|axis| b[axis] - a[axis]), [0, 1, 2].map(|axis| c[axis] - a[axis]));
    [(1, 2), (2, 0), (0, 1)].map(|(i, j)| u[i] * v[j] - u[j] * v[i])
}

pub fn length([x, y, z]: [f64; 3]) -> f64 {
    (x * x + y * y + z * z).sqrt()
}

/// What the meshes of a run had for the counts, so that the run says what it covered.
#[derive(Clone, Copy, Debug, Default, PartialEq)]
pub struct Met {
    /// With a full record.
    pub meshes: u64,
    pub all_used: u64,
    pub none_used: u64,
    /// With some id out of range, some sliver, and both.
    pub range: u64,
    pub sliver: u64,
    pub both: u64,
}

impl Met {
    pub fn add(&mut self, Counts { used, range, sliver }: Counts) {
        self.meshes += 1;
        self.all_used += (range == 0 && sliver == 0) as u64;
        self.none_used += (used == 0) as u64;
        self.range += (range > 0) as u64;
        self.sliver += (sliver > 0) as u64;
        self.both += (range > 0 && sliver > 0) as u64;
    }

    pub fn join(&mut self, other: &Met) {
        self.meshes += other.meshes;
        self.all_used += other.all_used;
        self.none_used += other.none_used;
        self.range += other.range;
        self.sliver += other.sliver;
        self.both += other.both;
    }

    pub fn told(&self) -> String {
        let Met { meshes, all_used, none_used, range, sliver, both } = self;
        format!(
            "{meshes}: {all_used} with all triangles used, {range} with an id out of range, {sliver} with a sliver, \
             {both} with both, {none_used} with none used"
        )
    }
}
