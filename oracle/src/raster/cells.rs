//! Cells on the rim (02, A3): a plain reference, since the original says no more of a footprint than its area. It is written from
//! 02's sentences over the original's loop and arithmetic, and nothing of it from the port.

use std::ops::Range;

/// Where a point lies by a triangle; the numbers are the port's.
#[derive(Clone, Copy, Debug, PartialEq, Eq)]
pub enum Place {
    Outside = 0,
    Edge = 1,
    Inside = 2,
}

pub type Point = [f32; 2];

/// The three values of the point test.
#[inline]
pub fn values(p: Point, [a, b, c]: [Point; 3]) -> [f32; 3] {
    let side = |q: Point, r: Point| (p[0] - r[0]) * (q[1] - r[1]) - (q[0] - r[0]) * (p[1] - r[1]);
    [side(a, b), side(b, c), side(c, a)]
}

/// Outside where the values have both signs; else on the edge where one is zero, of whichever sign; else inside. A NaN has no sign
/// and is no zero.
#[inline]
pub fn by_values([d, e, f]: [f32; 3]) -> Place {
    let (above, below) = (d > 0.0 || e > 0.0 || f > 0.0, d < 0.0 || e < 0.0 || f < 0.0);
    if above && below {
        Place::Outside
    } else if d == 0.0 || e == 0.0 || f == 0.0 {
        Place::Edge
    } else {
        Place::Inside
    }
}

/// The point test.
#[inline]
pub fn place(p: Point, corners: [Point; 3]) -> Place {
    by_values(values(p, corners))
}

/// A footprint's cells: covered, and of these the ones that are inside no triangle.
#[derive(Clone, Copy, Debug, Default, PartialEq)]
pub struct Cells {
    pub covered: u32,
    pub rim: u32,
}

/// How many triangles have a cell on an edge, and how many inside. A call has 32,768 at most.
#[derive(Clone, Copy, Default)]
pub struct Had {
    pub edge: u16,
    pub inside: u16,
}

impl Had {
    pub fn is_covered(self) -> bool {
        self.edge > 0 || self.inside > 0
    }

    pub fn is_rim(self) -> bool {
        self.edge > 0 && self.inside == 0
    }
}

/// The cells of one footprint, row by row, and the sides of a cell.
pub struct Grid {
    pub had: Vec<Had>,
    sides: [f32; 2],
}

impl Grid {
    pub fn cells(&self) -> Cells {
        Cells {
            covered: self.had.iter().filter(|had| had.is_covered()).count() as u32,
            rim: self.had.iter().filter(|had| had.is_rim()).count() as u32,
        }
    }

    /// The area of so many cells, as the original has it.
    pub fn area(&self, count: u32) -> f32 {
        count as f32 * self.sides[0] * self.sides[1]
    }

    /// Whether so many cells have an area that no other number of cells has: then the original's area tells its count. The area never
    /// falls where the count grows, since rounding keeps the order, so that the two neighbours are all that need a look. It is so of
    /// every area that is a normal number: counts up to 65,536 are apart by 2^-16 of themselves, and a product is off by 2^-24.
    pub fn tells(&self, count: u32) -> bool {
        let area = |count: u32| self.area(count).to_bits();
        area(count) != area(count + 1) && (count == 0 || area(count) != area(count - 1))
    }
}

const MOST_CELLS: usize = 256;

/// What each cell of a footprint is to the triangles that count, by a point test; nothing where the original takes no footprint of
/// this box.
pub fn grid(
    vertices: &[f32],
    ids: &[u32],
    axes: [usize; 2],
    u: [f32; 2],
    v: [f32; 2],
    test: impl Fn(Point, [Point; 3]) -> Place,
) -> Option<Grid> {
    let [w, h] = [u, v].map(|[low, high]| (high - low).max(0.0));
    let cell = w.max(h) / MOST_CELLS as f32;
    if w <= 0.0 || h <= 0.0 || cell <= 0.0 {
        return None;
    }
    let [nx, ny] = [w, h].map(|side| ((side / cell).ceil() as usize).clamp(1, MOST_CELLS));
    let sides = [w / nx as f32, h / ny as f32];
    let mut had = vec![Had::default(); nx * ny];
    for corners in triangles(vertices, ids, axes) {
        let columns = reached(corners.map(|corner| corner[0]), u[0], sides[0], nx);
        for row in reached(corners.map(|corner| corner[1]), v[0], sides[1], ny) {
            let cells = &mut had[row * nx..][columns.clone()];
            for (column, had) in columns.clone().zip(cells) {
                let centre = [u[0] + (column as f32 + 0.5) * sides[0], v[0] + (row as f32 + 0.5) * sides[1]];
                let place = test(centre, corners);
                had.edge += (place == Place::Edge) as u16;
                had.inside += (place == Place::Inside) as u16;
            }
        }
    }
    Some(Grid { had, sides })
}

/// The corners of each triangle that counts: its ids are in range, and its doubled area is not under 1e-12.
fn triangles<'a>(vertices: &'a [f32], ids: &'a [u32], axes: [usize; 2]) -> impl Iterator<Item = [Point; 3]> + 'a {
    let corner = move |id: u32| {
        let first = 3 * id as usize;
        (first + 2 < vertices.len()).then(|| axes.map(|axis| vertices[first + axis]))
    };
    let corners = move |t: &[u32]| Some([corner(t[0])?, corner(t[1])?, corner(t[2])?]);
    let twice = |[a, b, c]: [Point; 3]| (b[0] - a[0]) * (c[1] - a[1]) - (c[0] - a[0]) * (b[1] - a[1]);
    // a NaN is not under it, and counts
    let is_thin = move |corners: [Point; 3]| twice(corners).abs() < 1e-12;
    ids.chunks_exact(3).filter_map(corners).filter(move |corners| !is_thin(*corners))
}

/// The columns or rows of a triangle's box, clamped into the grid.
fn reached([a, b, c]: [f32; 3], low: f32, side: f32, most: usize) -> Range<usize> {
    let place = |x: f32| (((x - low) / side).floor() as isize).clamp(0, most as isize - 1) as usize;
    place(a.min(b).min(c))..place(a.max(b).max(c)) + 1
}

// ---- the footprints of a mesh

/// The axes of the z, y and x footprints.
pub const AXES: [[usize; 2]; 3] = [[0, 1], [0, 2], [1, 2]];

/// The least and the greatest coordinate on an axis.
pub fn reach(vertices: &[f32], axis: usize) -> [f32; 2] {
    vertices
        .chunks_exact(3)
        .fold([f32::INFINITY, f32::NEG_INFINITY], |[low, high], v| [low.min(v[axis]), high.max(v[axis])])
}

/// The z, y and x footprints of a mesh in its own box, as the original's prism takes them: none where the box is flat.
pub fn grids(vertices: &[f32], ids: &[u32], test: impl Fn(Point, [Point; 3]) -> Place + Copy) -> [Option<Grid>; 3] {
    let reaches = [0, 1, 2].map(|axis| reach(vertices, axis));
    let flat = reaches.iter().any(|[low, high]| low >= high);
    AXES.map(|axes| {
        let [u, v] = axes.map(|axis| reaches[axis]);
        (!flat).then(|| grid(vertices, ids, axes, u, v, test)).flatten()
    })
}

/// Their cells; 0 and 0 where none was taken.
pub fn footprints(vertices: &[f32], ids: &[u32]) -> [Cells; 3] {
    grids(vertices, ids, place).map(|grid| grid.map_or(Cells::default(), |grid| grid.cells()))
}

// ---- counts

/// What the footprints of a run had, so that the run says what it covered.
#[derive(Clone, Copy, Debug, Default, PartialEq)]
pub struct Met {
    pub footprints: u64,
    /// With a rim cell, and with no other covered cells.
    pub rim: u64,
    pub rim_alone: u64,
    /// With a cell on an edge of one triangle and inside another.
    pub inside_another: u64,
    /// With a rim cell on the edges of just two triangles, and of more.
    pub of_two: u64,
    pub of_more: u64,
    /// Covered and rim cells in all.
    pub covered: u64,
    pub rims: u64,
}

impl Met {
    pub fn add(&mut self, grid: &Grid) {
        let Cells { covered, rim } = grid.cells();
        let some = |test: fn(Had) -> bool| grid.had.iter().any(|had| test(*had)) as u64;
        self.footprints += 1;
        self.rim += (rim > 0) as u64;
        self.rim_alone += (rim > 0 && rim == covered) as u64;
        self.inside_another += some(|had| had.edge > 0 && had.inside > 0);
        self.of_two += some(|had| had.is_rim() && had.edge == 2);
        self.of_more += some(|had| had.is_rim() && had.edge > 2);
        (self.covered, self.rims) = (self.covered + covered as u64, self.rims + rim as u64);
    }

    pub fn join(&mut self, other: &Met) {
        self.footprints += other.footprints;
        self.rim += other.rim;
        self.rim_alone += other.rim_alone;
        self.inside_another += other.inside_another;
        self.of_two += other.of_two;
        self.of_more += other.of_more;
        (self.covered, self.rims) = (self.covered + other.covered, self.rims + other.rims);
    }

    pub fn told(&self) -> String {
        let Met { footprints, rim, rim_alone, inside_another, of_two, of_more, covered, rims } = self;
        format!(
            "{footprints} footprints, {covered} cells covered, {rims} of them rim cells: {rim} with a rim cell, {of_two} with one \
             on the edges of two triangles, {of_more} of more, {rim_alone} with no other covered cell; {inside_another} with a \
             cell on an edge of one triangle and inside another"
        )
    }
}
