//! Shapes to make meshes of, and what can be done to them.

use crate::random::Random;
use std::collections::HashMap;

/// Vertex floats and ids under construction.
#[derive(Clone, Debug, Default)]
pub struct Shape {
    pub vertices: Vec<f32>,
    pub ids: Vec<u32>,
}

/// 2 to the power of an exponent in f32's range.
pub const fn two_to(exponent: i32) -> f32 {
    f32::from_bits(((127 + exponent) as u32) << 23)
}

/// Every complete triple the other way round, by its last two ids; ids left over stay.
pub fn reverse(ids: &mut [u32]) {
    ids.chunks_exact_mut(3).for_each(|triangle| triangle.swap(1, 2));
}

/// Document 01's cube: vertex id = x + 2y + 4z for corners of 0 and 1.
const CUBE: [[u32; 3]; 12] = [
    [0, 2, 3],
    [0, 3, 1],
    [4, 5, 7],
    [4, 7, 6],
    [0, 1, 5],
    [0, 5, 4],
    [2, 6, 7],
    [2, 7, 3],
    [0, 4, 6],
    [0, 6, 2],
    [1, 3, 7],
    [1, 7, 5],
];

impl Shape {
    pub fn vertex(&mut self, x: f32, y: f32, z: f32) -> u32 {
        self.vertices.extend([x, y, z]);
        (self.vertices.len() / 3 - 1) as u32
    }

    pub fn triangle(&mut self, a: u32, b: u32, c: u32) {
        self.ids.extend([a, b, c]);
    }

    pub fn triangles(&self) -> usize {
        self.ids.len() / 3
    }

    /// A box between two corners; twelve triangles, outward.
    pub fn cuboid(low: [f32; 3], high: [f32; 3]) -> Shape {
        let mut shape = Shape::default();
        for corner in 0..8 {
            let at = |axis: usize| if corner >> axis & 1 == 1 { high[axis] } else { low[axis] };
            shape.vertex(at(0), at(1), at(2));
        }
        CUBE.iter().for_each(|&[a, b, c]| shape.triangle(a, b, c));
        shape
    }

    pub fn cube(side: f32) -> Shape {
        Shape::cuboid([0.0; 3], [side; 3])
    }

    pub fn tetrahedron(side: f32) -> Shape {
        let mut shape = Shape::default();
        for [x, y, z] in [[0.0, 0.0, 0.0], [side, 0.0, 0.0], [0.0, side, 0.0], [0.0, 0.0, side]] {
            shape.vertex(x, y, z);
        }
        for [a, b, c] in [[0, 2, 1], [0, 1, 3], [0, 3, 2], [1, 2, 3]] {
            shape.triangle(a, b, c);
        }
        shape
    }

    /// A triangle with its first corner at the origin whose cross product has, in f64, the length 1e-12 or that of a neighbour, a
    /// step under it (-1) or above (1). 1e-12 has 53 binary digits, and a product of two f32 has 48 at most; the difference of two
    /// products has them all, and both products are exact. With a corner below zero beside it the length is another: corners
    /// are rebased.
    pub fn at_limit(step: i32) -> Shape {
        let (c, d) = match step {
            -1 => (528.0, 979_327.0),
            0 => (21_487.0, 24_065.0),
            1 => (15_646.0, 33_049.0),
            _ => panic!("1e-12 or a neighbour"),
        };
        // 9,223,373 · 2^-63 · 1 - c · 2^-68 · d · 2^-24
        let mut shape = Shape::default();
        let a = shape.vertex(0.0, 0.0, 0.0);
        let b = shape.vertex(9_223_373.0 * two_to(-63), c * two_to(-68), 0.0);
        let c = shape.vertex(d * two_to(-24), 1.0, 0.0);
        shape.triangle(a, b, c);
        shape
    }

    /// A triangle of whole numbers with a normal of this direction, and the same turned over.
    pub fn facing([a, b, c]: [i32; 3]) -> Shape {
        let corners = [[0, 0, 0], [b, -a, 0], [c, 0, -a]].map(|corner| corner.map(|k| k as f32));
        Shape { vertices: corners.concat(), ids: vec![0, 1, 2, 0, 2, 1] }
    }

    /// An upright prism over a regular polygon; its mantle of quads, its ends as fans.
    pub fn cylinder(radius: f64, height: f64, sides: u32) -> Shape {
        let mut shape = Shape::default();
        for z in [0.0, height] {
            for i in 0..sides {
                let turn = std::f64::consts::TAU * i as f64 / sides as f64;
                shape.vertex((radius * turn.cos()) as f32, (radius * turn.sin()) as f32, z as f32);
            }
        }
        for i in 0..sides {
            let j = (i + 1) % sides;
            shape.triangle(i, j, sides + j);
            shape.triangle(i, sides + j, sides + i);
            if i > 0 && j > 0 {
                shape.triangle(0, j, i);
                shape.triangle(sides, sides + i, sides + j);
            }
        }
        shape
    }

    /// A sphere of `rings` bands of `around` triangles pairs; closed where no triangle is taken away.
    pub fn sphere(radius: f64, rings: u32, around: u32) -> Shape {
        let mut shape = Shape::default();
        let (south, north) = (shape.vertex(0.0, 0.0, -radius as f32), shape.vertex(0.0, 0.0, radius as f32));
        for ring in 1..rings {
            let up = std::f64::consts::PI * (ring as f64 / rings as f64 - 0.5);
            for i in 0..around {
                let turn = std::f64::consts::TAU * i as f64 / around as f64;
                let (x, y) = (radius * up.cos() * turn.cos(), radius * up.cos() * turn.sin());
                shape.vertex(x as f32, y as f32, (radius * up.sin()) as f32);
            }
        }
        let at = |ring: u32, i: u32| 2 + (ring - 1) * around + i % around;
        for i in 0..around {
            shape.triangle(south, at(1, i + 1), at(1, i));
            for ring in 1..rings - 1 {
                shape.triangle(at(ring, i), at(ring, i + 1), at(ring + 1, i + 1));
                shape.triangle(at(ring, i), at(ring + 1, i + 1), at(ring + 1, i));
            }
            shape.triangle(north, at(rings - 1, i), at(rings - 1, i + 1));
        }
        shape
    }

    /// A sheet of wide by deep quads over the plane, raised by `height` of the grid place.
    pub fn sheet(wide: u32, deep: u32, mut height: impl FnMut(u32, u32) -> f32) -> Shape {
        let mut shape = Shape::default();
        for y in 0..=deep {
            for x in 0..=wide {
                let z = height(x, y);
                shape.vertex(x as f32, y as f32, z);
            }
        }
        for y in 0..deep {
            for x in 0..wide {
                let a = y * (wide + 1) + x;
                shape.triangle(a, a + 1, a + wide + 2);
                shape.triangle(a, a + wide + 2, a + wide + 1);
            }
        }
        shape
    }

    /// A box of so many squares a side, each of side 1; closed.
    pub fn blocks(sides: [u32; 3]) -> Shape {
        let (mut shape, mut names) = (Shape::default(), HashMap::new());
        for axis in 0..3 {
            let (u, v) = ((axis + 1) % 3, (axis + 2) % 3);
            for at in [0, sides[axis]] {
                for (i, j) in (0..sides[u]).flat_map(|i| (0..sides[v]).map(move |j| (i, j))) {
                    let [a, b, c, d] = [(i, j), (i + 1, j), (i + 1, j + 1), (i, j + 1)].map(|(i, j)| {
                        let mut corner = [at; 3];
                        (corner[u], corner[v]) = (i, j);
                        let [x, y, z] = corner.map(|k| k as f32);
                        *names.entry(corner).or_insert_with(|| shape.vertex(x, y, z))
                    });
                    // outward: on the low side the other way round
                    let (b, d) = if at == 0 { (d, b) } else { (b, d) };
                    shape.triangle(a, b, c);
                    shape.triangle(a, c, d);
                }
            }
        }
        shape
    }

    /// The other shape beside this one, its ids after these.
    pub fn with(mut self, other: Shape) -> Shape {
        let first = (self.vertices.len() / 3) as u32;
        self.vertices.extend(other.vertices);
        self.ids.extend(other.ids.iter().map(|i| first.wrapping_add(*i)));
        self
    }

    pub fn moved(mut self, by: [f32; 3]) -> Shape {
        self.vertices.iter_mut().enumerate().for_each(|(i, v)| *v += by[i % 3]);
        self
    }

    pub fn scaled(mut self, by: [f32; 3]) -> Shape {
        self.vertices.iter_mut().enumerate().for_each(|(i, v)| *v *= by[i % 3]);
        self
    }

    /// The axes in another order: x becomes y, y becomes z, z becomes x, so many times.
    pub fn rolled(mut self, times: usize) -> Shape {
        self.vertices.chunks_exact_mut(3).for_each(|vertex| vertex.rotate_right(times % 3));
        self
    }

    /// Turned about two axes, so that no face is level.
    pub fn turned(mut self, about_z: f64, about_x: f64) -> Shape {
        for v in self.vertices.chunks_exact_mut(3) {
            let (x, y, z) = (v[0] as f64, v[1] as f64, v[2] as f64);
            let (x, y) = (x * about_z.cos() - y * about_z.sin(), x * about_z.sin() + y * about_z.cos());
            let (y, z) = (y * about_x.cos() - z * about_x.sin(), y * about_x.sin() + z * about_x.cos());
            (v[0], v[1], v[2]) = (x as f32, y as f32, z as f32);
        }
        self
    }

    /// Every triangle, or one, the other way round.
    pub fn flipped(mut self) -> Shape {
        reverse(&mut self.ids);
        self
    }

    pub fn flip(&mut self, triangle: usize) {
        self.ids.swap(3 * triangle + 1, 3 * triangle + 2);
    }

    pub fn remove(&mut self, triangle: usize) {
        self.ids.drain(3 * triangle..3 * triangle + 3);
    }

    pub fn repeat(&mut self, triangle: usize, other_way: bool) {
        let t = [self.ids[3 * triangle], self.ids[3 * triangle + 1], self.ids[3 * triangle + 2]];
        self.ids.extend(t);
        if other_way {
            self.flip(self.triangles() - 1);
        }
    }

    /// A corner of its own for every id: only a weld brings the triangles together again.
    pub fn exploded(self) -> Shape {
        let mut apart = Shape::default();
        for (n, &id) in self.ids.iter().enumerate() {
            apart.vertices.extend(&self.vertices[3 * id as usize..3 * id as usize + 3]);
            apart.ids.push(n as u32);
        }
        apart
    }

    /// The same triangles, in another order and each begun at another corner.
    pub fn shuffled(mut self, random: &mut Random) -> Shape {
        for t in (1..self.triangles()).rev() {
            let other = random.below(t + 1);
            (0..3).for_each(|k| self.ids.swap(3 * t + k, 3 * other + k));
        }
        for t in 0..self.triangles() {
            let begin = random.below(3);
            self.ids[3 * t..3 * t + 3].rotate_left(begin);
        }
        self
    }
}
