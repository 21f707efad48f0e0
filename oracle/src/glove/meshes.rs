//! Pairs of meshes that the glove speaks of: any mesh, and the same with the last two ids of every complete triple
//! swapped.

use crate::compute::meshes;
use crate::file::MeshFile;
use crate::pairs::Pair;
use crate::random::Random;
use crate::record::{original, plain};
use crate::solids::{reverse, Shape};

type Own = (&'static str, fn(&mut Random) -> Shape);

/// Beside the kinds of `compute`: open shells that differ in what may differ.
const OWN: [Own; 2] = [("fractions", fractions), ("between_bounds", between_bounds)];

/// The names of all kinds.
pub fn kinds() -> Vec<&'static str> {
    meshes::kinds().into_iter().chain(OWN.map(|(name, _)| name)).collect()
}

/// A mesh of a kind; the same for the same turn.
pub fn mesh(kind: usize, turn: u64) -> MeshFile {
    let shared = meshes::kinds().len();
    if kind < shared {
        return meshes::by_chance(kind, turn);
    }
    let shape = OWN[kind - shared].1(&mut Random::new(turn));
    plain(1.0, &shape.vertices, &shape.ids)
}

/// The mesh with every triangle turned over; ids left over stay.
pub fn reversed(mesh: &MeshFile) -> MeshFile {
    let mut other = mesh.clone();
    reverse(&mut other.ids);
    other
}

/// A mesh and its reverse.
pub fn pair(here: MeshFile, random: &mut Random) -> Pair {
    let there = reversed(&here);
    Pair::new(here, there, random)
}

// ---- kinds of their own

/// A triangle with corners at few fractions, in a cube of side 1. From each side its edges run through centres of
/// cells. Whether such a cell is covered is up to the rounding of the point test, which takes its distances from one
/// end of an edge, and from the other end once two corners have changed places.
fn fraction(random: &mut Random) -> Shape {
    let parts = random.pick(&[3, 5, 6, 7, 9, 10]);
    let vertices = (0..9).map(|_| random.within(0, parts) as f32 / parts as f32).collect();
    Shape { vertices, ids: vec![0, 1, 2] }
}

fn fractions(random: &mut Random) -> Shape {
    let more = random.pick(&[0, 0, 0, 1]);
    (0..more).fold(fraction(random), |shape, _| shape.with(fraction(random)))
}

/// Such a triangle, and on it a part of it, its own way round or the other: no cell is covered that was not, and the
/// volume is chosen. It lies between 1.05 of the bound and 1.05 of the bound when reversed, if these differ.
fn between_bounds(random: &mut Random) -> Shape {
    let mut shape = fraction(random);
    let [here, there] = [&shape, &shape.clone().flipped()].map(|shape| original(&shape.vertices, &shape.ids, 1.0));
    let bound = |bound: Option<f32>| 1.05 * bound.unwrap_or(0.0) as f64;
    let middle = (bound(here.prism) + bound(there.prism)) / 2.0;
    let share = middle / here.volume.abs() as f64 - 1.0;
    if share.abs() < 1.0 {
        let part = |axis: usize| {
            let [a, b] = [shape.vertices[axis], shape.vertices[3 + axis]].map(f64::from);
            (a + share.abs() * (b - a)) as f32
        };
        let d = shape.vertex(part(0), part(1), part(2));
        shape.triangle(0, d, 2);
        if share < 0.0 {
            shape.flip(1);
        }
    }
    shape
}
