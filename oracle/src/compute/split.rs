//! Separate triangles, each of a direction of its own, whose areas are chosen against the port's quick sort of the rows: it splits
//! off two at a time, until its turns are used up and the passes by gaps take over.

use crate::solids::Shape;
use std::collections::BTreeSet;

/// As in the port: parts of so many rows are left to the last pass, and there are so many turns.
const SMALL: usize = 16;
const TURNS: usize = 32;

/// A quick sort as the port's: whether its turns sufficed. `ahead` says which of two items comes first.
fn quick(items: &mut [usize], turns: usize, ahead: &mut impl FnMut(usize, usize) -> bool) -> bool {
    if items.len() <= SMALL {
        return true;
    }
    if turns == 0 {
        return false;
    }
    let middle = middle(items, ahead);
    items.swap(0, middle);
    let mut last = 0;
    for i in 1..items.len() {
        let before = ahead(items[i], items[0]);
        items.swap(last + 1, i);
        last += before as usize;
    }
    items.swap(0, last);
    let (front, behind) = items.split_at_mut(last);
    quick(front, turns - 1, ahead) && quick(&mut behind[1..], turns - 1, ahead)
}

fn middle(items: &[usize], ahead: &mut impl FnMut(usize, usize) -> bool) -> usize {
    let quarter = items.len() / 4;
    let (first, half, last) = (quarter, 2 * quarter, 3 * quarter);
    let mut precedes = |i: usize, j: usize| ahead(items[i], items[j]);
    match precedes(first, half) {
        true if precedes(half, last) => half,
        true if precedes(first, last) => last,
        true => first,
        false if precedes(first, last) => first,
        false if precedes(half, last) => last,
        false => half,
    }
}

/// The place of each of n items in an order that the sort splits badly: an item gets its place, the first one free, only when it is
/// compared with another that has none either, and the one that was compared last gets it.
pub fn bad_places(n: usize) -> Vec<usize> {
    let mut places = vec![usize::MAX; n];
    let (mut free, mut held) = (0, 0);
    let mut ahead = |x: usize, y: usize| {
        if places[x] == usize::MAX && places[y] == usize::MAX {
            places[if x == held { x } else { y }] = free;
            free += 1;
        }
        if places[x] == usize::MAX {
            held = x;
        } else if places[y] == usize::MAX {
            held = y;
        }
        places[x] < places[y]
    };
    quick(&mut (0..n).collect::<Vec<_>>(), n, &mut ahead);
    // those never held against each other follow in any order
    for place in places.iter_mut().filter(|place| **place == usize::MAX) {
        *place = free;
        free += 1;
    }
    places
}

/// Does the sort run out of turns on items with these places?
pub fn is_bad(places: &[usize]) -> bool {
    !quick(&mut (0..places.len()).collect::<Vec<_>>(), TURNS, &mut |x, y| places[x] < places[y])
}

/// Directions of which no two have the same tenths.
fn directions(n: usize) -> Vec<[f64; 3]> {
    let mut seen = BTreeSet::new();
    (0..4 * n)
        .map(|i| {
            let z = 1.0 - (2 * i + 1) as f64 / (4 * n) as f64;
            let turn = 2.399_963 * i as f64;
            let flat = (1.0 - z * z).sqrt();
            [flat * turn.cos(), flat * turn.sin(), z]
        })
        .filter(|direction| seen.insert(direction.map(|c| (10.0 * c).round() as i32)))
        .take(n)
        .collect()
}

fn cross(u: [f64; 3], v: [f64; 3]) -> [f64; 3] {
    [u[1] * v[2] - u[2] * v[1], u[2] * v[0] - u[0] * v[2], u[0] * v[1] - u[1] * v[0]]
}

/// n triangles, the first in the order being the largest.
pub fn split_badly(n: usize) -> Shape {
    let places = bad_places(n);
    let mut shape = Shape::default();
    for (i, normal) in directions(n).into_iter().enumerate() {
        let other = if normal[0].abs() < 0.6 { [1.0, 0.0, 0.0] } else { [0.0, 1.0, 0.0] };
        let side = cross(normal, other);
        let long = (2.0 + 0.02 * (n - places[i]) as f64).sqrt() / side.iter().map(|c| c * c).sum::<f64>().sqrt();
        let u = side.map(|c| c * long);
        let v = cross(normal, u);
        let corners = [[0.0; 3], u, v].map(|corner| [0, 1, 2].map(|k| (corner[k] + 3.0 * normal[k]) as f32));
        let [a, b, c] = corners.map(|corner| shape.vertex(corner[0], corner[1], corner[2]));
        shape.triangle(a, b, c);
    }
    shape
}
