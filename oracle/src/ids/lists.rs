//! Lists of ids to try: all short ones, shapes as they come, shapes spoilt, and ids by chance.

use super::routines::MOST_IDS;
use crate::random::Random;

/// All lists of up to nine ids out of three: with fewer than nine no chain has an edge. Then those out of more, each once
/// whatever its ids are called: a new one is the least that has not come yet. There a triangle can share no id with
/// another, one, two or all three.
pub fn all_short() -> Vec<Vec<u32>> {
    let new = |list: &[u32]| list.iter().max().map_or(0, |id| id + 1);
    let mut all = all_to_nine(|_| 2);
    all.extend(all_to_nine(new).into_iter().filter(|list| new(list) > 3));
    all
}

/// All lists of up to nine ids, each of them at most what those before it allow.
fn all_to_nine(most: impl Fn(&[u32]) -> u32) -> Vec<Vec<u32>> {
    let mut all = vec![Vec::new()];
    let mut longest = all.clone();
    for _ in 0..9 {
        longest =
            longest.iter().flat_map(|list| (0..=most(list)).map(|id| [list.as_slice(), &[id]].concat())).collect();
        all.extend(longest.iter().cloned());
    }
    all
}

// ---- shapes of at most so many triangles

/// A closed surface on a grid that wraps both ways.
pub fn torus(triangles: usize) -> Vec<u32> {
    let wide = ((triangles / 2) as f64).sqrt() as usize;
    let (wide, deep) = (wide.max(3), (triangles / 2 / wide.max(3)).max(3));
    let at = |x: usize, y: usize| (y % deep * wide + x % wide) as u32;
    let quads = (0..deep).flat_map(|y| (0..wide).map(move |x| (x, y)));
    quads
        .flat_map(|(x, y)| {
            let (a, b, c, d) = (at(x, y), at(x + 1, y), at(x + 1, y + 1), at(x, y + 1));
            [a, b, c, a, c, d]
        })
        .collect()
}

/// No two triangles share an id.
pub fn soup(triangles: usize) -> Vec<u32> {
    (0..3 * triangles as u32).collect()
}

/// All triangles share one id.
pub fn fan(triangles: usize) -> Vec<u32> {
    (1..=triangles as u32).flat_map(|i| [0, i, i + 1]).collect()
}

/// Each triangle shares two ids with the next.
pub fn strip(triangles: usize) -> Vec<u32> {
    (0..triangles as u32).flat_map(|i| if i % 2 == 0 { [i, i + 1, i + 2] } else { [i + 1, i, i + 2] }).collect()
}

const BOX: [u32; 36] =
    [0, 2, 3, 0, 3, 1, 4, 5, 7, 4, 7, 6, 0, 1, 5, 0, 5, 4, 2, 6, 7, 2, 7, 3, 0, 4, 6, 0, 6, 2, 1, 3, 7, 1, 7, 5];

/// Separate closed boxes: eight ids and twelve triangles each.
pub fn boxes(triangles: usize) -> Vec<u32> {
    (0..(triangles / 12).max(1) as u32).flat_map(|k| BOX.map(|id| 8 * k + id)).collect()
}

/// Closed boxes in a row, two at least, each sharing a corner with the next.
pub fn plinths(triangles: usize) -> Vec<u32> {
    (0..(triangles / 12).max(2) as u32).flat_map(|k| BOX.map(|id| 7 * k + id)).collect()
}

const TETRAHEDRON: [u32; 12] = [0, 1, 2, 0, 2, 3, 0, 3, 1, 1, 3, 2];

/// Closed tetrahedra in a row, each sharing one id with the next.
pub fn beads(triangles: usize) -> Vec<u32> {
    (0..(triangles / 4).max(1) as u32).flat_map(|k| TETRAHEDRON.map(|id| 3 * k + id)).collect()
}

/// Closed tetrahedra in a row, two at least, each sharing an edge with the next: it is used four times.
pub fn hinges(triangles: usize) -> Vec<u32> {
    (0..(triangles / 4).max(2) as u32).flat_map(|k| TETRAHEDRON.map(|id| 2 * k + id)).collect()
}

/// Fans of four triangles around one vertex, which is all that they have in common: closed, open, closed, ..
pub fn fans(triangles: usize) -> Vec<u32> {
    let rim = |k: u32, i: u32| 1 + 5 * k + if k.is_multiple_of(2) { i % 4 } else { i };
    (0..triangles as u32).flat_map(|t| [0, rim(t / 4, t % 4), rim(t / 4, t % 4 + 1)]).collect()
}

/// Two strips of two triangles or more that have the first vertex and the last in common, and no edge.
pub fn eye(triangles: usize) -> Vec<u32> {
    let one = strip((triangles / 2).max(2));
    let last = one.len() as u32 / 3 + 1;
    let other = one.iter().map(|&id| if id == 0 || id == last { id } else { id + last });
    one.iter().copied().chain(other).collect()
}

/// A strip whose last triangle shares an edge with its first.
pub fn ring(triangles: usize) -> Vec<u32> {
    let around = triangles.max(3) as u32;
    (0..around).flat_map(|i| [i, (i + 1) % around, (i + 2) % around]).collect()
}

/// All triangles on one edge.
pub fn book(triangles: usize) -> Vec<u32> {
    (0..triangles as u32).flat_map(|i| if i % 3 == 0 { [1, 0, i + 2] } else { [0, 1, i + 2] }).collect()
}

/// One triangle again and again, the other way round now and then.
pub fn pile(triangles: usize) -> Vec<u32> {
    (0..triangles).flat_map(|i| if i % 3 == 0 { [5, 7, 6] } else { [5, 6, 7] }).collect()
}

pub type Shape = fn(usize) -> Vec<u32>;

pub const SHAPES: [(&str, Shape); 13] = [
    ("torus", torus),
    ("soup", soup),
    ("fan", fan),
    ("boxes", boxes),
    ("strip", strip),
    ("beads", beads),
    ("book", book),
    ("pile", pile),
    ("plinths", plinths),
    ("hinges", hinges),
    ("fans", fans),
    ("eye", eye),
    ("ring", ring),
];

// ---- what is done to them

/// Other ids for the same triangles, in another order, each begun at another corner.
pub fn mixed(ids: &[u32], random: &mut Random) -> Vec<u32> {
    let most = ids.iter().copied().max().map_or(0, |id| id as usize + 1);
    let mut names: Vec<u32> = (0..most as u32).collect();
    (1..most).rev().for_each(|i| names.swap(i, random.below(i + 1)));
    let mut triangles: Vec<[u32; 3]> =
        ids.chunks_exact(3).map(|t| [t[0], t[1], t[2]].map(|id| names[id as usize])).collect();
    (1..triangles.len()).rev().for_each(|i| triangles.swap(i, random.below(i + 1)));
    triangles.iter_mut().for_each(|t| t.rotate_left(random.below(3)));
    triangles.concat()
}

/// Ids that reach to the end of u32, the same triangles.
fn raised(ids: &mut [u32], random: &mut Random) {
    match random.below(3) {
        0 => ids.iter_mut().for_each(|id| *id = u32::MAX - *id),
        1 => ids.iter_mut().for_each(|id| *id = id.wrapping_mul(0x0001_0001).wrapping_add(0x8000_0000)),
        _ => ids.iter_mut().for_each(|id| *id = id.wrapping_mul(0x9e37_79b1)),
    }
}

/// One fault: a triangle away, turned, twice, or with an id of another; two ids made one; or ids left over.
fn spoilt(ids: &mut Vec<u32>, random: &mut Random) {
    let triangles = ids.len() / 3;
    if triangles == 0 {
        return;
    }
    let t = 3 * random.below(triangles);
    match random.below(8) {
        0 => drop(ids.drain(t..t + 3)),
        1 => ids.swap(t + 1, t + 2),
        2 => ids.extend_from_within(t..t + 3),
        3 => ids.extend([ids[t], ids[t + 2], ids[t + 1]]),
        4 => ids[t + random.below(3)] = ids[random.below(ids.len())],
        5 => ids[t + 1] = ids[t],
        6 => {
            let (one, other) = (ids[t], ids[random.below(ids.len())]);
            ids.iter_mut().filter(|id| **id == one).for_each(|id| *id = other);
        }
        _ => (0..random.within(1, 2)).for_each(|_| ids.push(random.below(9) as u32)),
    }
}

/// A list by chance: mostly short, now and then some thousand ids.
pub fn by_chance(random: &mut Random) -> Vec<u32> {
    let triangles = match random.below(2000) {
        0 => random.below(3000),
        1..=40 => random.below(200),
        _ => random.below(14),
    };
    let mut ids = if random.once_in(3) {
        let among = random.within(1, 9) as usize;
        (0..3 * triangles).map(|_| random.below(among) as u32).collect()
    } else {
        let (_, shape) = random.pick(&SHAPES);
        shape(triangles)
    };
    for _ in 0..random.below(4) {
        spoilt(&mut ids, random);
    }
    if random.once_in(3) {
        ids = mixed(&ids, random);
    }
    if random.once_in(4) {
        raised(&mut ids, random);
    }
    if random.once_in(4) {
        ids.extend((0..random.within(1, 2)).map(|_| random.bits() as u32));
    }
    ids
}

/// Every shape at the limit, below it and one id above it; spoilt, mixed and raised. Then lists of any length up to there, of
/// ids by chance.
pub fn large(random: &mut Random) -> Vec<Vec<u32>> {
    let mut lists = Vec::new();
    for (_, shape) in SHAPES {
        for length in [MOST_IDS, MOST_IDS - 1, MOST_IDS - 3, 65_536, 49_152, 30_000, 9_999] {
            let mut ids = shape(length / 3);
            spoilt(&mut ids, random);
            ids.resize(length, 7);
            lists.push(ids);
        }
        let mut ids = mixed(&shape(MOST_IDS / 3), random);
        lists.push(ids.clone());
        raised(&mut ids, random);
        lists.push(ids.clone());
        ids.resize(MOST_IDS + 1, 3);
        lists.push(ids);
    }
    for _ in 0..60 {
        let among = random.pick(&[2, 100, 5_000, 40_000, 1 << 32]);
        let length = random.below(MOST_IDS + 2);
        lists.push((0..length).map(|_| random.below(among) as u32).collect());
    }
    lists
}
