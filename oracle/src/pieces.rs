//! Pieces (01, added by the port, with 02's A2: joined by edges): a plain reference, since the original has none.

use std::collections::HashMap;

/// The number of groups of distinct-id triangles, joined wherever two share an undirected edge.
pub fn pieces(ids: &[u32]) -> u32 {
    let triangles: Vec<&[u32]> = ids.chunks_exact(3).filter(|t| t[0] != t[1] && t[1] != t[2] && t[2] != t[0]).collect();
    let mut parent: Vec<usize> = (0..triangles.len()).collect();
    let mut first_with: HashMap<(u32, u32), usize> = HashMap::new();
    for (t, corners) in triangles.iter().enumerate() {
        for (from, to) in [(0, 1), (1, 2), (2, 0)].map(|(i, j)| (corners[i], corners[j])) {
            let other = *first_with.entry((from.min(to), from.max(to))).or_insert(t);
            let (a, b) = (top(&mut parent, other), top(&mut parent, t));
            parent[a.max(b)] = a.min(b);
        }
    }
    (0..parent.len()).filter(|&t| parent[t] == t).count() as u32
}

fn top(parent: &mut [usize], mut t: usize) -> usize {
    while parent[t] != t {
        parent[t] = parent[parent[t]];
        t = parent[t];
    }
    t
}
