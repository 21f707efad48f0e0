//! Pieces once more, for the tests alone: every pair of triangles is asked whether it is joined.

pub type Triangle = [u32; 3];

pub fn triangles(ids: &[u32]) -> Vec<Triangle> {
    ids.as_chunks().0.to_vec()
}

pub fn is_distinct([a, b, c]: &Triangle) -> bool {
    a != b && b != c && c != a
}

/// The groups that these triangles make.
pub fn groups(mut left: Vec<Triangle>, joined: impl Fn(&Triangle, &Triangle) -> bool) -> Vec<Vec<Triangle>> {
    let mut groups = Vec::new();
    while let Some(first) = left.pop() {
        let (mut group, mut asked) = (vec![first], 0);
        while asked < group.len() {
            let (more, rest): (Vec<_>, Vec<_>) = left.into_iter().partition(|other| joined(&group[asked], other));
            (left, asked) = (rest, asked + 1);
            group.extend(more);
        }
        groups.push(group);
    }
    groups
}

/// The number of groups of distinct-id triangles.
pub fn pieces_by(ids: &[u32], joined: impl Fn(&Triangle, &Triangle) -> bool) -> u32 {
    groups(triangles(ids).into_iter().filter(is_distinct).collect(), joined).len() as u32
}

fn in_common(one: &Triangle, other: &Triangle) -> usize {
    one.iter().filter(|id| other.contains(id)).count()
}

/// As 02 has them (A2): any two ids of a triangle are an edge of it.
pub fn by_edges(ids: &[u32]) -> u32 {
    pieces_by(ids, |one, other| in_common(one, other) >= 2)
}

/// As 01 had them.
pub fn by_ids(ids: &[u32]) -> u32 {
    pieces_by(ids, |one, other| in_common(one, other) >= 1)
}
