//! How far a run went under each edition (02, A6): what calls came to, and what the second moves. The plain form is held to the original
//! here, mesh by mesh, and to the law between the two editions.

use super::compare::Tally;
use crate::file::MeshFile;
use crate::linked::bits;
use crate::mesh::second;
use crate::random::Random;
use crate::record::Record;
use crate::slopes::{areas, facets, Facet, Slope, Thresholds, FIRST, SECOND};

/// Editions that are not known; some would be if only their low bits were read, or their magnitude.
pub const UNKNOWN: [u32; 11] =
    [0, 3, u32::MAX, u32::MAX - 1, 0x101, 0x102, 0x1_0001, 0x1_0002, 0x8000_0000, 0x8000_0001, 0x8000_0002];

/// One of these, or any.
pub fn unknown(random: &mut Random) -> u32 {
    let any = (random.bits() as u32).max(3);
    if random.once_in(4) {
        any
    } else {
        random.pick(&UNKNOWN)
    }
}

/// Among what is counted by edition: 1, 2, and all that are not known.
pub fn place(edition: u32) -> usize {
    match edition {
        1 => 0,
        2 => 1,
        _ => 2,
    }
}

#[derive(Default)]
pub struct Editions {
    /// What the calls that agree came to under 1, under 2 and under others.
    pub tallies: [Tally; 3],
    /// The meshes with a full record, and those of them with some area by slope that is another under 2.
    pub meshes: u64,
    pub other: u64,
    /// Their facets, and those that are inclined under 1 and top, bottom and side under 2.
    pub facets: u64,
    pub moved: [u64; 3],
    /// Facets with the z of a threshold of edition 2, or of a neighbour of it: a step under, just that, a step above by magnitude.
    pub top: [u64; 3],
    pub bottom: [u64; 3],
    pub side: [u64; 3],
}

impl Editions {
    /// A mesh with a full record, which is the original's; what is wrong with the plain form, or with the law.
    pub fn meet(&mut self, mesh: &MeshFile, record: &Record) -> Vec<String> {
        let under = |thresholds: Thresholds| areas(&mesh.vertices, &mesh.ids, mesh.unit, thresholds);
        let [first, other] = [under(FIRST), under(SECOND)];
        let facets: Vec<Facet> = facets(&mesh.vertices, &mesh.ids).collect();
        self.meshes += 1;
        self.other += (bits(&first) != bits(&other)) as u64;
        facets.iter().for_each(|facet| self.add(facet));
        let mut wrong = Vec::new();
        wrong.extend(unlike("the original", first, record.slopes()));
        wrong.extend(unlike("the original with two numbers changed", other, changed(mesh)));
        wrong.extend(against_the_law(&facets, first, other));
        wrong
    }

    fn add(&mut self, Facet { nz, .. }: &Facet) {
        self.facets += 1;
        let moved = self.moved.get_mut(SECOND.slope(*nz) as usize).filter(|_| FIRST.slope(*nz) == Slope::Inclined);
        moved.into_iter().for_each(|times| *times += 1);
        let near = |at: f32, z: f32| [at.next_down(), at, at.next_up()].iter().position(|step| *step == z);
        near(SECOND.top, *nz).into_iter().for_each(|step| self.top[step] += 1);
        near(SECOND.top, -*nz).into_iter().for_each(|step| self.bottom[step] += 1);
        near(SECOND.side, nz.abs()).into_iter().for_each(|step| self.side[step] += 1);
    }

    pub fn join(&mut self, other: &Editions) {
        self.tallies.iter_mut().zip(&other.tallies).for_each(|(tally, more)| tally.join(more));
        (self.meshes, self.other) = (self.meshes + other.meshes, self.other + other.other);
        self.facets += other.facets;
        for (all, more) in [
            (&mut self.moved, other.moved),
            (&mut self.top, other.top),
            (&mut self.bottom, other.bottom),
            (&mut self.side, other.side),
        ] {
            (0..3).for_each(|i| all[i] += more[i]);
        }
    }

    pub fn told(&self) -> [String; 4] {
        let Editions { tallies, meshes, other, facets, moved: [top, bottom, side], .. } = self;
        let calls =
            |i: usize, under: &str| format!("{} calls under {under}: {}", tallies[i].sum(), tallies[i].told(&[]));
        let near = |[under, just, above]: [u64; 3]| format!("{under}, {just}, {above}");
        [
            calls(0, "edition 1, beside the original"),
            calls(1, "edition 2, areas by slope beside the plain form and all else beside the original"),
            calls(2, "editions that are not known"),
            format!(
                "areas by slope, by the plain form: under 1 the original's, under 2 those of the original with two numbers changed, in \
                 {meshes} meshes with a full record; in {other} some area is another under 2. Of {facets} facets {top} are inclined under 1 \
                 and top under 2, {bottom} bottom, {side} side, and no other moves. A z a step under 0.866, just that, a step above: {}; \
                 of -0.866 by magnitude: {}; of 0.5 by magnitude: {}",
                near(self.top),
                near(self.bottom),
                near(self.side)
            ),
        ]
    }
}

/// The areas by slope of the original with edition 2's two numbers in the place of its own.
fn changed(mesh: &MeshFile) -> [f32; 4] {
    let answer = second::compute(&mesh.vertices, &mesh.ids, mesh.unit);
    [answer.area_top_m2, answer.area_bottom_m2, answer.area_side_m2, answer.area_inclined_m2]
}

fn unlike(whose: &str, plain: [f32; 4], right: [f32; 4]) -> Option<String> {
    (bits(&plain) != bits(&right)).then(|| format!("the plain form's areas are {plain:?}, those of {whose} {right:?}"))
}

/// Nothing that is top, bottom or side under 1 is another under 2, so that inclined is no more and the others are no less.
fn against_the_law(facets: &[Facet], first: [f32; 4], second: [f32; 4]) -> Option<String> {
    let strays = |facet: &&Facet| {
        let slope = FIRST.slope(facet.nz);
        slope != Slope::Inclined && slope != SECOND.slope(facet.nz)
    };
    let stray = facets.iter().find(strays).map(|facet| format!("a z of {:?} is not what it was", facet.nz));
    let less = (0..3).any(|i| second[i] < first[i]) || second[3] > first[3];
    stray.or(less.then(|| format!("areas of {first:?} are {second:?}")))
}

#[cfg(test)]
mod tests {
    use super::*;

    /// A z that is top, and stays; one that was top and is inclined; and areas of which one is less.
    #[test]
    fn what_is_against_the_law_is_found() {
        let facet = |nz: f32| Facet { nz, area: 1.0 };
        let same = [1.0; 4];
        assert_eq!(against_the_law(&[facet(0.95), facet(0.9), facet(-0.4), facet(0.1)], same, same), None);
        for i in 0..4 {
            let [mut less, mut more] = [same; 2];
            (less[i], more[i]) = (0.5, 2.0);
            assert_eq!(against_the_law(&[], same, less).is_some(), i < 3, "{i}");
            assert_eq!(against_the_law(&[], same, more).is_some(), i == 3, "{i}");
        }
        assert!(SECOND.slope(0.95) == Slope::Top && FIRST.slope(0.9) == Slope::Inclined);
    }

    #[test]
    fn unknown_ones_are_unknown() {
        let random = &mut Random::new(1);
        let some: Vec<u32> = (0..1_000).map(|_| unknown(random)).collect();
        assert!(some.iter().chain(&UNKNOWN).all(|edition| crate::slopes::thresholds(*edition).is_none()));
        assert!(UNKNOWN.iter().all(|edition| some.contains(edition)));
        assert!(some.iter().filter(|edition| !UNKNOWN.contains(edition)).count() > 100);
    }
}
