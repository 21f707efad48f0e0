//! A law about two calls of `compute`, as a property: two meshes that are asked and lent alike, what each call answered
//! and left, and whether the law holds. What a call has to leave or to clear is also held to what was there before and
//! to 0, so that both cannot spoil it alike. `moves` and `glove` have the meshes and the laws.

use crate::compute::areas::{Left, Lending, Written, CELLS, ROWS, WORDS};
use crate::compute::compare::{choices, Call, Port, Tally, OPEN_SHELL, UNKNOWN_FLAGS};
use crate::compute::editions::{self, unknown};
use crate::compute::nans::{Nans, Stayed};
use crate::counts::{Counts, Met};
use crate::file::MeshFile;
use crate::linked::bits;
use crate::random::Random;
use crate::record::{is_zero_record, Lent};
use crate::slopes::{areas, FIRST, SECOND};

pub struct Pair {
    pub here: MeshFile,
    pub there: MeshFile,
    /// Of both calls. In the interface's numbers, where any number may be passed, as for the flags.
    pub edition: u32,
    pub clip: u32,
    pub defect: u32,
    pub lent: Lent,
}

impl Pair {
    /// Over areas that are mostly exact, with flags of all kinds, seldom unknown; half of them under edition 2.
    pub fn new(here: MeshFile, there: MeshFile, random: &mut Random) -> Pair {
        let exact = Lent::exactly(here.vertices.len(), here.ids.len());
        let choices = choices(exact, true, random);
        let lent = if random.once_in(4) { random.pick(&choices) } else { exact };
        let (clip, defect) = flags(random);
        Pair { here, there, edition: edition(random), clip, defect, lent }
    }

    /// What one of the two is asked.
    fn call<'a>(&self, mesh: &'a MeshFile) -> Call<'a> {
        Call { mesh, edition: self.edition, clip: self.clip, defect: self.defect }
    }

    /// Whether edition 2 moves some area by slope of the first, by the plain form.
    fn is_moved(&self) -> bool {
        let MeshFile { unit, vertices, ids, .. } = &self.here;
        let [first, second] = [FIRST, SECOND].map(|thresholds| areas(vertices, ids, *unit, thresholds));
        bits(&first) != bits(&second)
    }
}

fn edition(random: &mut Random) -> u32 {
    match random.below(20) {
        0 => unknown(random),
        1..=9 => 1,
        _ => 2,
    }
}

fn flags(random: &mut Random) -> (u32, u32) {
    match random.below(20) {
        0 => random.pick(&UNKNOWN_FLAGS),
        1..=10 => (0, 0),
        _ => (random.below(2) as u32, random.below(5) as u32),
    }
}

// ---- outcomes

/// What a call answered, and what it left; the NaNs that it found where they had to stay, in the surface area and among
/// the vertices.
pub struct Outcome {
    pub answer: u32,
    pub left: Left,
    zero_record: bool,
    nans: [Nans; 2],
}

/// The places that a call may change, by what it answered.
fn written(answer: u32, mesh: &MeshFile, record: &[u32; WORDS]) -> Written {
    if answer != 0 {
        return Written::default();
    }
    if is_zero_record(mesh) {
        return Written { record: WORDS, ..Written::default() };
    }
    let Lent { work, raster, .. } = Lent::exactly(mesh.vertices.len(), mesh.ids.len());
    Written { record: WORDS, work, raster, surfaces: 4 * record[ROWS] as usize }
}

impl Outcome {
    fn of(port: Port, mesh: &MeshFile, pair: &Pair, lending: &mut Lending) -> Outcome {
        let (areas, record) = lending.lend(mesh, pair.lent);
        let answer = port(&pair.call(mesh), areas, record);
        let written = written(answer, mesh, record);
        let nans = [lending.nans_behind(pair.lent, written.surfaces), lending.nans_passed()];
        Outcome { answer, left: lending.take(mesh, pair.lent, written), zero_record: is_zero_record(mesh), nans }
    }

    pub fn is_full(&self) -> bool {
        self.answer == 0 && !self.zero_record
    }

    fn is_open(&self) -> bool {
        self.answer == 0 && self.left.record()[0] == OPEN_SHELL
    }
}

/// The words that may differ where both shells are open: best volume, method, trust and bound, and beside the record the covered and
/// rim cells of the three footprints (02, A3).
pub const FREE: [usize; 10] = [13, 2, 1, 15, 20, 21, 22, 23, 24, 25];

/// Those that may differ in these two. On a refusal the words are the caller's own, and none of them may, whatever word
/// 0 was.
pub fn free(here: &Outcome, there: &Outcome) -> &'static [usize] {
    if here.is_open() && there.is_open() {
        &FREE
    } else {
        &[]
    }
}

/// The first place of each area that is against a law; the number that came back is in no law, and always the same.
pub type Law = fn(&Outcome, &Outcome) -> Vec<String>;

// ---- counts

#[derive(Default)]
pub struct Count {
    pub agree: u64,
    pub differ: u64,
    /// What the pairs that agree came to, and the NaNs that they left.
    pub tally: Tally,
    pub stayed: Stayed,
    /// Under which edition they were: 1, 2 and others. Of those under 2 with full records, the ones where it moves some area.
    pub editions: [u64; 3],
    pub moved: u64,
    /// What A1's counts are in the full records of the pairs that agree, by what came back.
    pub met: Met,
    /// Of the open pairs that agree: in how many each free word differs.
    pub free: [u64; FREE.len()],
    /// In how many some covered number differs, in how many some rim number, and in how many rim numbers and no other word.
    pub covered: u64,
    pub rim: u64,
    pub rim_alone: u64,
    /// The first that differ, for a look.
    pub shown: Vec<String>,
}

const SHOWN: usize = 5;

impl Count {
    /// Both calls of a pair; what they left where the law holds.
    pub fn add(&mut self, port: Port, pair: &Pair, law: Law, lending: &mut Lending) -> Option<[Outcome; 2]> {
        let [here, there] = [&pair.here, &pair.there].map(|mesh| Outcome::of(port, mesh, pair, lending));
        let mut wrong = law(&here, &there);
        wrong.extend(here.left.wrong.iter().chain(&there.left.wrong).cloned());
        if here.answer != there.answer {
            wrong.insert(0, format!("answer {:x} and {:x}", here.answer, there.answer));
        }
        if !wrong.is_empty() {
            self.show(&wrong.join("; "), pair);
            return None;
        }
        self.agree += 1;
        let (one, other) = (here.left.record(), there.left.record());
        self.tally.add(here.answer, here.zero_record, one[0]);
        self.editions[editions::place(pair.edition)] += 1;
        self.moved += (here.is_full() && pair.edition == 2 && pair.is_moved()) as u64;
        if here.is_full() {
            self.met.add(Counts { used: one[17], range: one[18], sliver: one[19] });
        }
        for Outcome { answer, zero_record, nans: [surfaces, vertices], .. } in [&here, &there] {
            self.stayed.add(*answer, *zero_record, *surfaces, *vertices);
        }
        self.add_free(one, other);
        Some([here, there])
    }

    fn add_free(&mut self, one: [u32; WORDS], other: [u32; WORDS]) {
        let differ = FREE.map(|word| one[word] != other[word]);
        differ.iter().zip(&mut self.free).for_each(|(differ, times)| *times += *differ as u64);
        let some = |test: fn(usize) -> bool| FREE.iter().zip(differ).any(|(word, differ)| differ && test(*word));
        let is_rim = |word: usize| word > CELLS && (word - CELLS) % 2 == 1;
        let is_covered = |word: usize| word >= CELLS && (word - CELLS).is_multiple_of(2);
        self.covered += some(is_covered) as u64;
        self.rim += some(is_rim) as u64;
        self.rim_alone += (some(is_rim) && !some(is_covered) && !some(|word| word < CELLS)) as u64;
    }

    fn show(&mut self, why: &str, pair: &Pair) {
        self.differ += 1;
        if self.shown.len() < SHOWN {
            let Pair { here, there, edition, clip, defect, lent } = pair;
            let (floats, ids) = (here.vertices.len(), here.ids.len());
            self.shown.push(format!(
                "{why}; edition {edition:x}, clip {clip:x}, defect {defect:x}, {lent:?}, unit {:?}, {floats} floats {:?} and {:?}, \
                 {ids} ids {:?} and {:?}",
                here.unit,
                &here.vertices[..floats.min(30)],
                &there.vertices[..floats.min(3)],
                &here.ids[..ids.min(30)],
                &there.ids[..ids.min(3)],
            ));
        }
    }

    /// The numbers of both.
    pub fn join(&mut self, other: &Count) {
        (self.agree, self.differ) = (self.agree + other.agree, self.differ + other.differ);
        self.tally.join(&other.tally);
        self.stayed.join(&other.stayed);
        (0..3).for_each(|i| self.editions[i] += other.editions[i]);
        self.moved += other.moved;
        self.met.join(&other.met);
        (0..FREE.len()).for_each(|i| self.free[i] += other.free[i]);
        (self.covered, self.rim) = (self.covered + other.covered, self.rim + other.rim);
        self.rim_alone += other.rim_alone;
    }

    /// What the pairs that agree came to, and what else there is to count behind it.
    pub fn reached(&self, also: &[(&str, u64)]) -> String {
        let [best, method, trust, bound, ..] = self.free;
        let [first, second, unknown] = self.editions;
        let own = [
            ("under edition 1", first),
            ("under edition 2", second),
            ("under an edition that is not known", unknown),
            ("with other areas under edition 2", self.moved),
            ("open with another best volume", best),
            ("open with another method", method),
            ("open with another trust", trust),
            ("open with another bound", bound),
            ("open with other covered cells", self.covered),
            ("open with other rim cells", self.rim),
            ("open with other rim cells alone", self.rim_alone),
            ("with an id out of range", self.met.range),
            ("with a sliver", self.met.sliver),
        ];
        self.tally.told(&[&own, also].concat())
    }
}
