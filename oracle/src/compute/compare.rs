//! `oracle compute N`: refusals, every word of the record, every row, every place of the three lent areas, and that the mesh that was
//! passed is as it was; under edition 1, under edition 2, and under editions that are not known. Floats are compared by their bits, a
//! NaN's too, and the NaNs that had to stay are counted. The last nine words, A1's counts and A3's cells, are held to the plain
//! references, and so are the four areas by slope under edition 2 (A6); all others are the original's.

use super::areas::{Areas, Fronts, Lending, WORDS};
use super::capi;
use super::counted::Counted;
use super::editions::{self, Editions, UNKNOWN};
use super::meshes::{by_chance, kinds, large, limits};
use super::nans::Stayed;
use crate::file::{MeshFile, DEFECTS};
use crate::random::Random;
use crate::record::{compute, compute_under, is_zero_record, Answer, Exception, Lent, Record};
use crate::slopes::EDITIONS;

/// What a call is asked: the mesh, the edition, and its flags in the interface's numbers, where any number may be passed.
pub struct Call<'a> {
    pub mesh: &'a MeshFile,
    pub edition: u32,
    pub clip: u32,
    pub defect: u32,
}

pub type Port<'a> = &'a dyn Fn(&Call, Areas, &mut [u32; WORDS]) -> u32;

pub const PORT: Port<'static> = &capi::compute;

impl<'a> Call<'a> {
    /// A mesh with its own flags.
    pub fn of(mesh: &'a MeshFile, edition: u32) -> Call<'a> {
        Call { mesh, edition, clip: mesh.flags.clip as u32, defect: mesh.flags.defect as u32 }
    }
}

/// What calls came to: refusals 1 to 7, of which `compute` has no 6, zero records, and full records that are closed, open and
/// degenerate.
#[derive(Default)]
pub struct Tally {
    pub refused: [u64; 7],
    pub zero: u64,
    pub verdicts: [u64; 3],
}

impl Tally {
    /// What came back, and of a record whether it is the zero record, and its quality.
    pub fn add(&mut self, answer: u32, zero_record: bool, quality: u32) {
        match answer {
            0 if zero_record => self.zero += 1,
            0 => self.verdicts[quality as usize] += 1,
            _ => self.refused[(answer & !REFUSED) as usize - 1] += 1,
        }
    }

    pub fn join(&mut self, other: &Tally) {
        (0..7).for_each(|i| self.refused[i] += other.refused[i]);
        (0..3).for_each(|i| self.verdicts[i] += other.verdicts[i]);
        self.zero += other.zero;
    }

    pub fn sum(&self) -> u64 {
        self.refused.iter().chain(&self.verdicts).sum::<u64>() + self.zero
    }

    /// In words, and what else there is to count behind it; what never came is left out.
    pub fn told(&self, also: &[(&str, u64)]) -> String {
        let refused = self.refused.iter().enumerate().map(|(i, times)| (format!("refused {}", i + 1), *times));
        let verdicts = QUALITIES.iter().zip(self.verdicts).map(|(name, times)| (name.to_string(), times));
        let also = also.iter().map(|(name, times)| (name.to_string(), *times));
        let all = refused.chain([("zero record".to_string(), self.zero)]).chain(verdicts).chain(also);
        all.filter(|(_, times)| *times > 0)
            .map(|(name, times)| format!("{times} {name}"))
            .collect::<Vec<_>>()
            .join(", ")
    }
}

#[derive(Default)]
pub struct Count {
    pub agree: u64,
    pub differ: u64,
    /// What the calls that agree came to, and the NaNs that they left.
    pub tally: Tally,
    pub stayed: Stayed,
    pub counted: Counted,
    pub editions: Editions,
    /// Meshes near the one exception, and those of them where `powf` answers otherwise.
    pub near: u64,
    pub otherwise: u64,
    /// The first that differ, for a look.
    pub shown: Vec<String>,
    /// The first where `powf` answers otherwise.
    pub noted: Vec<String>,
}

const SHOWN: usize = 5;

const QUALITIES: [&str; 3] = ["closed", "open_shell", "degenerate"];
/// The quality of an open shell, word 0.
pub const OPEN_SHELL: u32 = 1;
const METHODS: [&str; 5] = ["mesh", "mesh_open", "prism_fallback", "mesh_unclipped", "mesh_profile_invalid"];

/// A refusal's number, as it comes back.
pub const REFUSED: u32 = 0x8000_0000;

fn place(of: &str, among: &[&str]) -> u32 {
    among.iter().position(|name| *name == of).expect("a word of document 01's") as u32
}

/// The record in the interface's words, and the cells beside it.
pub fn words(record: &Record) -> [u32; WORDS] {
    let [z, y, x] = record.cells;
    let profile = record.profile.map_or(0, |name| 1 + place(name, &DEFECTS.map(|defect| defect.as_str())));
    let (is_number, bound) = record.prism.map_or((0, 0), |bound| (1, bound.to_bits()));
    [
        place(record.quality, &QUALITIES),
        record.reliable as u32,
        place(record.method, &METHODS),
        profile,
        record.volume.to_bits(),
        record.aabb.to_bits(),
        record.surface.to_bits(),
        record.top.to_bits(),
        record.bottom.to_bits(),
        record.side.to_bits(),
        record.inclined.to_bits(),
        record.largest.to_bits(),
        record.smallest.to_bits(),
        record.best.to_bits(),
        is_number,
        bound,
        record.rows.len() as u32,
        record.counts.used,
        record.counts.range,
        record.counts.sliver,
        z.covered,
        z.rim,
        y.covered,
        y.rim,
        x.covered,
        x.rim,
    ]
}

/// All that documents 01 and 02 promise of one call.
struct Promise {
    answer: u32,
    /// Nothing with a refusal, else its words.
    record: Vec<u32>,
    rows: Vec<u32>,
    zeroed: (usize, usize),
    zero_record: bool,
}

impl Promise {
    fn refused(number: u32) -> Promise {
        Promise { answer: REFUSED | number, record: vec![], rows: vec![], zeroed: (0, 0), zero_record: false }
    }

    fn of(mesh: &MeshFile, answer: &Answer) -> Promise {
        let record = match answer {
            Answer::Refused(number) => return Promise::refused(*number),
            Answer::Record(record, _) => record,
        };
        let zero_record = is_zero_record(mesh);
        let exact = Lent::exactly(mesh.vertices.len(), mesh.ids.len());
        Promise {
            answer: 0,
            record: words(record).into(),
            rows: record.rows.iter().flatten().map(|x| x.to_bits()).collect(),
            zeroed: if zero_record { (0, 0) } else { (exact.work, exact.raster) },
            zero_record,
        }
    }

    fn fronts(&self) -> Fronts<'_> {
        Fronts { record: &self.record, work: self.zeroed.0, raster: self.zeroed.1, surfaces: &self.rows }
    }
}

/// Flag values, at least one of them unknown; some would be known if only their low bits were read.
pub const UNKNOWN_FLAGS: [(u32, u32); 10] = [
    (2, 0),
    (0, 5),
    (2, 5),
    (u32::MAX, u32::MAX),
    (u32::MAX, 0),
    (1, u32::MAX),
    (0x100, 1),
    (1, 0x104),
    (0x8000_0001, 4),
    (0, 0x1_0000),
];

/// Known or not.
fn any_edition(random: &mut Random) -> u32 {
    let unknown = editions::unknown(random);
    random.pick(&[1, 2, unknown])
}

/// The areas to lend: exact, each one short by one, all longer; then, always or now and then, several too short or longer,
/// and none at all.
pub fn choices(exact: Lent, all: bool, random: &mut Random) -> Vec<Lent> {
    let longer = |lent: Lent, random: &mut Random| Lent {
        work: lent.work + random.within(1, 17) as usize,
        raster: lent.raster + random.within(1, 300) as usize,
        surfaces: lent.surfaces + random.within(1, 17) as usize,
    };
    let mut lent = vec![exact, longer(exact, random)];
    lent.extend(exact.work.checked_sub(1).map(|work| Lent { work, ..exact }));
    lent.extend(exact.raster.checked_sub(1).map(|raster| Lent { raster, ..exact }));
    lent.extend(exact.surfaces.checked_sub(1).map(|surfaces| Lent { surfaces, ..exact }));
    if all || random.once_in(6) {
        let short = |most: usize, random: &mut Random| random.below(most + 1);
        let far = Lent {
            work: short(exact.work, random),
            raster: short(exact.raster, random),
            surfaces: short(exact.surfaces, random),
        };
        lent.push(far);
        // one of them too short, by any length, beside two that are longer
        let mut one = longer(exact, random);
        match random.below(3) {
            0 => one.work = far.work,
            1 => one.raster = far.raster,
            _ => one.surfaces = far.surfaces,
        }
        lent.push(one);
    }
    if all || random.once_in(12) {
        let none = Lent { work: 0, raster: 0, surfaces: 0 };
        lent.extend([none, Lent { work: 0, ..exact }, Lent { raster: 0, ..exact }, Lent { surfaces: 0, ..exact }]);
    }
    lent
}

impl Count {
    /// One mesh over a choice of areas under each edition, then under some that are not known, and now and then with unknown flags;
    /// `all`: over every choice, every edition and every flag.
    fn add(&mut self, port: Port, mesh: &MeshFile, all: bool, random: &mut Random, lending: &mut Lending) {
        let (exact, answer) = self.right(mesh);
        lending.elsewhere(random);
        let choices = choices(exact, all, random);
        for edition in EDITIONS {
            let promise = Promise::of(mesh, &answer.under(edition, mesh));
            self.under(port, &Call::of(mesh, edition), &promise, exact, &choices, lending);
        }
        self.under_unknown(port, mesh, all, &choices, random, lending);
        for (clip, defect) in UNKNOWN_FLAGS {
            if all || random.once_in(4 * UNKNOWN_FLAGS.len()) {
                let lent = choices[random.below(choices.len())];
                let edition = any_edition(random);
                self.compare(port, &Call { mesh, edition, clip, defect }, lent, &Promise::refused(5), lending);
            }
        }
    }

    /// A call under an edition that is known, over each of these areas; the promise is that over areas that are long enough.
    fn under(
        &mut self,
        port: Port,
        call: &Call,
        promise: &Promise,
        exact: Lent,
        choices: &[Lent],
        lending: &mut Lending,
    ) {
        for &lent in choices {
            if lent.holds(exact) {
                self.compare(port, call, lent, promise, lending);
            } else {
                // A refusal or the zero record: no second run of the original.
                let short = Promise::of(call.mesh, &compute_under(call.mesh, call.edition, lent));
                self.compare(port, call, lent, &short, lending);
            }
        }
    }

    /// Over areas that are exact and over some others, or under each that is not known over all: refusals alone, and zero records.
    fn under_unknown(
        &mut self,
        port: Port,
        mesh: &MeshFile,
        all: bool,
        choices: &[Lent],
        random: &mut Random,
        lending: &mut Lending,
    ) {
        let some = [choices[0], random.pick(choices)];
        let (editions, lent) =
            if all { (UNKNOWN.to_vec(), choices) } else { (vec![editions::unknown(random)], &some[..]) };
        for edition in editions {
            for &lent in lent {
                let promise = Promise::of(mesh, &compute_under(mesh, edition, lent));
                self.compare(port, &Call::of(mesh, edition), lent, &promise, lending);
            }
        }
    }

    /// The answer under edition 1 over exact areas, with what there is to count of it.
    fn right(&mut self, mesh: &MeshFile) -> (Lent, Answer) {
        let exact = Lent::exactly(mesh.vertices.len(), mesh.ids.len());
        let answer = compute(mesh, exact);
        self.note(mesh, &answer);
        if let (Answer::Record(record, _), false) = (&answer, is_zero_record(mesh)) {
            self.counted.meet(mesh, record);
            for wrong in self.editions.meet(mesh, record) {
                self.show(&wrong, &Call::of(mesh, 1), exact);
            }
        }
        (exact, answer)
    }

    /// A mesh without flags that was read from a file, held to the record of the mesh that should have been read, under edition 1: over
    /// exact areas, and now and then over others.
    pub fn hold(&mut self, port: Port, read: &MeshFile, right: &MeshFile, random: &mut Random, lending: &mut Lending) {
        let (exact, answer) = self.right(right);
        lending.elsewhere(random);
        let call = Call { mesh: read, edition: 1, clip: 0, defect: 0 };
        self.compare(port, &call, exact, &Promise::of(right, &answer), lending);
        if random.once_in(4) {
            let choices = choices(exact, true, random);
            let lent = random.pick(&choices);
            let promise = Promise::of(right, &if lent.holds(exact) { answer } else { compute(right, lent) });
            self.compare(port, &call, lent, &promise, lending);
        }
    }

    fn compare(&mut self, port: Port, call: &Call, lent: Lent, right: &Promise, lending: &mut Lending) {
        let (areas, record) = lending.lend(call.mesh, lent);
        let given = port(call, areas, record);
        let mut wrong = lending.settle(call.mesh, lent, right.fronts());
        if given != right.answer {
            wrong.insert(0, format!("answer {given:x}, should be {:x}", right.answer));
        }
        if !wrong.is_empty() {
            return self.show(&wrong.join("; "), call, lent);
        }
        self.agree += 1;
        for tally in [&mut self.tally, &mut self.editions.tallies[editions::place(call.edition)]] {
            tally.add(right.answer, right.zero_record, right.record.first().copied().unwrap_or(0));
        }
        match right.answer {
            0 if right.zero_record => self.counted.zero += 1,
            0 => {
                self.counted.full += 1;
                self.counted.open += (right.record[0] == OPEN_SHELL) as u64;
            }
            _ => {}
        }
        let (surfaces, vertices) = (lending.nans_behind(lent, right.rows.len()), lending.nans_passed());
        self.stayed.add(right.answer, right.zero_record, surfaces, vertices);
    }

    /// How the mesh stands to the one exception.
    fn note(&mut self, mesh: &MeshFile, answer: &Answer) {
        let Answer::Record(record, exception) = answer else { return };
        match exception {
            Exception::Apart => {}
            Exception::Near { changed } => {
                self.near += 1;
                self.otherwise += *changed as u64;
                if *changed && self.noted.len() < SHOWN {
                    let (s, p) = (record.surface.to_bits(), record.prism.unwrap_or(f32::NAN).to_bits());
                    self.noted.push(format!(
                        "near the one exception, powf answers otherwise: surface {s:08x}, prism {p:08x}"
                    ));
                }
            }
            Exception::Outside => {
                let exact = Lent::exactly(mesh.vertices.len(), mesh.ids.len());
                self.show("powf answers otherwise, and it is not near the one exception", &Call::of(mesh, 1), exact);
            }
        }
    }

    fn show(&mut self, why: &str, call: &Call, lent: Lent) {
        self.differ += 1;
        if self.shown.len() < SHOWN {
            let MeshFile { unit, vertices, ids, .. } = call.mesh;
            let (floats, count) = (vertices.len(), ids.len());
            self.shown.push(format!(
                "{why}; edition {:x}, clip {:x}, defect {:x}, {lent:?}, unit {unit:?}, {floats} floats {:?}, {count} ids {:?}",
                call.edition,
                call.clip,
                call.defect,
                &vertices[..floats.min(30)],
                &ids[..count.min(30)],
            ));
        }
    }

    /// The numbers of both.
    pub fn join(&mut self, other: &Count) {
        (self.agree, self.differ) = (self.agree + other.agree, self.differ + other.differ);
        (self.near, self.otherwise) = (self.near + other.near, self.otherwise + other.otherwise);
        self.tally.join(&other.tally);
        self.stayed.join(&other.stayed);
        self.counted.join(&other.counted);
        self.editions.join(&other.editions);
    }

    /// What the calls that agree came to, how the meshes stand to the one exception, how many leave triangles out, and how many
    /// footprints have a rim.
    pub fn reached(&self) -> String {
        self.tally.told(&[
            ("near the exception", self.near),
            ("where powf answers otherwise", self.otherwise),
            ("meshes with an id out of range", self.counted.met.range),
            ("meshes with a sliver", self.counted.met.sliver),
            ("footprints with a rim", self.counted.cells.rim),
            ("meshes with other areas under edition 2", self.editions.other),
        ])
    }
}

fn over(port: Port, seed: u64, all: bool, meshes: impl Iterator<Item = MeshFile>) -> Count {
    let (mut count, mut random, mut lending) = (Count::default(), Random::new(seed), Lending::new(seed));
    meshes.for_each(|mesh| count.add(port, &mesh, all, &mut random, &mut lending));
    count
}

pub fn on_large(port: Port) -> Count {
    over(port, 1, true, large().into_iter().map(|(_, mesh)| mesh))
}

pub fn on_limits(port: Port) -> Count {
    over(port, 2, true, limits())
}

/// The meshes of one kind among N of all kinds in turn.
pub fn on_kind(port: Port, kind: usize, n: u64) -> Count {
    let turns = (kind as u64..n).step_by(kinds().len());
    over(port, 3 + kind as u64, false, turns.map(|turn| by_chance(kind, turn)))
}

pub fn on_chance(port: Port<'_>, n: u64) -> impl Iterator<Item = (&'static str, Count)> + '_ {
    kinds().into_iter().enumerate().map(move |(kind, name)| (name, on_kind(port, kind, n)))
}

pub fn all(port: Port<'_>, n: u64) -> impl Iterator<Item = (&'static str, Count)> + '_ {
    let fixed = [("large", on_large as fn(Port) -> Count), ("limits", on_limits)];
    fixed.into_iter().map(move |(name, on)| (name, on(port))).chain(on_chance(port, n))
}
