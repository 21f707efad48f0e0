//! `oracle stl N`: both readers over areas of every sort, answers, refusals and every place of the areas and of the file; then
//! `compute` over the mesh that was read, beside the original's record of the mesh that should have been read.

use super::areas::{is_nan, Areas, Lending, Lent};
use super::capi;
use super::file::{count, read, MOST, MOST_LARGE, UNIT};
use super::kinds::{file, name, turn};
use super::limits::limits;
use crate::compute::areas::Lending as RecordLending;
use crate::compute::compare::{self as compute, REFUSED};
use crate::compute::nans::Nans;
use crate::file::MeshFile;
use crate::linked::bits;
use crate::random::Random;
use crate::record::plain;

/// At most so many triangles, and the slices of a call: what a reader answers.
pub type Read<'a> = &'a dyn Fn(usize, Areas) -> u32;

/// The two routines of a port that a mesh from a file goes through.
#[derive(Clone, Copy)]
pub struct Port<'a> {
    pub read: Read<'a>,
    pub compute: compute::Port<'a>,
}

pub const PORT: Port<'static> = Port { read: &capi::read, compute: compute::PORT };

/// The two forms: at most so many triangles.
const FORMS: [usize; 2] = [MOST, MOST_LARGE];

/// What the calls of one form that agree came to.
#[derive(Clone, Copy, Default)]
pub struct Reached {
    pub read: u64,
    /// With 3, 5 and 6.
    pub refused: [u64; 3],
}

/// What the files were, by the plain reader.
#[derive(Clone, Copy, Default)]
pub struct Files {
    /// That the program reads, and those that it refuses with 5 and 6.
    pub whole: u64,
    pub damaged: [u64; 2],
    /// Of the damaged ones, those that the large form reads.
    pub large: u64,
    /// Of the whole ones: beginning with `solid`, without a triangle, full, with a NaN, with no NaN and something infinite, with a -0.
    pub solid: u64,
    pub empty: u64,
    pub full: u64,
    pub nan: u64,
    pub infinite: u64,
    pub negative_zero: u64,
}

#[derive(Default)]
pub struct Count {
    /// The calls of the readers.
    pub agree: u64,
    pub differ: u64,
    pub forms: [Reached; 2],
    pub files: Files,
    /// NaNs that stayed bit for bit in areas of vertices: on refusals, and behind what was read.
    pub stayed: [Nans; 2],
    /// NaNs that were read: with the digits that they have in the file, and with others.
    pub nans: [u64; 2],
    /// The calls of `compute`.
    pub records: compute::Count,
    /// The first that differ, for a look.
    pub shown: Vec<String>,
}

const SHOWN: usize = 5;

/// What a call has to answer, and to leave in front of its areas.
struct Promise {
    answer: u32,
    vertices: Vec<u32>,
    ids: Vec<u32>,
}

impl Promise {
    fn of(right: &Result<MeshFile, u32>, lent: Lent) -> Promise {
        let refused = |number: u32| Promise { answer: REFUSED | number, vertices: vec![], ids: vec![] };
        match right {
            Err(number) => refused(*number),
            Ok(mesh) if !lent.holds(Lent::exactly(mesh.ids.len() / 3)) => refused(3),
            Ok(mesh) => {
                Promise { answer: mesh.ids.len() as u32 / 3, vertices: bits(&mesh.vertices), ids: mesh.ids.clone() }
            }
        }
    }
}

/// The areas to lend for a file whose count says so much: exact, longer, none; then, all or some of them, one float or id short,
/// one of them far too short or missing beside one that is longer.
fn choices(triangles: usize, all: bool, random: &mut Random) -> Vec<Lent> {
    let exact = Lent::exactly(triangles);
    let longer = Lent {
        vertices: exact.vertices + random.within(1, 40) as usize,
        ids: exact.ids + random.within(1, 20) as usize,
    };
    let mut lent = vec![exact, longer, Lent { vertices: 0, ids: 0 }];
    let mut others = vec![
        Lent { vertices: exact.vertices.saturating_sub(1), ..exact },
        Lent { ids: exact.ids.saturating_sub(1), ..exact },
        Lent { vertices: exact.vertices.saturating_sub(1), ..longer },
        Lent { ids: exact.ids.saturating_sub(1), ..longer },
        Lent { vertices: random.below(exact.vertices + 1), ..longer },
        Lent { ids: random.below(exact.ids + 1), ..longer },
        Lent { vertices: 0, ..exact },
        Lent { ids: 0, ..exact },
        // as many floats as ids are asked for, and the other way round
        Lent { vertices: exact.ids, ids: exact.vertices },
    ];
    if !all {
        (0..3).for_each(|_| lent.push(others.swap_remove(random.below(others.len()))));
        return lent;
    }
    lent.append(&mut others);
    lent
}

struct File {
    name: String,
    bytes: Vec<u8>,
}

/// All that is lent to the calls of a run.
struct Run {
    random: Random,
    readers: Lending,
    records: RecordLending,
}

impl Run {
    fn new(seed: u64) -> Run {
        Run { random: Random::new(seed), readers: Lending::new(seed), records: RecordLending::new(seed) }
    }
}

impl Count {
    /// One file; `all`: over every choice of areas.
    fn add(&mut self, port: Port, file: &File, all: bool, run: &mut Run) {
        let bytes = &file.bytes;
        let rights = FORMS.map(|most| read(bytes, most));
        self.files.add(bytes, &rights);
        let asked = count(bytes).map_or(0, |count| count as usize);
        // a count that cannot be: areas as for the triangles that would fit
        let triangles = if asked > MOST_LARGE { bytes.len() / 50 } else { asked };
        for (form, right) in rights.iter().enumerate() {
            run.readers.elsewhere(&mut run.random);
            let mut given = None;
            for lent in choices(triangles, all, &mut run.random) {
                let mesh = self.compare(port, file, form, right, lent, run);
                given = given.or(mesh);
            }
            // a mesh that both forms read has one record
            if let (Ok(right), Some(mesh), true) = (right, given, form == 0 || rights[0].is_err()) {
                self.records.hold(port.compute, &mesh, right, &mut run.random, &mut run.records);
            }
        }
    }

    /// One call; the mesh that it read, where it read one and all is right.
    fn compare(
        &mut self,
        port: Port,
        File { name, bytes }: &File,
        form: usize,
        right: &Result<MeshFile, u32>,
        lent: Lent,
        run: &mut Run,
    ) -> Option<MeshFile> {
        let promise = Promise::of(right, lent);
        let given = (port.read)(FORMS[form], run.readers.lend(bytes, lent));
        let front = Lent { vertices: promise.vertices.len(), ids: promise.ids.len() };
        let (vertices, ids) = run.readers.read(front);
        let mut wrong = run.readers.settle(bytes, lent, &promise.vertices, &promise.ids);
        if given != promise.answer {
            wrong.insert(0, format!("answer {given:x}, should be {:x}", promise.answer));
        }
        if !wrong.is_empty() {
            self.show(format!("{name}: {}; at most {}, {lent:?}, {}", wrong.join("; "), FORMS[form], told(bytes)));
            return None;
        }
        self.agree += 1;
        let nans = run.readers.nans_behind(lent, front.vertices);
        let refused = promise.answer & REFUSED > 0;
        self.stayed[!refused as usize].join(nans);
        match promise.answer & !REFUSED {
            number if refused => self.forms[form].refused[[3, 5, 6].iter().position(|n| *n == number)?] += 1,
            _ => self.forms[form].read += 1,
        }
        for (given, right) in vertices.iter().zip(&promise.vertices).filter(|(_, right)| is_nan(**right)) {
            self.nans[(given != right) as usize] += 1;
        }
        let floats: Vec<f32> = vertices.into_iter().map(f32::from_bits).collect();
        (!refused).then(|| plain(UNIT, &floats, &ids))
    }

    fn show(&mut self, line: String) {
        self.differ += 1;
        if self.shown.len() < SHOWN {
            self.shown.push(line);
        }
    }

    /// The numbers of both.
    pub fn join(&mut self, other: &Count) {
        (self.agree, self.differ) = (self.agree + other.agree, self.differ + other.differ);
        for (form, others) in self.forms.iter_mut().zip(&other.forms) {
            form.read += others.read;
            (0..3).for_each(|i| form.refused[i] += others.refused[i]);
        }
        self.files.join(&other.files);
        (0..2).for_each(|i| self.stayed[i].join(other.stayed[i]));
        (0..2).for_each(|i| self.nans[i] += other.nans[i]);
        self.records.join(&other.records);
    }

    /// Readers and records.
    pub fn sums(&self) -> [u64; 2] {
        [self.agree + self.records.agree, self.differ + self.records.differ]
    }

    /// What the calls that agree came to: each form of the reader, then the records.
    pub fn reached(&self) -> String {
        let told = |Reached { read, refused: [three, five, six] }: Reached| {
            format!("{read} read, {three} refused 3, {five} refused 5, {six} refused 6")
        };
        let [small, large] = self.forms.map(told);
        format!("{small}; large: {large}; records: {}", self.records.reached())
    }

    /// What stood in the files, the NaNs that stayed, and how far the records went.
    pub fn told(&self) -> Vec<String> {
        let [refused, behind] = self.stayed.map(|nans| format!("{} and {}", nans.signalling, nans.quiet));
        let [same, others] = self.nans;
        let nans = format!(
            "NaNs that stayed bit for bit in areas of vertices, signalling and quiet: {refused} on refusals, {behind} behind what \
             was read. NaNs that were read: {same} with the digits that they have in the file, {others} with others"
        );
        let ([counts, cells], [first, ..]) = (self.records.counted.told(), self.records.editions.told());
        vec![self.files.told(), nans, self.records.stayed.told(), counts, cells, first]
    }
}

impl Files {
    fn add(&mut self, bytes: &[u8], [small, large]: &[Result<MeshFile, u32>; 2]) {
        let mesh = match small {
            Err(number) => {
                self.damaged[(*number == 6) as usize] += 1;
                self.large += large.is_ok() as u64;
                return;
            }
            Ok(mesh) => mesh,
        };
        let some = |test: fn(&f32) -> bool| mesh.vertices.iter().any(test);
        self.whole += 1;
        self.solid += bytes.starts_with(b"solid") as u64;
        self.empty += mesh.ids.is_empty() as u64;
        self.full += (mesh.ids.len() == 3 * MOST) as u64;
        self.nan += some(|x| x.is_nan()) as u64;
        self.infinite += (some(|x| x.is_infinite()) && !some(|x| x.is_nan())) as u64;
        self.negative_zero += some(|x| x.to_bits() == 0x8000_0000) as u64;
    }

    fn join(&mut self, other: &Files) {
        self.whole += other.whole;
        (0..2).for_each(|i| self.damaged[i] += other.damaged[i]);
        self.large += other.large;
        self.solid += other.solid;
        self.empty += other.empty;
        self.full += other.full;
        self.nan += other.nan;
        self.infinite += other.infinite;
        self.negative_zero += other.negative_zero;
    }

    pub fn told(&self) -> String {
        let Files { whole, damaged: [five, six], large, solid, empty, full, nan, infinite, negative_zero } = self;
        format!(
            "files: {whole} whole and {} damaged, {five} of these refused with 5 and {six} with 6, of which the large form reads {large}. Of \
             the whole ones {solid} begin with 'solid', {empty} have no triangle, {full} have {MOST}, {nan} have a NaN, {infinite} \
             something infinite and no NaN, {negative_zero} a -0",
            five + six
        )
    }
}

/// A file's length, its count and the first of its triangles.
fn told(bytes: &[u8]) -> String {
    let first = bytes.get(84..134).unwrap_or_default();
    format!("{} bytes, count {:x?}, first triangle {first:02x?}", bytes.len(), count(bytes))
}

fn over(port: Port, seed: u64, all: bool, files: impl Iterator<Item = (String, Vec<u8>)>) -> Count {
    let (mut count, mut run) = (Count::default(), Run::new(seed));
    files.for_each(|(name, bytes)| count.add(port, &File { name, bytes }, all, &mut run));
    count
}

pub fn on_limits(port: Port) -> Count {
    over(port, 1, true, limits())
}

/// The seed of the files by chance.
pub const SEED: u64 = 5;

/// The files of one kind among N of all kinds in turn.
pub fn on_kind(port: Port, kind: &'static str, n: u64) -> Count {
    let numbers = (0..n).filter(|number| name(*number) == kind);
    let seed = 2 + kind.bytes().map(u64::from).sum::<u64>();
    over(port, seed, false, numbers.map(|number| (format!("file {number} of seed {SEED}, {kind}"), file(SEED, number))))
}

pub fn all(port: Port<'_>, n: u64) -> impl Iterator<Item = (&'static str, Count)> + '_ {
    let mut names: Vec<&str> = Vec::new();
    (0..turn()).map(name).for_each(|name| {
        if !names.contains(&name) {
            names.push(name);
        }
    });
    let chance = names.into_iter().map(move |kind| (kind, on_kind(port, kind, n)));
    [("limits", on_limits as fn(Port) -> Count)].into_iter().map(move |(name, on)| (name, on(port))).chain(chance)
}
