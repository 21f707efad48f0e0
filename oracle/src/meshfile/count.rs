//! What the calls of `oracle mesh-file` came to, and what they were of.

use super::areas::Lent;
use super::promise::{counts, Call};
use crate::compute::compare::REFUSED;
use crate::compute::nans::Nans;
use crate::file::{patterns, Patterns, MOST};
use std::collections::BTreeSet;
use std::fmt::Display;

const SHOWN: usize = 5;

/// The answers of one routine.
#[derive(Clone, Copy, Default)]
pub struct Answers {
    pub done: u64,
    /// With 3, 5 and 6.
    pub refused: [u64; 3],
}

impl Answers {
    fn add(&mut self, answer: u32) {
        match answer {
            0x8000_0003 => self.refused[0] += 1,
            0x8000_0005 => self.refused[1] += 1,
            0x8000_0006 => self.refused[2] += 1,
            _ => self.done += 1,
        }
    }

    fn told(&self, done: &str) -> String {
        let [three, five, six] = self.refused;
        format!("{} {done}, {three} refused 3, {five} refused 5, {six} refused 6", self.done)
    }
}

/// How the areas of a call stand to what it asks for, were it not for other faults.
#[derive(Clone, Copy, PartialEq)]
pub enum Area {
    Exact,
    Longer,
    /// One of two areas is one place short, and no other is.
    OneShort,
    Shorter,
    None,
}

impl Area {
    fn of_room(room: usize, asks: usize) -> Area {
        match room {
            0 => Area::None,
            _ if room + 1 == asks => Area::OneShort,
            _ if room < asks => Area::Shorter,
            _ if room == asks => Area::Exact,
            _ => Area::Longer,
        }
    }

    /// Of a file that can be read, where something is asked for.
    pub fn of(bytes: &[u8], lent: Lent) -> Option<Area> {
        let exact = Lent::exactly(&patterns(bytes).ok()?);
        let short = [exact.vertices.saturating_sub(lent.vertices), exact.ids.saturating_sub(lent.ids)];
        Some(match short {
            [0, 0] if lent == exact => Area::Exact,
            [0, 0] => Area::Longer,
            _ if lent == (Lent { vertices: 0, ids: 0 }) => Area::None,
            [1, 0] | [0, 1] => Area::OneShort,
            _ => Area::Shorter,
        })
    }
}

/// What round trips were of.
#[derive(Clone, Default)]
pub struct Met {
    /// The lengths of the floats and of the ids, and how often they were 0, 1, 1,535 and 1,536.
    pub lengths: [BTreeSet<usize>; 2],
    pub ends: [[u64; 4]; 2],
    /// Each pair of flags: clip 0 with defect 0 to 4, then clip 1.
    pub flags: [u64; 10],
    /// Among the floats, and in the unit.
    pub nans: Nans,
    pub units: Nans,
    /// Floats that are infinite, and that are -0.
    pub infinite: u64,
    pub negative_zero: u64,
}

impl Met {
    fn add(&mut self, mesh: &Patterns) {
        let [floats, ids, unit, clip, defect] = counts(mesh);
        for (list, length) in [floats, ids].into_iter().enumerate() {
            let length = length as usize;
            self.lengths[list].insert(length);
            if let Some(end) = [0, 1, MOST - 1, MOST].iter().position(|end| *end == length) {
                self.ends[list][end] += 1;
            }
        }
        self.flags[(5 * clip + defect) as usize] += 1;
        self.nans.join(Nans::among(&mesh.vertices));
        self.units.join(Nans::among(&[unit]));
        for bits in &mesh.vertices {
            self.infinite += (bits & 0x7fff_ffff == 0x7f80_0000) as u64;
            self.negative_zero += (*bits == 0x8000_0000) as u64;
        }
    }

    fn join(&mut self, other: &Met) {
        for list in 0..2 {
            self.lengths[list].extend(&other.lengths[list]);
            add(&mut self.ends[list], &other.ends[list]);
        }
        add(&mut self.flags, &other.flags);
        self.nans.join(other.nans);
        self.units.join(other.units);
        (self.infinite, self.negative_zero) =
            (self.infinite + other.infinite, self.negative_zero + other.negative_zero);
    }
}

fn add(to: &mut [u64], more: &[u64]) {
    to.iter_mut().zip(more).for_each(|(to, more)| *to += more);
}

fn listed(numbers: &[u64]) -> String {
    numbers.iter().map(u64::to_string).collect::<Vec<_>>().join(", ")
}

#[derive(Clone, Default)]
pub struct Count {
    /// Calls.
    pub agree: u64,
    /// Calls, and round trips whose calls agree.
    pub differ: u64,
    pub writes: Answers,
    pub reads: Answers,
    /// Calls of the writer by their faults: 1 for flags, 2 for too many, 4 for an area too short.
    pub faults: [u64; 8],
    /// Areas as `Area` names them: of calls of the writer with no fault but theirs, and of the reader on files that can be read.
    pub rooms: [u64; 5],
    pub areas: [u64; 5],
    /// Files refused with 5 and with 6 over areas of nothing.
    pub first: [u64; 2],
    /// Round trips that hold: from a mesh and from a file; of the latter, without a kind 4 and with.
    pub trips: [u64; 2],
    pub files: [u64; 2],
    pub met: Met,
    /// NaNs that stayed bit for bit in the reader's areas: on refusals, and behind what was read.
    pub stayed: [Nans; 2],
    /// The first that differ, for a look.
    pub shown: Vec<String>,
}

impl Count {
    pub fn wrote(&mut self, call: &Call, room: usize, answer: u32) {
        self.agree += 1;
        self.writes.add(answer);
        let [flags, many, short] = call.faults(room);
        self.faults[flags as usize + 2 * many as usize + 4 * short as usize] += 1;
        if !flags && !many {
            self.rooms[Area::of_room(room, call.asks()) as usize] += 1;
        }
    }

    pub fn read(&mut self, lent: Lent, answer: u32, behind: Nans, area: Option<Area>) {
        self.agree += 1;
        self.reads.add(answer);
        self.stayed[(answer < REFUSED) as usize].join(behind);
        match area {
            Some(area) => self.areas[area as usize] += 1,
            None if lent == (Lent { vertices: 0, ids: 0 }) => self.first[(answer == REFUSED | 6) as usize] += 1,
            None => {}
        }
    }

    pub fn trip(&mut self, name: &dyn Display, way: usize, holds: bool, mesh: &Patterns) {
        if !holds {
            self.differ(format!("{name}: another one comes back"));
            return;
        }
        self.trips[way] += 1;
        self.met.add(mesh);
    }

    pub fn show(&mut self, name: &dyn Display, given: u32, answer: u32, wrong: &[String], told: &str) {
        let wrong = wrong.join("; ");
        self.differ(format!("{name}: answer {given:x}, should be {answer:x}; {wrong}; {told}"));
    }

    fn differ(&mut self, line: String) {
        self.differ += 1;
        if self.shown.len() < SHOWN {
            self.shown.push(line);
        }
    }

    /// The numbers of both.
    pub fn join(&mut self, other: &Count) {
        (self.agree, self.differ) = (self.agree + other.agree, self.differ + other.differ);
        for (to, more) in [(&mut self.writes, &other.writes), (&mut self.reads, &other.reads)] {
            to.done += more.done;
            add(&mut to.refused, &more.refused);
        }
        add(&mut self.faults, &other.faults);
        add(&mut self.rooms, &other.rooms);
        add(&mut self.areas, &other.areas);
        add(&mut self.first, &other.first);
        add(&mut self.trips, &other.trips);
        add(&mut self.files, &other.files);
        self.met.join(&other.met);
        (0..2).for_each(|i| self.stayed[i].join(other.stayed[i]));
    }

    /// What the calls that agree came to.
    pub fn reached(&self) -> String {
        let parts = [(&self.writes, "written"), (&self.reads, "read")];
        let parts = parts.iter().filter(|(answers, _)| answers.done + answers.refused.iter().sum::<u64>() > 0);
        parts.map(|(answers, done)| answers.told(done)).collect::<Vec<_>>().join("; ")
    }

    /// Round trips, faults in their order, areas, meshes, NaNs.
    pub fn told(&self) -> Vec<String> {
        let ([meshes, files], [without, with]) = (self.trips, self.files);
        let [_, flags, many, both, short, flags_short, many_short, all] = self.faults;
        let [five, six] = self.first;
        let areas = |[exact, longer, one, shorter, none]: [u64; 5]| {
            format!("{exact} exact, {longer} longer, {one} one place short, {shorter} shorter, {none} of nothing")
        };
        let nans = |nans: Nans| format!("{} and {}", nans.signalling, nans.quiet);
        let Met { lengths, ends, flags: pairs, nans: floats, units, infinite, negative_zero } = &self.met;
        let [refused, behind] = self.stayed.map(nans);
        vec![
            format!(
                "round trips: {meshes} from a mesh, {files} from a file, {with} of these with a kind 4 and {without} without, to \
                 which one of no flags is added"
            ),
            format!(
                "the writer's faults: 5 for flags alone {flags}, with too many {both}, with an area too short {flags_short}, with both \
                 {all}; 6 for too many alone {many}, with an area too short {many_short}; 3 alone {short}"
            ),
            format!(
                "areas: the writer's {}; the reader's {}; files refused over areas of nothing: {five} with 5, {six} with 6",
                areas(self.rooms),
                areas(self.areas)
            ),
            format!(
                "meshes that came back: floats of {} lengths, {} of 0, 1, 1535 and 1536; ids of {}, {}; the ten pairs of flags {}",
                lengths[0].len(),
                listed(&ends[0]),
                lengths[1].len(),
                listed(&ends[1]),
                listed(pairs)
            ),
            format!(
                "NaNs that came back bit for bit, signalling and quiet: {} among floats, {} in the unit; beside them {infinite} infinite \
                 and {negative_zero} of -0. NaNs that stayed in areas of vertices: {refused} on refusals, {behind} behind what was read",
                nans(*floats),
                nans(*units)
            ),
        ]
    }
}
