//! `oracle mesh-file SEED COUNT`: round trips both ways over areas of every sort, calls that have to be refused, damaged files: answers,
//! refusals and every place of the areas and of what was passed, bit for bit.

use super::areas::{Lending, Lent, Reading, Writing};
use super::capi;
use super::count::{Area, Count};
use super::damage::{damaged, name, DAMAGES};
use super::limits;
use super::meshes::{flags, mesh, Refused};
use super::promise::{read, written, Call};
use crate::compute::compare::REFUSED;
use crate::file::{write_patterns, Flags, Patterns, MOST};
use crate::random::Random;
use std::fmt::Display;

/// The two routines of a port.
#[derive(Clone, Copy)]
pub struct Port<'a> {
    pub write: &'a dyn Fn(Writing) -> u32,
    pub read: &'a dyn Fn(Reading) -> u32,
}

pub const PORT: Port<'static> = Port { write: &capi::write, read: &capi::read };

/// Kind 4 of no flags, as it stands in a file.
pub const NO_FLAGS: [u8; 8] = [2, 0, 0, 0, 4, 0, 0, 0];

/// A port's calls, what they are lent and what they come to.
struct Run<'a> {
    port: Port<'a>,
    lending: Lending,
    count: Count,
}

impl<'a> Run<'a> {
    fn new(port: Port<'a>, seed: u64) -> Run<'a> {
        Run { port, lending: Lending::new(seed), count: Count::default() }
    }

    /// One call of the writer; the file that it wrote, where it wrote one and all is right.
    fn write(&mut self, name: &dyn Display, call: &Call, room: usize) -> Option<Vec<u8>> {
        let right = written(call, room);
        let given = (self.port.write)(self.lending.to_write(call, room));
        let file = right.as_ref().ok().map(|right| self.lending.written(right.len()));
        let wrong = self.lending.settle_write(call, room, right.as_deref().unwrap_or_default());
        let answer = right.map_or_else(|number| REFUSED | number, |right| right.len() as u32);
        if given != answer || !wrong.is_empty() {
            let Call { unit, vertices, ids, clip, defect } = *call;
            let (floats, ids) = (vertices.len(), ids.len());
            let told =
                format!("unit {unit:x}, {floats} floats, {ids} ids, flags {clip:x} and {defect:x}, {room} bytes lent");
            self.count.show(name, given, answer, &wrong, &told);
            return None;
        }
        self.count.wrote(call, room, answer);
        file
    }

    /// One call of the reader; the mesh that it read, where it read one and all is right.
    fn read(&mut self, name: &dyn Display, bytes: &[u8], lent: Lent) -> Option<Patterns> {
        let right = read(bytes, lent);
        let given = (self.port.read)(self.lending.to_read(bytes, lent));
        let mesh = right.is_ok().then(|| self.lending.read(lent));
        let wrong = self.lending.settle_read(bytes, lent, right.as_ref().ok());
        let answer = right.as_ref().map_or_else(|number| REFUSED | number, |_| 0);
        if given != answer || !wrong.is_empty() {
            let head = &bytes[..bytes.len().min(40)];
            self.count.show(name, given, answer, &wrong, &format!("{lent:?}, {} bytes: {head:02x?} ..", bytes.len()));
            return None;
        }
        let behind = self.lending.nans_behind(lent, right.as_ref().map_or(0, |mesh| mesh.vertices.len()));
        self.count.read(lent, answer, behind, Area::of(bytes, lent));
        mesh
    }

    /// A mesh to a file and back.
    fn mesh_and_back(&mut self, name: &dyn Display, random: &mut Random, number: u64) {
        let mesh = mesh(random, flags(number));
        let call = Call::of(&mesh);
        let asks = call.asks();
        let short = if random.once_in(4) { random.below(asks) } else { asks - 1 };
        self.lending.elsewhere(random);
        let exact = self.write(name, &call, asks);
        let longer = self.write(name, &call, asks + more(random));
        self.write(name, &call, short);
        let Some(file) = exact.and(longer) else { return };
        let exact = Lent::exactly(&mesh);
        let lent = if random.once_in(2) { exact } else { larger(random, exact) };
        if let Some(back) = self.read(name, &file, lent) {
            self.count.trip(name, 0, back == mesh, &mesh);
        }
    }

    /// A file to a mesh and back: the same bytes where it had its kind 4, and a kind 4 behind them where it had none.
    fn file_and_back(&mut self, name: &dyn Display, random: &mut Random, number: u64) {
        let with_flags = random.once_in(2);
        let mesh = mesh(random, if with_flags { flags(number) } else { Flags::default() });
        let bytes = write_patterns(&mesh, with_flags);
        let exact = Lent::exactly(&mesh);
        self.lending.elsewhere(random);
        let one = self.read(name, &bytes, exact);
        let other = self.read(name, &bytes, larger(random, exact));
        self.read(name, &bytes, shorter(random, exact));
        let Some(back) = one.and(other) else { return };
        let call = Call::of(&back);
        let room = call.asks() + random.pick(&[0, 0, 1, 30]);
        if let Some(file) = self.write(name, &call, room) {
            let behind = if with_flags { &[][..] } else { &NO_FLAGS };
            self.count.files[with_flags as usize] += 1;
            self.count.trip(name, 1, file == [&bytes[..], behind].concat(), &mesh);
        }
    }

    fn refused(&mut self, name: &dyn Display, random: &mut Random, number: u64) {
        let refused = Refused::new(random, number);
        self.lending.elsewhere(random);
        self.write(name, &refused.call(), refused.room);
    }

    /// Over areas that hold anything, over none, and over some.
    fn damaged(&mut self, name: &dyn Display, random: &mut Random, number: u64) {
        let bytes = damaged(random, number);
        self.lending.elsewhere(random);
        let some = Lent { vertices: random.below(14), ids: random.below(14) };
        for lent in [Lent { vertices: MOST, ids: MOST }, Lent { vertices: 0, ids: 0 }, some] {
            self.read(name, &bytes, lent);
        }
    }
}

/// By how much an area is longer than it has to be: mostly little.
fn more(random: &mut Random) -> usize {
    let most = if random.once_in(16) { 20_000 } else { 40 };
    random.within(1, most) as usize
}

/// One area longer, or both.
fn larger(random: &mut Random, Lent { vertices, ids }: Lent) -> Lent {
    match random.below(4) {
        0 => Lent { vertices: vertices + more(random), ids },
        1 => Lent { vertices, ids: ids + more(random) },
        _ => Lent { vertices: vertices + more(random), ids: ids + more(random) },
    }
}

/// A float or an id short, beside an area that is exact or longer; far too short; none; the two in each other's place.
fn shorter(random: &mut Random, exact: Lent) -> Lent {
    let longer = larger(random, exact);
    let beside = if random.once_in(2) { exact } else { longer };
    match random.below(8) {
        0..=2 => Lent { vertices: exact.vertices.saturating_sub(1), ..beside },
        3..=5 => Lent { ids: exact.ids.saturating_sub(1), ..beside },
        6 => random.pick(&[Lent { vertices: 0, ids: 0 }, Lent { vertices: exact.ids, ids: exact.vertices }]),
        _ => Lent { vertices: random.below(exact.vertices + 1), ids: random.below(exact.ids + 1) },
    }
}

pub fn on_limits(port: Port, seed: u64) -> Count {
    let mut run = Run::new(port, seed);
    limits::writes(|name, call, room| drop(run.write(&name, call, room)));
    limits::reads(|name, bytes, lent| drop(run.read(&name, bytes, lent)));
    run.count
}

/// One part of a run: its name, and what it does with a number.
type Part<'a> = (&'static str, fn(&mut Run<'a>, &dyn Display, &mut Random, u64));

fn parts<'a>() -> [Part<'a>; 3] {
    [("mesh and back", Run::mesh_and_back), ("file and back", Run::file_and_back), ("refused writes", Run::refused)]
}

/// Each number by its own chance, whatever came before it.
fn on_chance<'a>(
    port: Port<'a>,
    (on, each): Part<'a>,
    at: u64,
    seed: u64,
    numbers: impl Iterator<Item = u64>,
) -> Count {
    let mut run = Run::new(port, seed.wrapping_add(at));
    for number in numbers {
        let random = &mut Random::new((seed.wrapping_mul(0x1_0000_0001) ^ at << 56).wrapping_add(number));
        each(&mut run, &format_args!("{on}, number {number} of seed {seed}"), random, number);
    }
    run.count
}

/// The limits, so many round trips each way, and as many calls of the writer that are refused and files that are damaged.
pub fn all(port: Port<'_>, seed: u64, n: u64) -> impl Iterator<Item = (&'static str, Count)> + '_ {
    let limits = [on_limits].into_iter().map(move |on| ("limits", on(port, seed)));
    let parts = parts().into_iter().zip(1..).map(move |(part, at)| (part.0, on_chance(port, part, at, seed, 0..n)));
    let damages = DAMAGES.into_iter().map(move |(kind, _)| {
        let numbers = (0..n).filter(move |number| name(*number) == kind);
        (kind, on_chance(port, (kind, Run::damaged), 9, seed, numbers))
    });
    limits.chain(parts).chain(damages)
}
