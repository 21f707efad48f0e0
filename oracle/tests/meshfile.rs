//! Mesh files written and read in bits: the plain writer and reader against bytes by hand and against each other; that the comparison finds
//! a writer or reader that is wrong in any one thing (`filers`); that the run reaches everything; what `replay` holds of it. What asks the
//! port itself is ignored, and says so, where it was not built.

use mowfrost_oracle::file::{length, patterns, read, write, write_patterns, Flags, Patterns, MOST};
use mowfrost_oracle::linked::bits;
use mowfrost_oracle::listing::{listing, replayed};
use mowfrost_oracle::meshfile::areas::{Lent, Reading, Writing};
use mowfrost_oracle::meshfile::compare::{all, Port, NO_FLAGS};
use mowfrost_oracle::meshfile::count::Count;
use mowfrost_oracle::meshfile::meshes::{flags, mesh};
use mowfrost_oracle::meshfile::promise::{self, written, Call};
use mowfrost_oracle::meshfile::replayed::{adler32, many};
use mowfrost_oracle::meshfile::speed;
use mowfrost_oracle::random::Random;
use mowfrost_oracle::stored::{by_hand, Stored};
use std::process::Command;
use std::sync::LazyLock;

mod filers;

use filers::{Reader, Writer, READS, WRITES};

// ---- the plain writer and reader, by hand

/// A signalling NaN for the unit, a quiet one with digits and -0, three ids, clip and defect 3.
const BYTES: [u8; 50] = [
    4, 0, 0, 0, 1, 0, 0x01, 0x02, 0x83, 0xff, // unit ff830201
    8, 0, 0, 0, 2, 0, 0x34, 0x12, 0xc0, 0x7f, 0, 0, 0, 0x80, // 7fc01234, 80000000
    12, 0, 0, 0, 3, 0, 1, 0, 0, 0, 0xff, 0xff, 0xff, 0xff, 4, 3, 2, 1, // 1, ffffffff, 01020304
    2, 0, 0, 0, 4, 0, 1, 3,
];

fn by_hand_mesh() -> Patterns {
    Patterns {
        unit: 0xff83_0201,
        vertices: vec![0x7fc0_1234, 0x8000_0000],
        ids: vec![1, u32::MAX, 0x0102_0304],
        flags: Flags { clip: true, defect: 3 },
    }
}

#[test]
fn the_bytes_are_these() {
    let mesh = by_hand_mesh();
    assert_eq!(write_patterns(&mesh, true), BYTES);
    assert_eq!(patterns(&BYTES).as_ref(), Ok(&mesh));
    assert_eq!(promise::counts(&mesh), [2, 3, 0xff83_0201, 1, 3]);
    assert_eq!((length(2, 3), length(0, 0), length(MOST, MOST)), (50, 30, 12_318));
    // without flags kind 4 may be missing, and then it is as if there were none
    let none = Patterns { flags: Flags::default(), ..mesh.clone() };
    let [short, long] = [false, true].map(|with| write_patterns(&none, with));
    assert!(short == BYTES[..42] && long[..] == [&BYTES[..42], &NO_FLAGS].concat());
    assert!(patterns(&short).as_ref() == Ok(&none) && patterns(&long).as_ref() == Ok(&none));
    // the forms with numbers are the same
    let numbers = read(&BYTES).expect("it is whole");
    assert!(bits(&numbers.vertices) == mesh.vertices && numbers.unit.to_bits() == mesh.unit);
    assert!(Patterns::of(&numbers) == mesh && write(&numbers, false) == BYTES);
}

#[test]
fn what_is_written_is_read_and_written_again() {
    let random = &mut Random::new(3);
    for number in 0..2_000 {
        let mesh = mesh(random, flags(number));
        let bytes = write_patterns(&mesh, true);
        assert_eq!(bytes.len(), length(mesh.vertices.len(), mesh.ids.len()));
        assert!(patterns(&bytes).as_ref() == Ok(&mesh), "mesh {number}");
    }
}

#[test]
fn refusals_come_in_02s_order() {
    let (none, many) = (&[][..], &[7; MOST + 1][..]);
    let told = |clip, defect, vertices, ids, room| {
        written(&Call { unit: 0, vertices, ids, clip, defect }, room).map(|file| file.len())
    };
    for (clip, defect) in [(2, 0), (0, 5), (u32::MAX, 0), (0, 0x100), (0x8000_0001, 4), (3, 9)] {
        assert_eq!(told(clip, defect, none, none, 30), Err(5), "{clip} and {defect}");
        assert_eq!(told(clip, defect, many, many, 0), Err(5), "{clip} and {defect}");
    }
    for (vertices, ids) in [(many, none), (none, many), (many, many)] {
        assert_eq!(told(0, 0, vertices, ids, 0), Err(6));
        assert_eq!(told(1, 4, vertices, ids, 20_000), Err(6));
    }
    assert_eq!(told(1, 4, none, none, 29), Err(3));
    assert_eq!(told(1, 4, none, none, 30), Ok(30));
    let full = &many[1..];
    assert_eq!(told(0, 0, full, full, 12_317), Err(3));
    assert_eq!(told(0, 0, full, full, 12_318), Ok(12_318));
    assert_eq!(told(0, 0, full, full, 70_000), Ok(12_318));
}

#[test]
fn a_file_is_refused_before_its_areas() {
    let read = |bytes: &[u8], vertices, ids| promise::read(bytes, Lent { vertices, ids }).map(|_| ());
    assert_eq!(read(&BYTES, 2, 3), Ok(()));
    assert_eq!((read(&BYTES, 1, 3), read(&BYTES, 2, 2), read(&BYTES, 0, 0)), (Err(3), Err(3), Err(3)));
    let with = |at: usize, bytes: &[u8]| [&BYTES[..at], bytes, &BYTES[at + bytes.len()..]].concat();
    for (right, bytes) in [
        (5, BYTES[..49].to_vec()),
        (5, [&BYTES[..], &[0]].concat()),
        (5, with(48, &[2])),
        (5, with(49, &[5])),
        (5, with(4, &[2])),
        (5, with(10, &[7])),
        // as many as may be, and cut; one more, cut or not; a length that is none; another kind
        (5, with(10, &[0, 0x18, 0, 0])),
        (6, with(10, &[4, 0x18, 0, 0])),
        (6, with(24, &[0xfc, 0xff, 0xff, 0xff])),
        (5, with(24, &[0xff, 0xff, 0xff, 0xff])),
        (5, with(24, &[4, 0x18, 0, 0, 2])),
    ] {
        assert_eq!((read(&bytes, 9, 9), read(&bytes, 0, 0)), (Err(right), Err(right)), "{bytes:02x?}");
    }
}

/// zlib's own numbers.
#[test]
fn the_checksum_is_zlibs() {
    assert_eq!(adler32(b""), 1);
    assert_eq!(adler32(b"Wikipedia"), 0x11e6_0398);
    assert_eq!(adler32(&[0xff; 12_318]), 3_712_413_860);
    assert_eq!(adler32(&BYTES), 3_146_319_802);
}

// ---- the comparison

fn sum(counts: impl Iterator<Item = (&'static str, Count)>) -> Count {
    counts.fold(Count::default(), |mut sum, (_, count)| {
        sum.join(&count);
        sum.shown.extend(count.shown);
        sum
    })
}

#[test]
fn the_right_way_agrees_and_reaches_everything() {
    let (write, read) = (|writing: Writing| WRITES.write(writing), |reading: Reading| READS.read(reading));
    let n = 20_000;
    let count = sum(all(Port { write: &write, read: &read }, 1, n));
    assert_eq!(count.differ, 0, "{:?}", count.shown);
    let told = format!("{}; {}", count.reached(), count.told().join("; "));
    assert_eq!((count.trips, count.files[0] + count.files[1]), ([n, n], n), "{told}");
    assert!(count.files.iter().all(|&times| times > n / 3), "{told}");
    for answers in [count.writes, count.reads] {
        assert!(answers.done > n && answers.refused.iter().all(|&times| times > n / 5), "{told}");
    }
    assert!(count.faults.iter().all(|&times| times > n / 10), "{told}");
    assert!(count.rooms.iter().chain(&count.areas).chain(&count.first).all(|&times| times > n / 50), "{told}");
    let met = &count.met;
    assert!(met.lengths.iter().all(|lengths| lengths.len() > MOST / 2), "{told}");
    assert!(met.ends.as_flattened().iter().chain(&met.flags).all(|&times| times > n / 50), "{told}");
    assert!([met.nans, met.units].iter().all(|nans| nans.signalling > n / 5 && nans.quiet > n / 5), "{told}");
    assert!(met.infinite > n / 5 && met.negative_zero > n / 5, "{told}");
    assert!(count.stayed.iter().all(|nans| nans.signalling > n && nans.quiet > n), "{told}");
}

/// The forms that are raced answer as the plain ones do.
#[test]
fn the_forms_in_the_race_are_right() {
    let answer = |answer: Result<u32, u32>| answer.unwrap_or_else(|number| 0x8000_0000 | number);
    let write = |Writing { unit, vertices, ids, clip, defect, bytes }: Writing| {
        answer(speed::write(&Call { unit, vertices, ids, clip, defect }, bytes))
    };
    let read = |Reading { bytes, vertices, ids, counts }: Reading| {
        answer(speed::read(bytes, vertices, ids, counts).map(|()| 0))
    };
    let count = sum(all(Port { write: &write, read: &read }, 2, 5_000));
    assert_eq!(count.differ, 0, "{:?}", count.shown);
}

/// Few round trips: most are found at the limits.
fn found(writer: &Writer, reader: &Reader) -> bool {
    let (write, read) = (|writing: Writing| writer.write(writing), |reading: Reading| reader.read(reading));
    let mut counts = all(Port { write: &write, read: &read }, 4, 300);
    counts.any(|(_, count)| count.differ > 0)
}

#[test]
fn wrong_writers_are_found() {
    assert!(!found(&WRITES, &READS));
    for (why, wrong) in filers::wrong_writers() {
        assert!(found(&wrong, &READS), "{why}");
    }
}

#[test]
fn wrong_readers_are_found() {
    for (why, wrong) in filers::wrong_readers() {
        assert!(found(&WRITES, &wrong), "{why}");
    }
}

#[test]
fn the_same_seed_has_the_same_run() {
    let (write, read) = (|writing: Writing| WRITES.write(writing), |reading: Reading| READS.read(reading));
    let told = |seed: u64| sum(all(Port { write: &write, read: &read }, seed, 500)).told().join("; ");
    assert!(told(5) == told(5) && told(5) != told(6));
}

#[test]
#[cfg_attr(
    not(port),
    ignore = "the port's libraries were not built: at the root, tools/staticlib capi and tools/staticlib probe"
)]
fn every_round_trip_agrees() {
    use mowfrost_oracle::meshfile::compare::PORT;
    let count = sum(all(PORT, 8, 50_000));
    assert_eq!((count.differ, count.trips), (0, [50_000; 2]), "{:?}", count.shown);
}

#[test]
fn the_commands_say_what_is_missing() {
    let code = |words: &[&str]| {
        let out = Command::new(env!("CARGO_BIN_EXE_oracle")).args(words).output().expect("it starts");
        out.status.code()
    };
    for words in [&["mesh-file"][..], &["mesh-file", "1"], &["mesh-file", "x", "1"], &["mesh-file", "1", "-1"]] {
        assert_eq!(code(words), Some(2), "{words:?}");
    }
}

// ---- what `replay` holds

static STORED: LazyLock<Vec<Stored>> = LazyLock::new(by_hand);

/// How each file is written back, by a checksum that is none of the oracle's: lengths and numbers by hand and by zlib.
#[test]
fn a_line_has_the_file_written_back() {
    let line = |name: &str| {
        let stored = STORED.iter().find(|stored| stored.name.starts_with(name)).expect("there is one");
        let (listing, text) = (listing(&stored.bytes).0, replayed(&stored.bytes).0);
        match text.strip_prefix(&listing).expect("the listing is first").lines().collect::<Vec<_>>()[..] {
            [chain, written] if chain.starts_with("chain ") => written.to_string(),
            ref others => panic!("{name}: {others:?}"),
        }
    };
    // the same bytes with kind 4 and without
    assert_eq!(line("the cube"), "written 270 3938583870 short 3");
    assert_eq!(line("the cube with kind 4"), line("the cube"));
    assert_eq!(line("floats and ids of no length"), "written 30 17694737 short 3");
    assert_eq!(line("a5: nothing, the unit a quiet NaN"), "written 30 757989896 short 3");
    assert!(line("a5: full").starts_with("written 12318 ") && line("full: 1,536 floats").starts_with("written 12318 "));
    // a refusal of the mesh is none of the file
    assert!(line("a closed shell, unit and float bad").starts_with("written 126 "));
    let written = STORED.iter().filter(|stored| replayed(&stored.bytes).0.contains("\nwritten ")).count();
    assert_eq!(written, STORED.iter().filter(|stored| read(&stored.bytes).is_ok()).count());
    assert_eq!(many(), "many 6 6\n");
}

/// What A5 is tried on: each sort of file that the crate should hold.
#[test]
fn the_files_that_are_written_back_are_of_every_sort() {
    let all: Vec<_> = STORED.iter().filter(|stored| stored.name.starts_with("a5: ")).collect();
    assert!(all.len() <= 15, "{}", all.len());
    let meshes: Vec<_> = all.iter().map(|stored| (patterns(&stored.bytes).expect("it is whole"), stored)).collect();
    let some = |test: &dyn Fn(&Patterns, bool) -> bool| {
        let with_flags = |mesh: &Patterns, bytes: &[u8]| bytes.len() == length(mesh.vertices.len(), mesh.ids.len());
        meshes.iter().any(|(mesh, stored)| test(mesh, with_flags(mesh, &stored.bytes)))
    };
    for sort in [0x7f80_0000, 0x7fc0_0000, 0xff80_0000, 0xffc0_0000u32] {
        let of = |bits: &u32| bits & 0xffc0_0000 == sort && bits & 0x003f_ffff > 0;
        for with_flags in [false, true] {
            assert!(some(&|mesh, with| with == with_flags && mesh.vertices.iter().any(of)), "{sort:x}, {with_flags}");
        }
    }
    let (nan, none) = (|bits: u32| bits & 0x7fff_ffff > 0x7f80_0000, Flags::default());
    assert!(some(&|mesh, with| nan(mesh.unit) && !with) && some(&|mesh, with| nan(mesh.unit) && with));
    assert!(some(&|mesh, with| with && mesh.flags == none) && some(&|mesh, _| mesh.flags.clip));
    assert!(some(&|mesh, _| mesh.flags == Flags { clip: false, defect: 3 }));
    assert!(some(&|mesh, _| mesh.vertices.is_empty() && mesh.ids.is_empty()));
    assert!(some(&|mesh, _| mesh.vertices.len() % 3 > 0 && mesh.ids.len() % 3 > 0));
    assert!(some(&|mesh, _| mesh.vertices.len() == MOST && mesh.ids.len() == MOST));
}
