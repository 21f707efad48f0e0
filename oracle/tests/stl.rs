//! Binary STL: the plain reader on files made by hand and at every limit; that the comparison finds a reader that is wrong in any one
//! thing (`readers`); that the files reach everything. What asks the port or the program itself is ignored, and says so, where they were
//! not built.

use mowfrost_oracle::compute::areas::{Areas as RecordAreas, WORDS};
use mowfrost_oracle::compute::compare::Call;
use mowfrost_oracle::file::MeshFile;
use mowfrost_oracle::linked::bits;
use mowfrost_oracle::program::{compare, Program, LIMIT};
use mowfrost_oracle::reach::{Reach, WANTED};
use mowfrost_oracle::stl::areas::Areas;
use mowfrost_oracle::stl::compare::{all, on_limits, Count, Port, SEED};
use mowfrost_oracle::stl::file::{count, length, read, Stl, Triangle, FULL, MOST, MOST_LARGE, UNIT};
use mowfrost_oracle::stl::kinds::{file, kinds, turn};
use mowfrost_oracle::stl::limits::limits;
use mowfrost_oracle::stl::sent::{self, sent};
use mowfrost_oracle::stl::speed::plain;
use mowfrost_oracle::stl::{listing, MOUNTS};
use std::collections::HashSet;
use std::process::{Command, Stdio};

mod readers;
mod ways;

use readers::{Reader, RIGHT};

const ORACLE: &str = env!("CARGO_BIN_EXE_oracle");

// ---- the plain reader, by hand

/// Two triangles whose bytes are all different: 0 to 99 behind a count of 2.
fn two() -> Vec<u8> {
    [&[0xee; 80][..], &[2, 0, 0, 0], &(0..100).collect::<Vec<u8>>()].concat()
}

#[test]
fn corners_stand_behind_the_normal_and_are_little_endian() {
    let mesh = read(&two(), MOST).expect("it is whole");
    let at = |first: u32| u32::from_le_bytes([0, 1, 2, 3].map(|k| (first + k) as u8));
    let right: Vec<u32> = [12, 62].iter().flat_map(|first| (0..9).map(move |k| at(first + 4 * k))).collect();
    assert_eq!(bits(&mesh.vertices), right);
    assert_eq!(right[0], 0x0f0e_0d0c);
    assert_eq!(mesh.ids, [0, 1, 2, 3, 4, 5]);
    assert_eq!((mesh.unit, mesh.flags), (UNIT, Default::default()));
    assert_eq!(mesh.unit.to_bits(), 0x3a83_126f);
}

#[test]
fn what_is_written_is_read() {
    let triangle =
        |n: u32| Triangle { normal: [n; 3], corners: [0; 9].map(|_: u32| 0x7f80_0000 + n), attribute: n as u16 };
    let triangles: Vec<Triangle> = (0..MOST as u32).map(triangle).collect();
    let bytes =
        Stl { header: b"solid".repeat(16).try_into().expect("80 bytes"), ..Stl::from(triangles.clone()) }.bytes();
    assert_eq!((bytes.len(), length(MOST), FULL), (8_584, 8_584, 8_584));
    let MeshFile { vertices, ids, .. } = read(&bytes, MOST).expect("it is whole");
    let right: Vec<u32> = triangles.iter().flat_map(|triangle| triangle.corners).collect();
    assert!(bits(&vertices) == right && ids.into_iter().eq(0..3 * MOST as u32));
}

/// 02's order, with what each length and count decides.
#[test]
fn refusals_come_in_02s_order() {
    let with = |count: u32, long: usize| {
        let mut bytes = vec![0; long.max(84)];
        bytes[80..84].copy_from_slice(&count.to_le_bytes());
        bytes.truncate(long);
        bytes
    };
    let told = |count: u32, long: usize| match read(&with(count, long), MOST) {
        Ok(mesh) => mesh.ids.len() as u32 / 3,
        Err(number) => 0x8000_0000 | number,
    };
    const FIVE: u32 = 0x8000_0005;
    const SIX: u32 = 0x8000_0006;
    for (count, long, right) in [
        (0, 0, FIVE),
        (0, 83, FIVE),
        (171, 83, FIVE),
        (u32::MAX, 83, FIVE),
        (0, 84, 0),
        (0, 85, FIVE),
        (1, 84, FIVE),
        (171, 84, SIX),
        (170, 84, FIVE),
        (u32::MAX, 84, SIX),
        (0x8000_0000, 84, SIX),
        (0x0100_0000, 134, SIX),
        (1, 133, FIVE),
        (1, 134, 1),
        (1, 135, FIVE),
        (1, 184, FIVE),
        (2, 184, 2),
        (0, 134, FIVE),
        (169, 8_534, 169),
        (170, 8_534, FIVE),
        (170, 8_583, FIVE),
        (170, 8_584, 170),
        (170, 8_585, FIVE),
        (169, 8_584, FIVE),
        (171, 8_584, SIX),
        (171, 8_634, SIX),
        (170, 8_634, FIVE),
        (0x8000_0001, 134, SIX),
    ] {
        assert_eq!(told(count, long), right, "count {count}, {long} bytes");
    }
    let large = |count: u32, long: usize| read(&with(count, long), MOST_LARGE).map(|mesh| mesh.vertices.len());
    assert_eq!(large(171, 8_634), Ok(9 * 171));
    assert_eq!(large(10_922, length(10_922)), Ok(98_298));
    assert_eq!(large(10_922, length(10_922) + 1), Err(5));
    assert_eq!(large(10_923, length(10_923)), Err(6));
    assert_eq!(large(10_923, 84), Err(6));
    assert_eq!(large(10_923, 83), Err(5));
}

/// The first bytes are not looked at, nor are normals and attributes.
#[test]
fn what_is_ignored_changes_nothing() {
    let right = read(&two(), MOST).expect("it is whole");
    let ignored = (0..80).chain(84..96).chain(132..146).chain(182..184);
    for at in ignored {
        let mut bytes = two();
        bytes[at] ^= 0xff;
        let mesh = read(&bytes, MOST).expect("it is whole");
        assert!(bits(&mesh.vertices) == bits(&right.vertices) && mesh.ids == right.ids, "byte {at}");
    }
    for at in (96..132).chain(146..182) {
        let mut bytes = two();
        bytes[at] ^= 0xff;
        assert_ne!(bits(&read(&bytes, MOST).expect("it is whole").vertices), bits(&right.vertices), "byte {at}");
    }
}

#[test]
fn the_named_limits_are_these() {
    let all: Vec<(String, Vec<u8>)> = limits().collect();
    let names: HashSet<_> = all.iter().map(|(name, _)| name).collect();
    assert_eq!(names.len(), all.len());
    let some = |long: usize, n: Option<u32>| all.iter().any(|(_, bytes)| bytes.len() == long && count(bytes) == n);
    assert!([0, 1, 79, 80, 81, 82, 83].iter().all(|&long| some(long, None)));
    for long in [84, 85, 133, 134, 135, 8_583, 8_584, 8_585, 8_586, 8_634] {
        let counts = [0, 1, 169, 170, 171, 1 << 31, u32::MAX, 10_921, 10_922, 10_923];
        assert!(counts.iter().all(|&n| some(long, Some(n))), "{long} bytes");
    }
    for n in [0usize, 1, 2, 169, 170, 171, 10_921, 10_922, 10_923] {
        let off = if n > 1000 { &[-1, 0, 1][..] } else { &[-50, -49, -1, 0, 1, 49, 50] };
        let long = |off: isize| length(n).saturating_add_signed(off);
        assert!(off.iter().all(|&off| some(long(off), Some(n as u32).filter(|_| long(off) >= 84))), "{n} triangles");
    }
    assert!(some(134, Some(0x0100_0000)));
}

/// The form that is raced answers as the plain reader does.
#[test]
fn the_form_in_the_race_is_right() {
    let reader = |most: usize, areas: Areas| {
        let mut floats: Vec<f32> = areas.vertices.iter().map(|bits| f32::from_bits(*bits)).collect();
        match plain(most, areas.bytes, &mut floats, areas.ids) {
            Ok(n) => {
                areas.vertices.copy_from_slice(&bits(&floats));
                n
            }
            Err(number) => 0x8000_0000 | number,
        }
    };
    let port = Port { read: &reader, compute: &RECORD };
    let count = sum(all(port, 2 * turn()));
    assert_eq!(count.differ, 0, "{:?}", count.shown);
}

// ---- the comparison

const RECORD: fn(&Call, RecordAreas, &mut [u32; WORDS]) -> u32 =
    |call, areas, record| ways::RIGHT.call(call, areas, record);

fn sum(counts: impl Iterator<Item = (&'static str, Count)>) -> Count {
    counts.fold(Count::default(), |mut sum, (_, count)| {
        sum.join(&count);
        sum.shown.extend(count.shown);
        sum.records.shown.extend(count.records.shown);
        sum
    })
}

#[test]
fn the_right_way_agrees_and_reaches_everything() {
    let reader = |most: usize, areas: Areas| RIGHT.read(most, areas);
    let port = Port { read: &reader, compute: &RECORD };
    let count = sum(all(port, 8_000));
    assert_eq!(count.sums()[1], 0, "{:?} {:?}", count.shown, count.records.shown);
    let told = format!("{}; {}", count.reached(), count.told().join("; "));
    for form in count.forms {
        assert!(form.read > 5_000 && form.refused.iter().all(|&times| times > 4_000), "{told}");
    }
    let files = count.files;
    let damaged: u64 = files.damaged.iter().sum();
    assert!(
        files.whole.abs_diff(damaged) < files.whole / 8 && files.damaged.iter().all(|&times| times > 1_000),
        "{told}"
    );
    assert!(files.large > 100 && files.solid > 500 && files.empty > 50 && files.full > 50, "{told}");
    assert!(files.nan > 100 && files.infinite > 50 && files.negative_zero > 100, "{told}");
    let records = &count.records;
    assert!(records.tally.verdicts.iter().all(|&times| times > 200), "{told}");
    assert!(records.tally.zero > 50 && records.tally.refused[3] > 200 && records.tally.refused[2] > 100, "{told}");
    assert!(records.near > 5 && records.counted.cells.rim > 100 && records.counted.met.sliver > 200, "{told}");
    assert!(count.stayed.iter().all(|nans| nans.signalling > 10_000 && nans.quiet > 10_000), "{told}");
}

fn found(reader: &Reader) -> bool {
    let read = |most: usize, areas: Areas| reader.read(most, areas);
    // the readers alone: the records would be right
    let none = |_: &Call, _: RecordAreas, _: &mut [u32; WORDS]| 0;
    let port = Port { read: &read, compute: &none };
    on_limits(port).differ > 0 || all(port, turn()).any(|(_, count)| count.differ > 0)
}

#[test]
fn wrong_readers_are_found() {
    assert!(!found(&RIGHT));
    // the digits of a NaN that was read are outside the promise
    let one_nan = |word: [u8; 4]| match f32::from_le_bytes(word) {
        x if x.is_nan() => 0x7fc0_0000,
        x => x.to_bits(),
    };
    assert!(!found(&Reader { float: one_nan, ..RIGHT }));
    for (why, wrong) in readers::wrong() {
        assert!(found(&wrong), "{why}");
    }
}

/// A mesh that is read right and measured otherwise.
#[test]
fn wrong_records_are_found() {
    let reader = |most: usize, areas: Areas| RIGHT.read(most, areas);
    let differs = |compute: fn(&Call, RecordAreas, &mut [u32; WORDS]) -> u32| {
        let port = Port { read: &reader, compute: &compute };
        all(port, turn()).any(|(_, count)| count.records.differ > 0)
    };
    assert!(!differs(RECORD));
    assert!(differs(|_, _, _| 0), "nothing");
    let metres = |call: &Call, areas: RecordAreas, record: &mut [u32; WORDS]| {
        ways::RIGHT.call(&Call { mesh: &MeshFile { unit: 1.0, ..call.mesh.clone() }, ..*call }, areas, record)
    };
    assert!(differs(metres), "at unit 1");
    let clipped = |call: &Call, areas: RecordAreas, record: &mut [u32; WORDS]| {
        ways::RIGHT.call(&Call { clip: 1, ..*call }, areas, record)
    };
    assert!(differs(clipped), "with a flag");
    let spoilt = |call: &Call, areas: RecordAreas, record: &mut [u32; WORDS]| {
        areas.vertices.iter_mut().take(1).for_each(|word| *word ^= 1);
        ways::RIGHT.call(call, areas, record)
    };
    assert!(differs(spoilt), "the mesh that was read is written");
}

#[test]
#[cfg_attr(
    not(port),
    ignore = "the port's libraries were not built: at the root, tools/staticlib capi and tools/staticlib probe"
)]
fn every_file_agrees() {
    use mowfrost_oracle::stl::compare::PORT;
    let count = sum(all(PORT, 10_000));
    assert_eq!(count.sums()[1], 0, "{:?} {:?}", count.shown, count.records.shown);
}

// ---- the files

/// Of what meshes reach, what no STL file can: units, flags, ids that are shared, repeated, out of range or left over.
const NEVER: [&str; 20] = [
    "refused 2",
    "method mesh_unclipped",
    "method mesh_profile_invalid",
    "profile self_intersecting",
    "profile degenerate",
    "profile hole_outside",
    "profile overlapping",
    "clip with defect",
    "verdict: given ids boundary-free",
    "id out of range",
    "repeated ids",
    "leftover ids",
    "leftover floats",
    "triangles: used, out of range and slivers",
    "triangles: out of range and slivers alone",
    "out of range: the first corner alone",
    "out of range: the second corner alone",
    "out of range: the third corner alone",
    "out of range: all corners",
    "out of range: with a repeated id",
];

#[test]
fn the_kinds_reach_every_refusal_verdict_and_branch() {
    let mut reach = Reach::default();
    (0..8_000).for_each(|number| reach.add(read(&file(SEED, number), MOST)));
    let missed: Vec<_> = WANTED.iter().filter(|what| (reach.times(what) == 0) != NEVER.contains(what)).collect();
    assert!(missed.is_empty(), "{missed:?}");
    assert_eq!(reach.times("against document 01: the one exception reaches further"), 0);
}

#[test]
fn every_kind_is_made_alike_for_one_seed_and_otherwise_for_another() {
    assert!((0..turn()).all(|number| file(SEED, number) == file(SEED, number)));
    assert!((0..turn()).any(|number| file(SEED, number) != file(SEED + 1, number)));
    assert_eq!(kinds().len() as u64, turn());
}

// ---- the program

fn run(words: &[&str], n: u64) -> mowfrost_oracle::program::Count {
    compare(&Program::new(words, LIMIT).expect("it starts"), &MOUNTS, n, 2).expect("it starts each time")
}

/// How many of the first files differ, where this is what a shell runs; `answer` stands for the right program.
fn differ(script: &str) -> u64 {
    let script = script.replace("answer", &format!("'{ORACLE}' answer-stl"));
    run(&["sh", "-c", &script], 2 * sent::turn()).differ
}

#[test]
fn the_right_program_agrees() {
    let count = run(&[ORACLE, "answer-stl"], 3 * sent::turn());
    assert_eq!((count.agree, count.differ), (3 * sent::turn(), 0), "{:?}", count.shown);
    let wanted = ["refused 4", "refused 5", "refused 6", "zero record", "quality closed", "quality open_shell"];
    assert!(wanted.iter().all(|what| count.reach.times(what) > 0) && count.reach.times("quality degenerate") > 0);
    assert_eq!(differ(&format!("head -c {} | answer", FULL + 1)), 0, "nothing behind it can change the answer");
}

#[test]
fn wrong_programs_are_found() {
    assert!(differ(&format!("head -c {FULL} | answer")) > 0, "one byte behind a full file is not read");
    assert!(differ(&format!("head -c {} | answer", FULL - 1)) > 0, "the last byte of a full file is not read");
    assert!(differ("dd bs=100000 count=1 2>/dev/null | answer") > 0, "the first part is taken for the whole");
    assert!(differ("answer | sed 's/refused 6/refused 5/'") > 0, "5 for 6");
    assert!(differ("answer | sed 's/refused 5/refused 6/'") > 0, "6 for 5");
    assert!(differ("answer | sed 's/refused 4/refused 2/'") > 0, "2 for 4");
    assert!(differ("answer | sed 's/^pieces .*/pieces 1/'") > 0, "one piece");
    assert!(run(&[ORACLE, "answer"], sent::turn()).differ > 0, "a program for mesh files");
}

#[test]
fn the_files_that_are_sent_have_what_they_are_for() {
    let files: Vec<_> = (0..12 * sent::turn()).map(sent).collect();
    let some = |long: usize, n: u32| files.iter().any(|file| file.bytes.len() == long && count(&file.bytes) == Some(n));
    assert!(files.iter().any(|file| file.bytes.is_empty()));
    assert!(some(FULL - 1, 170) && some(FULL, 170) && some(FULL + 1, 170) && some(FULL + 2, 170));
    assert!(files.iter().any(|file| file.bytes.len() == 70_000 && read(&file.bytes, MOST).err() == Some(5)));
    assert!(files.iter().any(|file| file.bytes.len() >= 65_536 && read(&file.bytes, MOST).err() == Some(6)));
    let parted: Vec<_> = files.iter().filter(|file| !file.parts.is_empty()).collect();
    assert!(parted.len() > 15 && parted.iter().all(|file| file.parts.iter().sum::<usize>() <= file.bytes.len()));
    assert!(parted.iter().any(|file| file.parts == [80, 4, 12, 38]), "at the ends of headers");
}

/// The program itself, where it was built and no text is newer.
#[test]
#[ignore = "asks the program: at the root, ./takeoff --build; then cargo test --release --offline -- --ignored the_program_agrees"]
fn the_program_agrees() {
    let takeoff = concat!(env!("CARGO_MANIFEST_DIR"), "/../takeoff");
    let fresh = Command::new(takeoff).arg("--fresh").status().is_ok_and(|status| status.success());
    assert!(fresh, "the program is not there, or older than its text: at the root, ./takeoff --build");
    let count = run(&[takeoff, "--stl"], 2 * sent::turn());
    assert_eq!(count.differ, 0, "{:?}", count.shown);
}

#[test]
fn the_commands_answer() {
    let told = |words: &[&str]| {
        let out = Command::new(ORACLE).args(words).stdin(Stdio::null()).output().expect("it starts");
        let last = String::from_utf8_lossy(&out.stdout).lines().last().unwrap_or_default().to_string();
        (out.status.code(), last)
    };
    assert_eq!(told(&["answer-stl"]), (Some(0), "refused 5".into()));
    assert_eq!(listing(&[]).0, "refused 5\n");
    assert_eq!(told(&["program-stl", "60", ORACLE, "answer-stl"]), (Some(0), "60 agree, 0 differ".into()));
    assert_eq!(told(&["program-stl", "60", "false"]), (Some(1), "0 agree, 60 differ".into()));
    for words in [&["program-stl"][..], &["program-stl", "x", "true"], &["file-stl"], &["file-stl", "x"], &["stl", "x"]]
    {
        assert_eq!(told(words).0, Some(2), "{words:?}");
    }
    let sent_alike = |number: u64| {
        let out = Command::new(ORACLE).args(["file-stl", &number.to_string()]).output().expect("it starts");
        out.stdout == sent(number).bytes
    };
    assert!([0, 1, sent::turn() - 1, sent::turn() - 4].into_iter().all(sent_alike));
}
