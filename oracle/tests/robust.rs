//! No bytes and no mesh break the oracle, and the meshes that it makes reach every branch.

use mowfrost_oracle::file::{push_record, read, write};
use mowfrost_oracle::kinds::{mesh, KINDS};
use mowfrost_oracle::listing::listing;
use mowfrost_oracle::random::Random;
use mowfrost_oracle::reach::{Reach, WANTED};
use std::io::Write;
use std::process::{Command, Stdio};

const SEED: u64 = 2026;

#[test]
fn every_kind_is_made_alike_for_one_seed_and_otherwise_for_another() {
    for i in 0..KINDS.len() as u64 {
        assert_eq!(mesh(SEED, i), mesh(SEED, i), "{}", KINDS[i as usize].name);
    }
    assert!((0..KINDS.len() as u64).any(|i| mesh(SEED, i) != mesh(SEED + 1, i)));
}

#[test]
fn every_branch_is_reached() {
    let reach = Reach::of((0..8_000).map(|i| mesh(SEED, i)));
    let missed: Vec<_> = WANTED.iter().filter(|what| reach.times(what) == 0).collect();
    assert!(missed.is_empty(), "not reached: {missed:?}");
    assert_eq!(reach.times("against document 01: the one exception reaches further"), 0);
}

#[test]
fn what_is_read_is_written_again() {
    let mut read_back = 0;
    for i in 0..2_000 {
        let bytes = mesh(SEED, i);
        let Ok(file) = read(&bytes) else { continue };
        assert!(bytes == write(&file, true) || bytes == write(&file, false));
        read_back += 1;
    }
    assert!(read_back > 1_000);
}

/// The text is document 01's: a refusal of a number that a file can get, or a listing with all its lines.
fn is_an_answer(text: &str) -> bool {
    let names = "quality reliable method profile volume aabb surface top bottom side inclined largest smallest best \
                 prism pieces used range sliver surfaces";
    if let Some(refusal) = text.strip_prefix("refused ") {
        return ["2\n", "4\n", "5\n", "6\n"].contains(&refusal);
    }
    let lines: Vec<&str> = text.lines().collect();
    let named = names.split_whitespace().zip(&lines).all(|(name, line)| line.split(' ').next() == Some(name));
    let rows = lines.get(19).and_then(|l| l.strip_prefix("surfaces ")).and_then(|n| n.parse().ok());
    named && text.ends_with('\n') && rows == Some(lines.len() - 20)
}

#[test]
fn any_bytes_get_an_answer() {
    let mut random = Random::new(SEED);
    for n in 0..20_000u64 {
        let mut bytes = if n % 4 == 0 {
            (0..random.below(80)).map(|_| random.bits() as u8).collect()
        } else {
            mesh(SEED, random.bits() % 4_000)
        };
        bytes.truncate(2_000);
        for _ in 0..random.below(4) {
            if !bytes.is_empty() {
                let at = random.below(bytes.len().min(60));
                bytes[at] = random.pick(&[0, 1, 2, 3, 4, 0x7f, 0x80, 0xff]);
            }
        }
        let (text, _) = listing(&bytes);
        assert!(is_an_answer(&text), "{text}");
    }
}

/// Every cut of a whole file is refused with 5; the whole is not.
#[test]
fn every_cut_is_refused_with_5() {
    let whole = mesh(SEED, 0);
    let file = read(&whole).expect("the first kind is whole");
    let whole = write(&file, true);
    let without_flags = write(&file, false).len().min(whole.len() - 8);
    for cut in 0..whole.len() {
        let expected = if cut == without_flags { Ok(()) } else { Err(5) };
        assert_eq!(read(&whole[..cut]).map(|_| ()), expected, "cut to {cut} bytes");
    }
    assert!(read(&whole).is_ok());
    assert_eq!(read(&[whole.as_slice(), &[0]].concat()).err(), Some(5), "one byte behind the end");
}

/// A file of these records, each a kind and its payload.
fn file(records: &[(u16, Vec<u8>)]) -> Vec<u8> {
    let mut bytes = Vec::new();
    records.iter().for_each(|(kind, payload)| push_record(&mut bytes, *kind, payload));
    bytes
}

#[test]
fn faults_get_the_refusal_that_01_orders() {
    let words = |n: usize| vec![0u8; 4 * n];
    let good = [(1u16, words(1)), (2, words(9)), (3, words(3))];
    let with = |at: usize, record: (u16, Vec<u8>)| {
        let mut records = good.to_vec();
        if at < records.len() {
            records[at] = record;
        } else {
            records.push(record);
        }
        read(&file(&records)).map(|_| ()).err().unwrap_or(0)
    };
    assert_eq!(with(0, (1, words(1))), 0);
    // kinds, each in its place
    for at in 0..3 {
        for kind in [0, 1, 2, 3, 4, 0x0101, u16::MAX] {
            let expected = if kind == at as u16 + 1 { 0 } else { 5 };
            assert_eq!(with(at, (kind, words(1))), expected, "kind {kind} at {at}");
        }
    }
    // lengths as the kind has them
    assert_eq!((with(0, (1, vec![])), with(0, (1, words(2))), with(0, (1, vec![0; 3]))), (5, 5, 5));
    for at in 1..3 {
        let kind = at as u16 + 1;
        assert_eq!((with(at, (kind, vec![0; 5])), with(at, (kind, vec![]))), (5, 0));
        assert_eq!((with(at, (kind, words(1536))), with(at, (kind, words(1537)))), (0, 6));
        assert_eq!(with(at, (kind, vec![0; 4 * 1537 + 1])), 5, "the length is met before too many");
    }
    // flags
    for (clip, defect, expected) in [(0, 0, 0), (1, 4, 0), (2, 0, 5), (0, 5, 5), (255, 255, 5)] {
        assert_eq!(with(3, (4, vec![clip, defect])), expected, "flags {clip} {defect}");
    }
    assert_eq!((with(3, (4, vec![0])), with(3, (4, vec![0, 0, 0])), with(3, (3, vec![0, 0]))), (5, 5, 5));
    // a wrong kind is met before a length, and a later fault not at all
    assert_eq!(with(1, (3, words(1537))), 5);
    let two = [(1, words(1)), (2, words(1537)), (9, vec![])];
    assert_eq!(read(&file(&two)).err(), Some(6));
    let behind = [good.to_vec(), vec![(4, vec![0, 0]), (4, vec![0, 0])]].concat();
    assert_eq!(read(&file(&behind)).err(), Some(5));
}

fn run(words: &[&str], input: &[u8]) -> (Option<i32>, String, String) {
    let mut child = Command::new(env!("CARGO_BIN_EXE_oracle"))
        .args(words)
        .stdin(Stdio::piped())
        .stdout(Stdio::piped())
        .stderr(Stdio::piped())
        .spawn()
        .expect("the program starts");
    // A program that does not read its input closes it: no fault here.
    let _ = child.stdin.take().expect("a pipe").write_all(input);
    let out = child.wait_with_output().expect("the program ends");
    let text = |bytes: Vec<u8>| String::from_utf8(bytes).expect("it prints text");
    (out.status.code(), text(out.stdout), text(out.stderr))
}

#[test]
fn listing_answers_frame_by_frame_and_says_where_a_frame_is_cut() {
    let bytes = mesh(SEED, 0);
    let framed = [&(bytes.len() as u32).to_le_bytes()[..], &bytes, &3u32.to_le_bytes(), &[1, 2, 3]].concat();
    let (code, out, _) = run(&["listing"], &framed);
    assert_eq!((code, out.clone()), (Some(0), format!("{}refused 5\n", listing(&bytes).0)));
    for behind in [vec![9], vec![9, 0, 0, 0], u32::MAX.to_le_bytes().to_vec()] {
        let (code, again, err) = run(&["listing"], &[framed.clone(), behind].concat());
        assert_eq!((code, &again), (Some(2), &out));
        assert!(err.contains("frame 2 is cut"), "{err}");
    }
    assert_eq!(run(&["listing"], &[]).0, Some(0));
}

#[test]
fn bad_words_get_the_usage() {
    for words in [&[][..], &["nothing"], &["meshes"], &["meshes", "1"], &["meshes", "x", "1"], &["reach", "1", "-1"]] {
        let (code, out, err) = run(words, &[]);
        assert_eq!((code, out.as_str()), (Some(2), ""));
        assert!(err.contains("oracle meshes SEED COUNT"));
    }
}
