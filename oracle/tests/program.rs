//! `oracle program`: a program that is right agrees on every file, and one that is wrong in any one thing is found. The
//! programs are `oracle answer` and what a shell makes of it; the real one is run by `oracle program N BIN`.

use mowfrost_oracle::file::read;
use mowfrost_oracle::kinds::{mesh, KINDS};
use mowfrost_oracle::listing::{listing, text};
use mowfrost_oracle::pieces::pieces;
use mowfrost_oracle::program::{compare, Count, Program, LIMIT, MESHES};
use mowfrost_oracle::reach::WANTED;
use mowfrost_oracle::record::{original, Exception};
use mowfrost_oracle::sent::{sent, FULL, TURN};
use std::process::{Command, Output, Stdio};
use std::time::{Duration, Instant};

const ORACLE: &str = env!("CARGO_BIN_EXE_oracle");

fn run(words: &[&str], n: u64, workers: usize) -> Count {
    let program = Program::new(words, LIMIT).expect("it starts");
    compare(&program, &MESHES, n, workers).expect("it starts each time")
}

/// How many of the first files differ, where this is what a shell runs; `answer` stands for the right program.
fn differ(script: &str) -> u64 {
    let script = script.replace("answer", &format!("'{ORACLE}' answer"));
    run(&["sh", "-c", &script], 3 * TURN, 1).differ
}

#[test]
fn the_right_program_agrees_and_reaches_everything() {
    let count = run(&[ORACLE, "answer"], 2_000, 2);
    assert_eq!((count.agree, count.differ), (2_000, 0), "{:?}", count.shown);
    let missed: Vec<_> = WANTED.iter().filter(|what| count.reach.times(what) == 0).collect();
    assert!(missed.is_empty(), "not reached: {missed:?}");
    assert!(count.near > 5 && !count.otherwise.is_empty() && count.near > count.otherwise.len() as u64);
}

#[test]
fn a_program_may_stop_reading_where_no_answer_can_change() {
    assert_eq!(differ(&format!("head -c {} | answer", FULL + 1)), 0);
    assert_eq!(differ("answer; exit 0"), 0);
}

#[test]
fn wrong_programs_are_found() {
    for (script, why) in [
        ("cat >/dev/null; echo refused 5", "always refuses"),
        ("cat >/dev/null", "says nothing"),
        ("echo refused 5", "reads nothing"),
        ("answer | sed '$d'", "the last line is missing"),
        ("answer | sed '1d'", "the first line is missing"),
        ("answer | tr a-f A-F", "upper-case digits"),
        ("answer; echo", "a line more"),
        ("answer; answer", "answers twice"),
        ("printf %s \"$(answer)\"", "no newline at the end"),
        ("answer | tr '\\n' '\\r'", "other newlines"),
        ("answer | sed 's/ $//; s/ /  /'", "two blanks"),
        ("answer | sed 's/refused 6/refused 5/'", "5 for 6"),
        ("answer | sed 's/refused 4/refused 2/'", "2 for 4"),
        ("answer | sed 's/^pieces .*/pieces 1/'", "always one piece"),
        ("answer | sed 's/^prism none/prism 7fc00000/'", "a NaN for a bound that was not computed"),
        ("answer | sed 's/^reliable 0/reliable 1/'", "always reliable"),
        ("answer | sed '/^used /d; /^range /d; /^sliver /d'", "no counts"),
        ("answer | sed 's/^range .*/range 0/'", "nothing out of range"),
        ("answer | sed 's/^sliver .*/sliver 0/'", "no sliver"),
        ("answer | sed 's/^used .*/used 12/'", "always twelve triangles"),
        ("answer | sed -E 's/^range/keep/; s/^sliver/range/; s/^keep/sliver/'", "the two names swapped"),
        ("answer | sed -E '/^used /{h;d}; /^sliver /{p;x}'", "in another order"),
        ("answer | head -n 84", "at most 64 rows"),
        ("answer; echo done >&2", "speaks on standard error"),
        ("answer; exit 1", "a status of 1"),
        ("answer; kill -9 $$", "ends by a signal"),
    ] {
        assert!(differ(script) > 0, "{why}");
    }
    assert_eq!(run(&["false"], TURN, 1).differ, TURN);
    // `true` reads nothing either: that writing to it fails is no fault, that it prints nothing is
    assert_eq!(run(&["true"], TURN, 1).differ, TURN);
}

/// Mistakes of a program that only its own files show.
#[test]
fn wrong_reading_is_found() {
    assert!(differ(&format!("head -c {FULL} | answer")) > 0, "one byte behind a full file is not read");
    assert!(differ(&format!("head -c {} | answer", FULL - 1)) > 0, "the last byte of a full file is not read");
    assert!(differ("dd bs=100000 count=1 2>/dev/null | answer") > 0, "the first part is taken for the whole");
    assert!(differ("dd bs=100000 count=2 2>/dev/null | answer") > 0, "two parts are taken for the whole");
    assert!(differ("cat >/dev/null; answer </dev/null") > 0, "nothing is read");
}

#[test]
fn a_program_that_does_not_end_is_stopped_and_differs() {
    let (begun, short) = (Instant::now(), Duration::from_millis(200));
    let ends = |script: &str, limit: Duration| {
        let program = Program::new(&["sh", "-c", script], limit).expect("it starts");
        compare(&program, &MESHES, 2, 2).expect("it starts").shown.remove(0).1
    };
    assert!(ends("exec sleep 9", short).contains("did not end in time"));
    // another process keeps the pipes
    assert!(ends("sleep 9; exit 0", short).contains("did not end in time"));
    assert!(ends("exec >&- 2>&-; exec sleep 9", short).contains("did not end in time"));
    // more output than can be right is not waited for
    assert!(ends("exec yes", LIMIT).contains("line 1 is \"y\", should be "));
    assert!(begun.elapsed() < Duration::from_secs(20));
}

#[test]
fn what_is_shown_is_the_same_for_any_number_of_workers() {
    let wrong = format!("'{ORACLE}' answer | sed 's/^top 0/top 1/'");
    let told = |workers: usize| {
        let count = run(&["sh", "-c", &wrong], 2 * TURN, workers);
        let reach: Vec<_> = count.reach.counts().collect();
        (count.agree, count.differ, count.near, count.otherwise, count.shown, reach)
    };
    let one = told(1);
    assert!(one.1 > 10 && one.4.len() == 5 && one.4.is_sorted());
    assert_eq!((told(2), told(3)), (one.clone(), one));
}

#[test]
fn the_files_have_what_they_are_for() {
    let files: Vec<_> = (0..60 * TURN).map(sent).collect();
    let some = |test: &dyn Fn(&[u8]) -> bool| files.iter().any(|file| test(&file.bytes));
    assert_eq!(FULL, 12_318);
    assert!(some(&|bytes| bytes.is_empty()) && some(&|bytes| bytes.len() == FULL && read(bytes).is_ok()));
    assert!(some(&|bytes| bytes.len() == FULL + 1 && read(&bytes[..FULL]).is_ok()));
    assert!(some(&|bytes| bytes.len() == FULL - 1) && some(&|bytes| bytes.len() >= 70_000));
    assert!(some(&|bytes| bytes.len() == 65_536) && some(&|bytes| bytes.len() == 65_537));
    let promises = |at: usize, least: u32| {
        some(&|b| b.len() > at + 5 && u32::from_le_bytes(b[at..at + 4].try_into().expect("four")) >= least)
    };
    assert!([0, 10, 52, 70].iter().all(|&at| promises(at, 0xffff_fffc)) && promises(10, u32::MAX));
    let parted: Vec<_> = files.iter().filter(|file| !file.parts.is_empty()).collect();
    assert!(parted.len() > 30 && parted.iter().all(|file| file.parts.iter().sum::<usize>() <= file.bytes.len()));
    assert!(parted.iter().any(|file| file.parts.starts_with(&[1, 1, 1, 1, 1, 1, 1, 1, 1, 1, 1, 1])));
    assert!(parted.iter().any(|file| file.parts == [file.bytes.len()]), "a pause before the end");
    // the meshes are those of `oracle meshes`, in their order
    let meshes: Vec<_> = files.iter().filter(|file| KINDS.iter().any(|kind| kind.name == file.name)).collect();
    assert!(meshes.iter().zip(0..).all(|(file, i)| file.bytes == mesh(mowfrost_oracle::sent::SEED, i)));
    assert_eq!(meshes.len(), 60 * KINDS.len());
}

/// What the program is held to near the one exception: document 01's form, and not the original's where they differ.
#[test]
fn the_listing_is_by_the_exact_form() {
    let kind = KINDS.iter().position(|kind| kind.name == "near_exception").expect("there is one") as u64;
    let (mut same, mut otherwise) = (0, 0);
    for turn in 0..800 {
        let bytes = mesh(7, kind + turn * KINDS.len() as u64);
        let (right, exception) = listing(&bytes);
        let file = read(&bytes).expect("it is whole");
        if file.flags.clip || file.flags.defect > 0 {
            continue;
        }
        let powf = text(&original(&file.vertices, &file.ids, file.unit), pieces(&file.ids));
        match exception {
            Exception::Near { changed: true } => {
                assert_ne!(right, powf);
                otherwise += 1;
            }
            _ => {
                assert_eq!(right, powf);
                same += 1;
            }
        }
    }
    assert!(same > 50 && otherwise > 5, "{same} the same, {otherwise} otherwise");
}

fn oracle(words: &[&str]) -> Output {
    Command::new(ORACLE).args(words).stdin(Stdio::null()).output().expect("it starts")
}

#[test]
fn the_command_ends_by_what_it_found() {
    let told = |words: &[&str]| {
        let out = oracle(words);
        let last = String::from_utf8_lossy(&out.stdout).lines().last().unwrap_or_default().to_string();
        (out.status.code(), last, String::from_utf8_lossy(&out.stderr).to_string())
    };
    assert_eq!(told(&["program", "60", ORACLE, "answer"]), (Some(0), "60 agree, 0 differ".into(), "".into()));
    assert_eq!(told(&["program", "0", "true"]), (Some(0), "0 agree, 0 differ".into(), "".into()));
    assert_eq!(told(&["program", "60", "false"]), (Some(1), "0 agree, 60 differ".into(), "".into()));
    let (code, last, err) = told(&["program", "60", "/nowhere/takeoff"]);
    assert_eq!((code, last.as_str()), (Some(2), ""));
    assert!(err.starts_with("oracle: cannot start /nowhere/takeoff: "), "{err}");
    for words in [&["program"][..], &["program", "5"], &["program", "x", "true"], &["file"], &["file", "x"]] {
        let (code, last, err) = told(words);
        assert_eq!((code, last.as_str()), (Some(2), ""));
        assert!(err.contains("oracle program N BIN"));
    }
    assert_eq!(told(&["answer"]), (Some(0), "refused 5".into(), "".into()));
    assert!((0..TURN).all(|number| oracle(&["file", &number.to_string()]).stdout == sent(number).bytes));
}
