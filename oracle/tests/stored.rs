//! The meshes that `replay` holds: they reach everything, say what they were made for, and are the ones that are stored.

use mowfrost_oracle::compute::compare::words;
use mowfrost_oracle::counts::Counts;
use mowfrost_oracle::file::{read, MeshFile, MOST};
use mowfrost_oracle::frames;
use mowfrost_oracle::listing::{listing, replayed};
use mowfrost_oracle::meshfile::replayed::many;
use mowfrost_oracle::pieces::pieces;
use mowfrost_oracle::raster::cells::{grids, place, values, Cells, Place, Point};
use mowfrost_oracle::reach::{Reach, WANTED};
use mowfrost_oracle::record::{compute_under, Answer, Exception, Lent, Record};
use mowfrost_oracle::sent::FULL;
use mowfrost_oracle::slopes::{facets, SECOND};
use mowfrost_oracle::stl;
use mowfrost_oracle::stored::{all, Stored};
use std::collections::HashSet;
use std::io::Write;
use std::path::Path;
use std::process::{Command, Stdio};
use std::sync::LazyLock;

static STORED: LazyLock<Vec<Stored>> = LazyLock::new(all);

fn framed() -> Vec<u8> {
    let mut bytes = Vec::new();
    STORED.iter().for_each(|stored| frames::push(&mut bytes, &stored.bytes));
    bytes
}

fn answers() -> String {
    STORED.iter().map(|stored| replayed(&stored.bytes).0).chain([many()]).collect()
}

/// Refusals 1 and 3 are not on the list of what is wanted: a program's file is too short for the one, and the program lends
/// areas that are long enough.
#[test]
fn everything_is_reached() {
    let reach = Reach::of(STORED.iter().map(|stored| stored.bytes.clone()));
    let missed: Vec<_> = WANTED.iter().filter(|what| reach.times(what) == 0).collect();
    assert!(missed.is_empty(), "not reached: {missed:?}");
    assert!(!WANTED.contains(&"refused 1") && !WANTED.contains(&"refused 3"));
    assert_eq!(reach.times("refused 1") + reach.times("refused 3"), 0);
}

#[test]
fn they_are_few_short_and_all_different() {
    assert!((200..=500).contains(&STORED.len()), "{}", STORED.len());
    let (bytes, text) = (framed().len(), answers().len());
    assert!(bytes <= 400 << 10 && text <= 400 << 10, "{bytes} and {text} bytes");
    let different: HashSet<_> = STORED.iter().map(|stored| &stored.bytes).collect();
    assert_eq!(different.len(), STORED.len());
    let names: HashSet<_> = STORED.iter().map(|stored| &stored.name).collect();
    assert_eq!(names.len(), STORED.len());
}

#[test]
fn they_are_the_same_each_time() {
    let again: Vec<_> = all().into_iter().map(|stored| (stored.name, stored.bytes)).collect();
    assert!(STORED.iter().zip(&again).all(|(one, (name, bytes))| one.name == *name && one.bytes == *bytes));
    assert_eq!(again.len(), STORED.len());
}

/// `powf` decides nothing: the few meshes near the one exception have a prism of 1, whose power is 1 on every machine.
#[test]
fn none_hangs_on_powf() {
    let mut near = 0;
    for stored in STORED.iter() {
        match listing(&stored.bytes).1 {
            Exception::Apart => {}
            Exception::Near { changed } => {
                assert!(!changed && record(&stored.name).prism == Some(1.0), "{}", stored.name);
                near += 1;
            }
            Exception::Outside => panic!("{}: against document 01", stored.name),
        }
    }
    assert_eq!(near, 3);
}

/// Quality, reliable and method, or the refusal.
fn head(text: &str) -> String {
    let words = text.lines().take(3).map(|line| line.split_once(' ').map_or("", |(_, word)| word));
    match text.strip_suffix('\n') {
        Some(refused) if refused.starts_with("refused") => refused.to_string(),
        _ => words.collect::<Vec<_>>().join(" "),
    }
}

#[test]
fn each_says_what_it_was_made_for() {
    let says = |stored: &Stored| head(&listing(&stored.bytes).0);
    let wrong: Vec<_> = STORED.iter().filter(|stored| !says(stored).starts_with(stored.says)).collect();
    let told = |stored: &&Stored| format!("{}: {}, should be {}", stored.name, says(stored), stored.says);
    assert!(wrong.is_empty(), "{:?}", wrong.iter().map(told).collect::<Vec<_>>());
    assert!(STORED.iter().filter(|stored| !stored.says.is_empty()).count() > 250);
}

fn mesh(name: &str) -> MeshFile {
    let stored = STORED.iter().find(|stored| stored.name == name).unwrap_or_else(|| panic!("none is named {name}"));
    read(&stored.bytes).expect("it can be read")
}

fn record(name: &str) -> Record {
    record_under(name, 1)
}

fn record_under(name: &str, edition: u32) -> Record {
    let mesh = mesh(name);
    match compute_under(&mesh, edition, Lent::exactly(mesh.vertices.len(), mesh.ids.len())) {
        Answer::Record(record, _) => record,
        Answer::Refused(number) => panic!("{name}: refused {number}"),
    }
}

/// Numbers that a verdict does not show.
#[test]
fn thresholds_are_met_exactly() {
    assert_eq!(record("a volume of 1.001 of the box").volume, 1.001);
    assert_eq!(record("a step above 1.001 of the box").volume, 1.001f32.next_up());
    assert_eq!(record("cancels, a volume of 1e-6 of the box").volume, -1e-6);
    assert_eq!(record("cancels, a step above 1e-6 of the box").volume, -1e-6f32.next_up());
    assert_eq!(record("collapsed, a prism of 1e-3").prism, Some(1e-3));
    assert_eq!(record("a prism a step under 1e-3").prism, Some(1e-3f32.next_down()));
    let above = record("a prism a step above the box");
    assert_eq!((above.aabb, above.prism), (27.0, Some(27f32.next_up())));
    assert_eq!(record("8s³ is p²").surface, 0.5);
    assert_eq!(record("8s³ is above p², by a step of s").surface, 0.5f32.next_up());
    assert_eq!(record("8s³ is under p², by a step of s").surface, 0.5f32.next_down());
    assert_eq!(record("a smallest surface of 1e-6").smallest, 0.0);
    assert_eq!(record("a smallest surface of 1.0000001e-6").smallest, 1e-6f32.next_up());
    assert_eq!(record("edges through centres").prism, Some(2.0 * 101.0 * 101.0));
    assert_eq!(record("d4: a volume of -0").volume.to_bits(), 0x8000_0000);
    let slopes = |name: &str| record(name).slopes().map(|area| area > 0.0);
    assert_eq!(slopes("nz of 0.940 and of its opposite"), [false, false, false, true]);
    assert_eq!(slopes("nz a step above 0.940"), [true, true, false, false]);
    assert_eq!(slopes("nz of 0.342"), [false, false, false, true]);
    assert_eq!(slopes("nz a step under 0.342"), [false, false, true, false]);
    let heights = |name: &str| record(name).rows.iter().map(|row| row[3]).collect::<Vec<_>>();
    assert_eq!(heights("nz of 0.25, a half in the key"), [-0.3, 0.3]);
    assert_eq!(heights("nz of 0.45, a half in the key once rounded"), [-0.5, 0.5]);
}

/// What A6 moves, by hand. Each of these is two facets that look up and down alike.
#[test]
fn thresholds_of_edition_2_are_met_exactly() {
    let some = |name: &str, edition: u32| record_under(name, edition).slopes().map(|area| area > 0.0);
    let (inclined, ends, side) = ([false, false, false, true], [true, true, false, false], [false, false, true, false]);
    for (name, z, second) in [
        ("a6: nz a step under 0.866", SECOND.top.next_down(), inclined),
        ("a6: nz of 0.866 and of its opposite, from under the decimal", SECOND.top, inclined),
        ("a6: nz of 0.866 and of its opposite, from above the decimal", SECOND.top, inclined),
        ("a6: nz a step above 0.866", SECOND.top.next_up(), ends),
        ("a6: nz a step under 0.5", SECOND.side.next_down(), side),
        ("a6: nz of 0.5 and of its opposite, from under the decimal", SECOND.side, inclined),
        ("a6: nz of 0.5 and of its opposite, from above the decimal", SECOND.side, inclined),
        ("a6: nz a step above 0.5", SECOND.side.next_up(), inclined),
    ] {
        let MeshFile { vertices, ids, .. } = mesh(name);
        assert_eq!(facets(&vertices, &ids).map(|facet| facet.nz).collect::<Vec<_>>(), [z, -z], "{name}");
        assert_eq!((some(name, 1), some(name, 2)), (inclined, second), "{name}");
    }
    assert_eq!(some("nz of 0.940 and of its opposite", 2), ends);
    assert_eq!(some("nz of 0.342", 2), side);
}

/// A roof is two slopes of one area with gables and a floor; a keel is the same upside down.
#[test]
fn roofs_are_moved_by_edition_2() {
    const FLOOR: f32 = 72.0;
    for (name, moved_to) in [
        ("roof of 25", Some(0)),
        ("roof of 28", Some(0)),
        ("roof of 30", Some(0)),
        ("roof of 32", None),
        ("roof of 60", None),
        ("roof of 62", Some(2)),
        ("roof of 65", Some(2)),
        ("keel of 28", Some(1)),
        ("keel of 62", Some(2)),
    ] {
        let [first, second] = [1, 2].map(|edition| record_under(&format!("a6: a {name} degrees"), edition).slopes());
        let [top, bottom, gables, slopes] = first;
        let level = if name.starts_with("keel") { [FLOOR, 0.0] } else { [0.0, FLOOR] };
        assert!([top, bottom].iter().zip(level).all(|(area, level)| (area - level).abs() < 1e-4), "{name}: {first:?}");
        assert!(gables > 14.0 && slopes > FLOOR, "{name}: {first:?}");
        match moved_to {
            None => assert_eq!(second, first, "{name}"),
            Some(to) => {
                assert!(second[3] == 0.0 && (second[to] - first[to] - slopes).abs() < 1e-4, "{name}: {second:?}");
                assert!((0..3).all(|i| i == to || second[i] == first[i]), "{name}: {second:?}");
            }
        }
    }
}

/// Of all that is stored: what edition 2 moves, and that nothing else of a record hangs on it.
#[test]
fn edition_2_moves_areas_by_slope_alone() {
    let mut moved = [0; 4];
    for stored in STORED.iter().filter(|stored| read(&stored.bytes).is_ok()) {
        let answers = [1, 2].map(|edition| {
            let mesh = read(&stored.bytes).expect("it can be read");
            compute_under(&mesh, edition, Lent::exactly(mesh.vertices.len(), mesh.ids.len()))
        });
        match answers {
            [Answer::Record(first, _), Answer::Record(second, _)] => {
                let (one, mut other) = (words(&first), words(&second));
                (0..4).for_each(|i| moved[i] += (one[7 + i] != other[7 + i]) as u32);
                other[7..11].copy_from_slice(&one[7..11]);
                assert!(one == other && first.rows == second.rows, "{}", stored.name);
            }
            [Answer::Refused(one), Answer::Refused(other)] => assert_eq!(one, other, "{}", stored.name),
            _ => panic!("{}: one is refused", stored.name),
        }
    }
    assert!(moved.iter().all(|&times| times > 15), "{moved:?}");
}

/// What A1 counts, by hand: used, out of range, sliver.
#[test]
fn triangles_are_counted() {
    let counted = |name: &str| {
        let Counts { used, range, sliver } = record(name).counts;
        [used, range, sliver]
    };
    let corners = ["a1: one id out of range, the first: 013 812", "a1: one id out of range, the second: 013 182"];
    for (name, counts) in [
        ("the cube", [12, 0, 0]),
        ("the cube, its last vertex cut short", [6, 6, 0]),
        ("every id out of range", [0, 4, 0]),
        ("9 floats and 3 ids", [1, 0, 0]),
        ("nine zeros: 000 000 000", [0, 0, 3]),
        ("d9: no rows", [0, 0, 1]),
        ("d3: a cross product of 1e-12", [0, 0, 1]),
        ("d3: a cross product of 1.0000001e-12", [1, 0, 0]),
        ("1,536 ids, all distinct, three in range", [1, 511, 0]),
        ("a1: a sliver beside a used triangle: 013 004", [1, 0, 1]),
        (corners[0], [1, 1, 0]),
        (corners[1], [1, 1, 0]),
        ("a1: one id out of range, the third: 013 128", [1, 1, 0]),
        ("a1: one of each: 013 128 004", [1, 1, 1]),
        ("a1: one of each, moved", [1, 1, 1]),
        ("a1: out of range, and with a repeated id: 013 088 880 808 888", [1, 4, 0]),
        ("a1: one of each and a leftover id: 013 128 004 8", [1, 1, 1]),
        ("a1: one of each and two leftover ids: 013 128 004 01", [1, 1, 1]),
        ("a1: all left out: 128 004", [0, 1, 1]),
        ("a1: all slivers: 004 040 400 444", [0, 0, 4]),
        ("a1: both in a closed shell: 021 013 032 123 088 004", [4, 1, 1]),
        ("a1: both in a closed shell, clip 1, defect 0", [4, 1, 1]),
        ("a1: both in a closed shell, clip 0, defect 3", [4, 1, 1]),
        ("a1: both in a closed shell, clip 1, defect 4", [4, 1, 1]),
        ("a1: the cube with two wrong ids: 028 001", [10, 1, 1]),
        ("a1: the last vertex cut short by a float: 013 127", [1, 1, 0]),
        ("a1: in a line, no id repeated: 012 013", [1, 0, 1]),
        ("a1: a length of a step under 1e-12", [0, 0, 1]),
        ("a1: a length of 1e-12", [1, 0, 0]),
        ("a1: a length of a step above 1e-12", [1, 0, 0]),
        ("a1: a length of a step under 1e-12, twice, in a cube", [12, 0, 2]),
        ("a1: a length of 1e-12, twice, in a cube", [14, 0, 0]),
        ("a1: a length of a step above 1e-12, twice, in a cube", [14, 0, 0]),
        ("a1: a length above 1e-12, rebased under it", [12, 0, 1]),
        ("a1: a length under 1e-12, rebased above it", [13, 0, 0]),
        ("8 floats", [0, 0, 0]),
        ("2 ids", [0, 0, 0]),
        ("8 floats and 1,536 ids", [0, 0, 0]),
        ("a1: a zero record, 8 floats and bad ids", [0, 0, 0]),
        ("a1: a zero record, 2 ids out of range, flags", [0, 0, 0]),
    ] {
        assert_eq!(counted(name), counts, "{name}");
    }
    // three lines of the text, in decimal, between the pieces and the rows
    let stored = STORED.iter().find(|stored| stored.name.starts_with("1,536 ids, all distinct")).expect("there is one");
    let text = listing(&stored.bytes).0;
    assert_eq!(
        text.lines().skip(15).take(5).collect::<Vec<_>>().join(", "),
        "pieces 512, used 1, range 511, sliver 0, surfaces 1"
    );
}

/// What A3 counts, by hand: covered and rim cells from above, mostly of 256 by 256. Half of the square and its diagonal are 32,896.
#[test]
fn cells_are_counted() {
    let from_above = |name: &str| {
        let [Cells { covered, rim }, ..] = record(name).cells;
        [covered, rim]
    };
    for (name, cells) in [
        ("a3: one triangle", [32_896, 256]),
        ("a3: a common edge of two", [65_536, 256]),
        ("a3: a common edge of three", [65_536, 256]),
        ("a3: a common edge, and a third over it", [65_536, 128]),
        // 2 · 32,896 less what both have: a quarter, 128 cells of each long edge
        ("a3: an edge through another's inside", [2 * 32_896 - 64 * 256 - 128, 256]),
        ("a3: a triangle and its reverse", [32_896, 256]),
        ("a3: squares", [65_536, 4 * 128]),
        ("a3: no cell but on an edge", [256, 256]),
        // two sides of the square and its diagonal, with one corner in common
        ("edges through centres", [101 * 101, 3 * 101 - 2]),
        ("the cube without 457", [65_536, 256]),
        ("the cube", [0, 0]),
        ("one triangle with all z equal", [0, 0]),
        ("faces that cancel: 012 210 333", [0, 0]),
        ("8 floats", [0, 0]),
        ("glove_rim_here", [32_811, 32]),
        ("glove_rim_there", [32_811, 0]),
        ("place_rim_here", [16_384, 0]),
        ("place_rim_there", [16_384, 512]),
    ] {
        assert_eq!(from_above(name), cells, "{name}");
    }
    // by the rule that a zero beside both signs is on the edge there would be more
    let in_line = mesh("a3: in line with an edge");
    let beyond = |p: Point, corners: [Point; 3]| match place(p, corners) {
        Place::Outside if values(p, corners).contains(&0.0) => Place::Edge,
        right => right,
    };
    let [right, wrong] =
        [grids(&in_line.vertices, &in_line.ids, place), grids(&in_line.vertices, &in_line.ids, beyond)]
            .map(|[z, ..]| z.expect("it is not flat").cells());
    assert!(right == record("a3: in line with an edge").cells[0] && wrong.covered > right.covered);
}

/// What A2 joins, by hand.
#[test]
fn pieces_are_counted() {
    for (name, count) in [
        ("the cube", 1),
        ("2 ids", 0),
        ("nine zeros: 000 000 000", 0),
        ("two tetrahedra sharing one id: 012 023 031 132 345 356 364 465", 2),
        ("two tetrahedra apart: 012 023 031 132 456 467 475 576", 2),
        ("an edge of four uses: 012 023 031 132 014 046 061 164", 1),
        ("1,536 ids, one triangle over and over", 1),
        ("8 floats and 1,536 ids", 512),
        ("a2: two plinths with one common corner", 2),
        ("a2: two plinths with one common edge", 1),
        ("a2: repeated ids between two: 012 034 001 003", 2),
    ] {
        assert_eq!(pieces(&mesh(name).ids), count, "{name}");
    }
    let corners = |name: &str| mesh(name).vertices.len() / 3;
    assert_eq!(corners("a2: two plinths with one common corner"), 15);
    assert_eq!(corners("a2: two plinths with one common edge"), 14);
    assert_eq!(record("a2: two plinths with one common corner").volume, 4.0 + 9.0);
}

#[test]
fn lengths_go_to_the_limit() {
    let whole: Vec<MeshFile> = STORED.iter().filter_map(|stored| read(&stored.bytes).ok()).collect();
    let some = |test: &dyn Fn(&MeshFile) -> bool| whole.iter().any(test);
    assert!(some(&|m| m.vertices.len() == MOST && m.ids.len() == MOST));
    assert!(some(&|m| m.vertices.len() == MOST - 1) && some(&|m| m.ids.len() == MOST - 1));
    assert!(STORED.iter().any(|stored| stored.bytes.len() == FULL && read(&stored.bytes).is_ok()));
    assert!(STORED.iter().any(|stored| stored.bytes.len() == FULL + 1) && STORED[0].bytes.len() == 262);
    let rows = |n: usize| {
        let text = |stored: &Stored| listing(&stored.bytes).0;
        STORED.iter().filter(|stored| text(stored).lines().count() > 20 + n).count()
    };
    assert!(rows(64) > 4 && rows(200) > 1, "{} and {}", rows(64), rows(200));
}

/// What `replay` has to print behind the listing of a file.
fn behind(name: &str) -> Vec<String> {
    let stored = STORED.iter().find(|stored| stored.name.starts_with(name)).expect("there is one");
    let (listing, text) = (listing(&stored.bytes).0, replayed(&stored.bytes).0);
    text.strip_prefix(&listing).expect("the listing is first").lines().map(String::from).collect()
}

/// What the routines on ids say of document 01's examples, what a work area one word short is told, under edition 1 and under one that
/// is not known, and the areas by slope under edition 2.
#[test]
fn a_line_has_the_answers() {
    let line = |name: &str| behind(name)[0].clone();
    let front = |name: &str| line(name).split(" unknown ").next().unwrap_or("").to_string();
    // a level face of 2 by 2 is top, one bottom, and four of them side
    let [level, sides] = [4f32, 16.0].map(f32::to_bits);
    assert_eq!(
        line("the cube"),
        format!(
            "chain 1 0 net 1 0 manifold 1 winding 1 short 3 unknown 7 pairs 0 0 0 0 0 0 second {level} {level} {sides} 0"
        )
    );
    assert_eq!(front("faces that cancel: 012 210 333"), "chain 1 0 net 0 1 manifold 1 winding 1 short 3");
    assert_eq!(front("nine zeros"), "chain 0 0 net 0 1 manifold 1 winding 0 short 3");
    assert_eq!(front("each face twice"), "chain 1 1 net 2 0 manifold 0 winding 0 short 3");
    assert_eq!(front("one bad edge of 50"), "chain 0 0 net 1 0 manifold 0 winding 1 short 3");
    assert_eq!(front("one bad edge of 49"), "chain 0 0 net 1 0 manifold 0 winding 0 short 3");
    assert_eq!(front("1,536 ids, one triangle over and over"), "chain 0 1 net 512 0 manifold 0 winding 0 short 3");
    // cells and areas where there is a record
    let open = " short 3 unknown 7 pairs 65536 256 65536 256 65536 256 second ";
    assert!(line("the cube without 457").contains(open));
    assert!(line("2 ids").ends_with(" short 0 unknown 0 pairs 0 0 0 0 0 0 second 0 0 0 0"));
    assert_eq!(line("a closed shell, unit and float bad"), "chain 1 0 net 1 0 manifold 1 winding 1 short 2 unknown 2");
    assert_eq!(line("a closed shell, float bad"), "chain 1 0 net 1 0 manifold 1 winding 1 short 3 unknown 7");
    let areas = |name: &str| line(name).split(" second ").nth(1).unwrap_or("").to_string();
    let (second, bits) =
        (record_under("a6: a roof of 28 degrees", 2).slopes(), |area: &f32| area.to_bits().to_string());
    assert_eq!(areas("a6: a roof of 28"), second.iter().map(bits).collect::<Vec<_>>().join(" "));
    // a file that could not be read has no ids
    assert!(behind("1,537 ids").is_empty() && behind("cut to 0 bytes").is_empty());
}

fn oracle(words: &[&str], input: &[u8]) -> (Option<i32>, Vec<u8>, String) {
    let mut command = Command::new(env!("CARGO_BIN_EXE_oracle"));
    let pipes = command.args(words).stdin(Stdio::piped()).stdout(Stdio::piped()).stderr(Stdio::piped());
    let mut child = pipes.spawn().expect("it starts");
    let (mut stdin, input) = (child.stdin.take().expect("a pipe"), input.to_vec());
    // what is read and what is printed are longer than a pipe
    let feed = std::thread::spawn(move || drop(stdin.write_all(&input)));
    let out = child.wait_with_output().expect("it ends");
    feed.join().expect("it goes through");
    (out.status.code(), out.stdout, String::from_utf8_lossy(&out.stderr).to_string())
}

#[test]
fn the_commands_write_them_and_their_answers() {
    let (code, bytes, err) = oracle(&["stored"], &[]);
    assert_eq!((code, bytes == framed(), err.as_str()), (Some(0), true, ""));
    assert!(frames::all(&bytes).eq(STORED.iter().map(|stored| stored.bytes.as_slice())));
    let (code, text, err) = oracle(&["replayed"], &bytes);
    assert_eq!((code, text == answers().as_bytes()), (Some(0), true));
    assert!(
        err.ends_with(&format!("oracle: {} meshes, 3 near the one exception, 0 against document 01\n", STORED.len()))
    );
    let (code, names, _) = oracle(&["stored", "names"], &[]);
    assert_eq!((code, String::from_utf8_lossy(&names).lines().count()), (Some(0), STORED.len()));
}

/// What the crate holds. Its meshes could be other ones than this machine would make if a sine's last digit told in a round
/// shape; the answers must be the Rust's in any case.
#[test]
fn the_crate_holds_these() {
    let replay = Path::new(env!("CARGO_MANIFEST_DIR")).join("../crates/replay");
    let read = |name: &str| std::fs::read(replay.join(name)).unwrap_or_else(|e| panic!("{name}: {e}"));
    let (meshes, mounts, stdout) = (read("data/meshes"), read("data/mounts"), read("stdout"));
    let texts = frames::all(&meshes).map(|bytes| replayed(bytes).0).chain([many()]);
    let text: String = texts.chain(frames::all(&mounts).map(|bytes| stl::listing(bytes).0)).collect();
    assert!(text.as_bytes() == stdout, "crates/replay/stdout is not what the Rust answers");
    assert!(meshes == framed(), "crates/replay/data/meshes is not what `oracle stored` writes here");
    assert!(mounts == framed_mounts(), "crates/replay/data/mounts is not what `oracle stored stl` writes here");
}

// ---- STL files

fn framed_mounts() -> Vec<u8> {
    let mut bytes = Vec::new();
    stl::stored::all().iter().for_each(|stored| frames::push(&mut bytes, &stored.bytes));
    bytes
}

#[test]
fn the_stl_files_say_what_they_were_made_for() {
    let all = stl::stored::all();
    let text = |stored: &Stored| stl::listing(&stored.bytes).0;
    for stored in &all {
        assert!(!stored.says.is_empty() && head(&text(stored)).starts_with(stored.says), "{}", stored.name);
        assert_eq!(stl::listing(&stored.bytes).1, Exception::Apart, "{}", stored.name);
    }
    let different: HashSet<_> = all.iter().map(|stored| &stored.bytes).collect();
    let names: HashSet<_> = all.iter().map(|stored| &stored.name).collect();
    assert!(different.len() == all.len() && names.len() == all.len() && (24..60).contains(&all.len()));
    assert!(framed_mounts().len() < 40 << 10);
    for refusal in ["refused 4\n", "refused 5\n", "refused 6\n"] {
        assert!(all.iter().filter(|stored| text(stored) == refusal).count() > 2, "{refusal}");
    }
}

/// What no reader may look at, and a move by whole numbers, leave the text as it is.
#[test]
fn cubes_in_stl_files_have_one_text() {
    let all = stl::stored::all();
    let text = |name: &str| stl::listing(&all.iter().find(|stored| stored.name == name).expect("there is one").bytes).0;
    let cube = text("the cube, closed by the weld");
    // six faces of 40 by 40 mm, each triangle a piece of its own: the weld is the verdict's alone
    let volume = 64_000.0 * (stl::file::UNIT * stl::file::UNIT * stl::file::UNIT);
    assert!(cube.contains(&format!("\nvolume {:08x}\n", volume.to_bits())), "{cube}");
    assert!(cube.contains("\npieces 12\nused 12\nrange 0\nsliver 0\nsurfaces 6\n"), "{cube}");
    for other in
        ["the header begins with solid", "all normals one", "normals NaN", "attributes set", "moved by whole numbers"]
    {
        assert_eq!(text(&format!("the cube, {other}")), cube, "{other}");
    }
    assert_eq!(text("zeros of both signs"), cube);
    assert_ne!(text("the cube, inside out"), cube);
    assert!(text("84 bytes, count 0").contains("\nprism 00000000\npieces 0\nused 0\nrange 0\nsliver 0\nsurfaces 0\n"));
    assert!(text("the cube and slivers of one corner or two").contains("\nused 12\nrange 0\nsliver 3\n"));
}

#[test]
fn the_commands_write_the_stl_files_and_their_answers() {
    let (code, bytes, err) = oracle(&["stored", "stl"], &[]);
    assert_eq!((code, bytes == framed_mounts(), err.as_str()), (Some(0), true, ""));
    let (code, text, err) = oracle(&["replayed", "stl"], &bytes);
    let answers: String = stl::stored::all().iter().map(|stored| stl::listing(&stored.bytes).0).collect();
    assert_eq!((code, text == answers.as_bytes()), (Some(0), true));
    assert!(err.ends_with(" meshes, 0 near the one exception, 0 against document 01\n"));
    let (code, names, _) = oracle(&["stored", "stl", "names"], &[]);
    assert_eq!((code, String::from_utf8_lossy(&names).lines().count()), (Some(0), stl::stored::all().len()));
}
