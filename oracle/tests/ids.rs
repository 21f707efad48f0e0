//! The port's id routines beside the original's: short and large lists and some thousand by chance here, more by
//! `oracle ids N`. What asks the port is ignored, and says so, where its static libraries were not built.

use mowfrost_oracle::ids::compare::{on_chance, on_large, on_short};
use mowfrost_oracle::ids::lists::{all_short, beads, hinges, large, SHAPES};
use mowfrost_oracle::ids::routines::{Routine, MOST_IDS, ROUTINES};
use mowfrost_oracle::random::Random;
use std::collections::HashSet;

mod joins;

use joins::{by_edges, by_ids, groups, is_distinct, pieces_by, triangles, Triangle};

fn routine(name: &str) -> &'static Routine {
    ROUTINES.iter().find(|routine| routine.name == name).expect("a routine of that name")
}

/// The answer over an area of just the words needed.
fn ask(name: &str, ids: &[u32]) -> u32 {
    let routine = routine(name);
    let mut work = vec![9; (routine.needed)(ids.len())];
    let answer = (routine.port)(ids, &mut work);
    assert!(work.iter().all(|&word| word == 0), "{name}: the area is zero after an answer");
    assert_eq!(answer, (routine.rust)(ids), "{name}: as the original");
    answer
}

#[test]
#[cfg_attr(
    not(port),
    ignore = "the port's libraries were not built: at the root, tools/staticlib capi and tools/staticlib probe"
)]
fn every_routine_agrees() {
    for routine in &ROUTINES {
        for count in [on_short(routine), on_large(routine), on_chance(routine, 20_000)] {
            assert_eq!(count.differ, 0, "{:?}", count.shown);
            assert!(count.agree > 0 && count.refused > 0, "{}", routine.name);
        }
        // each number that the routine can answer comes up (4 stands for more)
        let wanted: &[usize] = match routine.name {
            "edge_chain" => &[0, 1, 2, 3],
            "face_net" => &[1, 2, 4],
            "pieces" => &[0, 1, 2, 3, 4],
            _ => &[0, 1],
        };
        let answered = on_chance(routine, 20_000).answered;
        assert!(wanted.iter().all(|&number| answered[number] > 100), "{}: {answered:?}", routine.name);
    }
}

/// The starred examples of 01, run.
#[test]
#[cfg_attr(
    not(port),
    ignore = "the port's libraries were not built: at the root, tools/staticlib capi and tools/staticlib probe"
)]
fn the_examples() {
    let tetrahedron = [0, 1, 2, 0, 2, 3, 0, 3, 1, 1, 3, 2];
    assert_eq!(
        (ask("edge_chain", &tetrahedron), ask("face_net", &tetrahedron), ask("pieces", &tetrahedron)),
        (1, 2, 1)
    );
    let cancels = [0, 1, 2, 2, 1, 0, 3, 3, 3];
    assert_eq!((ask("edge_chain", &cancels), ask("face_net", &cancels)), (1, 1));
    assert_eq!(ask("edge_chain", &cancels[..6]), 0);
    assert_eq!((ask("edge_chain", &[0; 9]), ask("is_closed_manifold", &[0; 9])), (0, 1));
    let twice = [tetrahedron, tetrahedron].concat();
    assert_eq!((ask("edge_chain", &twice), ask("face_net", &twice)), (3, 4));
    assert_eq!(ask("edge_chain", &tetrahedron[..10]), 0);
    // 02's A2: with one common id they are two, with a common edge one
    assert_eq!((ask("pieces", &beads(8)), ask("pieces", &hinges(8))), (2, 1));
}

/// One bad edge of 50 is coherent, of 49 it is not.
#[test]
#[cfg_attr(
    not(port),
    ignore = "the port's libraries were not built: at the root, tools/staticlib capi and tools/staticlib probe"
)]
fn winding_at_one_in_fifty() {
    // five edges, one of them used twice the same way; then triangles of three edges, and a pair of five
    let bad = [0, 1, 2, 0, 1, 3];
    let lone = |n: u32| (0..n).flat_map(|i| [100 + 3 * i, 101 + 3 * i, 102 + 3 * i]);
    let fifty: Vec<u32> = bad.into_iter().chain(lone(15)).collect();
    assert_eq!(ask("winding_coherent", &fifty), 1);
    let forty_nine: Vec<u32> = bad.into_iter().chain([10, 11, 12, 11, 10, 13]).chain(lone(13)).collect();
    assert_eq!(ask("winding_coherent", &forty_nine), 0);
}

/// Every word of the area is compared: wrong routines that look right are found on the short lists.
#[test]
#[cfg_attr(
    not(port),
    ignore = "the port's libraries were not built: at the root, tools/staticlib capi and tools/staticlib probe"
)]
fn a_wrong_routine_is_found() {
    type Port = fn(&[u32], &mut [u32]) -> u32;
    let wrong: [(&str, Port); 6] = [
        // six ids make a chain
        ("edge_chain", |ids, work| match (routine("edge_chain").port)(ids, work) {
            0 if ids.len() == 6 && (routine("face_net").rust)(ids) == 1 => 1,
            answer => answer,
        }),
        // a constant
        ("face_net", |ids, work| (routine("face_net").port)(ids, work) & 0x8000_0003 | 1),
        // one word left set
        ("is_closed_manifold", |ids, work| {
            let answer = (routine("is_closed_manifold").port)(ids, work);
            work.last_mut().into_iter().for_each(|word| *word = 5);
            answer
        }),
        // a refusal that has already cleared
        ("winding_coherent", |ids, work| {
            let answer = (routine("winding_coherent").port)(ids, work);
            work.first_mut().into_iter().for_each(|word| *word = 0);
            answer
        }),
        // a short area is taken
        ("pieces", |ids, work| {
            let mut own = work.to_vec();
            own.push(0);
            let answer = (routine("pieces").port)(ids, &mut own);
            if answer < 0x8000_0000 {
                work.fill(0);
            }
            answer
        }),
        // every triangle is a piece
        ("pieces", |ids, work| (routine("pieces").port)(ids, work).max(ids.len() as u32 / 3)),
    ];
    for (name, port) in wrong {
        let count = on_short(&Routine { port, ..*routine(name) });
        assert!(count.differ > 0, "{name}: not found");
    }
}

// ---- other things that could join two triangles

fn edges(&[a, b, c]: &Triangle) -> [[u32; 2]; 3] {
    [[a, b], [b, c], [c, a]].map(|[from, to]| [from.min(to), from.max(to)])
}

/// The edge from the second corner to the third is left out.
fn by_two_edges(ids: &[u32]) -> u32 {
    let two = |t: &Triangle| [edges(t)[0], edges(t)[2]];
    pieces_by(ids, |one, other| two(one).iter().any(|edge| two(other).contains(edge)))
}

/// An edge joins only those that walk it in opposite directions.
fn by_opposite_edges(ids: &[u32]) -> u32 {
    let walked = |&[a, b, c]: &Triangle| [[a, b], [b, c], [c, a]];
    pieces_by(ids, |one, other| walked(one).iter().any(|&[from, to]| walked(other).contains(&[to, from])))
}

/// Triangles that repeat an id are no piece, and yet join.
fn by_repeated_ids(ids: &[u32]) -> u32 {
    let groups = groups(triangles(ids), |one, other| edges(one).iter().any(|edge| edges(other).contains(edge)));
    groups.iter().filter(|group| group.iter().any(is_distinct)).count() as u32
}

/// The port's refusals and words, with another answer.
fn answering(ids: &[u32], work: &mut [u32], other: fn(&[u32]) -> u32) -> u32 {
    match (routine("pieces").port)(ids, work) {
        answer if answer < 0x8000_0000 => other(ids),
        refusal => refusal,
    }
}

/// On short lists all but the last, which takes four triangles to show.
#[test]
#[cfg_attr(
    not(port),
    ignore = "the port's libraries were not built: at the root, tools/staticlib capi and tools/staticlib probe"
)]
fn pieces_joined_otherwise_are_found() {
    type Port = fn(&[u32], &mut [u32]) -> u32;
    let right: Port = |ids, work| answering(ids, work, by_edges);
    assert_eq!(on_short(&Routine { port: right, ..*routine("pieces") }).differ, 0);
    let wrong: [(&str, Port); 3] = [
        ("by an id", |ids, work| answering(ids, work, by_ids)),
        ("an edge left out", |ids, work| answering(ids, work, by_two_edges)),
        ("by edges walked both ways", |ids, work| answering(ids, work, by_opposite_edges)),
    ];
    for (what, port) in wrong {
        let count = on_short(&Routine { port, ..*routine("pieces") });
        assert!(count.differ > 0 && count.shown.iter().all(|line| !line.contains("word ")), "{what}");
    }
    let port: Port = |ids, work| answering(ids, work, by_repeated_ids);
    assert!(on_chance(&Routine { port, ..*routine("pieces") }, 2_000).differ > 0, "repeated ids join");
}

/// Shapes of 24 triangles, and into how many pieces they fall: by edges, and by ids.
#[test]
fn the_shapes_are_in_pieces() {
    let found = SHAPES.map(|(name, shape)| (name, (routine("pieces").rust)(&shape(24)), by_ids(&shape(24))));
    let wanted = [
        ("torus", 1, 1),
        ("soup", 24, 24),
        ("fan", 1, 1),
        ("boxes", 2, 2),
        ("strip", 1, 1),
        ("beads", 6, 1),
        ("book", 1, 1),
        ("pile", 1, 1),
        ("plinths", 2, 1),
        ("hinges", 1, 1),
        ("fans", 6, 1),
        ("eye", 2, 1),
        ("ring", 1, 1),
    ];
    assert_eq!(found, wanted);
}

#[test]
fn the_lists_have_what_they_are_for() {
    let short = all_short();
    assert_eq!(short.len(), (0..=9).map(|n| 3usize.pow(n)).sum::<usize>() + 21_517);
    assert!(short.iter().all(|ids| ids.len() <= 9) && short.iter().collect::<HashSet<_>>().len() == short.len());
    let lists = large(&mut Random::new(11));
    for length in [MOST_IDS, MOST_IDS + 1, MOST_IDS - 1] {
        assert!(lists.iter().any(|ids| ids.len() == length), "{length}");
    }
    assert!(lists.iter().any(|ids| ids.contains(&u32::MAX)), "the largest id");
    let reached = |name: &str, wanted: u32| lists.iter().any(|ids| (routine(name).rust)(ids) == wanted);
    assert!(reached("edge_chain", 1) && reached("edge_chain", 0) && reached("edge_chain", 2));
    assert!(reached("is_closed_manifold", 1) && reached("winding_coherent", 1) && reached("winding_coherent", 0));
    assert!(reached("pieces", 1) && reached("pieces", 2) && reached("pieces", MOST_IDS as u32 / 3));
}
