//! The plain reference for A1's counts, held to 02's sentences: the sum rule on every full record, each question by hand, and that
//! what is used is what the original measures.

use mowfrost_oracle::compute::meshes::{by_chance, kinds, large};
use mowfrost_oracle::counts::{counts, lengths, Counts, Met, SHORTEST};
use mowfrost_oracle::file::{Flags, MeshFile};
use mowfrost_oracle::record::{compute, is_zero_record, original, Answer, Lent, Record};
use mowfrost_oracle::solids::Shape;

fn record(mesh: &MeshFile) -> Option<Record> {
    match compute(mesh, Lent::exactly(mesh.vertices.len(), mesh.ids.len())) {
        Answer::Record(record, _) => Some(record),
        Answer::Refused(_) => None,
    }
}

fn meshes() -> impl Iterator<Item = MeshFile> {
    let chance = (0..kinds().len()).flat_map(|kind| (0..120).map(move |turn| by_chance(kind, turn)));
    chance.chain(large().into_iter().map(|(_, mesh)| mesh))
}

#[test]
fn the_three_add_up_to_the_complete_triples() {
    let (mut full, mut zero) = (Met::default(), 0);
    for mesh in meshes() {
        let Some(Record { counts: all @ Counts { used, range, sliver }, .. }) = record(&mesh) else { continue };
        if is_zero_record(&mesh) {
            assert_eq!(all, Counts::default());
            zero += 1;
        } else {
            assert_eq!((used + range + sliver) as usize, mesh.ids.len() / 3);
            full.add(all);
        }
    }
    assert!(full.meshes > 3_000 && zero > 200, "{}", full.told());
    assert!(full.all_used > 500 && full.range > 300 && full.sliver > 300, "{}", full.told());
    assert!(full.both > 50 && full.none_used > 50, "{}", full.told());
}

/// A triangle is used exactly where the original adds it: alone with the box's corners it has a surface then, and only then.
#[test]
fn used_is_what_the_original_measures() {
    let (mut measured, mut left_out) = (0, 0);
    for mesh in meshes().filter(|mesh| mesh.ids.len() < 60 && !is_zero_record(mesh)) {
        if record(&mesh).is_none() {
            continue;
        }
        for t in mesh.ids.chunks_exact(3) {
            // all vertices stay, and with them the box
            let rows = original(&mesh.vertices, t, 1.0).rows.len();
            let Counts { used, range, sliver } = counts(&mesh.vertices, t);
            assert_eq!((used as usize, range + sliver), (rows, 1 - rows as u32), "{t:?} of {:?}", mesh.vertices);
            (measured, left_out) = (measured + rows, left_out + 1 - rows);
        }
    }
    assert!(measured > 5_000 && left_out > 2_000, "{measured} and {left_out}");
}

#[test]
fn flags_leave_them_alone() {
    for mesh in meshes().filter(|mesh| mesh.ids.len() < 600) {
        let counted = |clip: bool, defect: u8| {
            record(&MeshFile { flags: Flags { clip, defect }, ..mesh.clone() }).map(|record| record.counts)
        };
        assert!([(true, 0), (false, 2), (true, 4)]
            .iter()
            .all(|&(clip, defect)| counted(clip, defect) == counted(false, 0)));
    }
}

#[test]
fn at_the_limit_it_is_exact() {
    let alone = |shape: &Shape| lengths(&shape.vertices, &shape.ids).collect::<Vec<_>>();
    for (step, length, used) in [(-1, SHORTEST.next_down(), 0), (0, SHORTEST, 1), (1, SHORTEST.next_up(), 1)] {
        for rolled in 0..3 {
            let shape = Shape::at_limit(step).rolled(rolled);
            assert_eq!(alone(&shape), [Some(length)]);
            assert_eq!(alone(&shape.clone().flipped()), [Some(length)]);
            assert_eq!(counts(&shape.vertices, &shape.ids), Counts { used, range: 0, sliver: 1 - used });
        }
    }
    assert_eq!(SHORTEST.to_bits(), 0x3d71_9799_812d_ea11);
}

/// Of a mesh with three vertices and two floats left over: what is asked of an id, and when.
#[test]
fn the_range_is_asked_first_and_by_floats() {
    let vertices = [0.0, 0.0, 0.0, 1.0, 0.0, 0.0, 0.0, 1.0, 0.0, 0.0, 0.0];
    let counted = |ids: &[u32]| {
        let Counts { used, range, sliver } = counts(&vertices, ids);
        [used, range, sliver]
    };
    assert_eq!(counted(&[0, 1, 2]), [1, 0, 0]);
    for id in [3, 4, 0x5555_5555, 0x5555_5556, 0xaaaa_aaab, u32::MAX] {
        for ids in [[id, 1, 2], [0, id, 2], [0, 1, id], [id, id, 0], [0, 0, id], [id; 3]] {
            assert_eq!(counted(&ids), [0, 1, 0], "{ids:?}");
        }
    }
    assert_eq!(counted(&[0, 0, 1, 1, 1, 1]), [0, 0, 2]);
    assert_eq!((counted(&[0, 1, 2, 3]), counted(&[0, 1, 2, 3, 3])), ([1, 0, 0], [1, 0, 0]), "leftover ids");
}
