//! Document 01's checked examples that speak of meshes or ids, and its cube to the letter, with 02's three lines (A1) and
//! 02's pieces (A2): on the Rust, but for refusals, pieces and counts, which 000 does not have; there the oracle's own
//! form of the documents' words is run.

use mowfrost_oracle::counts::Counts;
use mowfrost_oracle::exception::{cube_exceeds, is_near};
use mowfrost_oracle::file::{write, Flags, MeshFile, DEFECTS};
use mowfrost_oracle::listing::listing;
use mowfrost_oracle::mesh::qto::probe;
use mowfrost_oracle::pieces::pieces;
use mowfrost_oracle::record::{compute, plain, Answer, Lent, Record};
use mowfrost_oracle::solids::Shape;
use mowfrost_oracle::stored::examples::{ids, with_one_bad_edge};

fn record(mesh: &MeshFile) -> Record {
    match compute(mesh, Lent::exactly(mesh.vertices.len(), mesh.ids.len())) {
        Answer::Record(record, _) => record,
        Answer::Refused(n) => panic!("refused {n}"),
    }
}

fn refusal(mesh: &MeshFile) -> u32 {
    match compute(mesh, Lent::exactly(mesh.vertices.len(), mesh.ids.len())) {
        Answer::Record(..) => 0,
        Answer::Refused(n) => n,
    }
}

fn cube() -> MeshFile {
    let shape = Shape::cube(2.0);
    assert_eq!(shape.ids, ids("023 031 457 476 015 054 267 273 046 062 137 175"));
    plain(1.0, &shape.vertices, &shape.ids)
}

#[test]
fn the_cube_gives_document_01s_listing() {
    let expected = "quality closed\nreliable 1\nmethod mesh\nprofile none\nvolume 41000000\naabb 41000000\n\
        surface 41c00000\ntop 40800000\nbottom 40800000\nside 41800000\ninclined 00000000\nlargest 40800000\n\
        smallest 40800000\nbest 41000000\nprism none\npieces 1\nused 12\nrange 0\nsliver 0\nsurfaces 6\n\
        40800000 bf800000 00000000 00000000\n40800000 00000000 bf800000 00000000\n\
        40800000 00000000 00000000 bf800000\n40800000 00000000 00000000 3f800000\n\
        40800000 00000000 3f800000 00000000\n40800000 3f800000 00000000 00000000\n";
    assert_eq!(listing(&write(&cube(), false)).0, expected);
    assert_eq!(listing(&write(&cube(), true)).0, expected, "kind 4 that says nothing changes nothing");
}

#[test]
fn tetrahedron_is_boundary_free_with_single_faces_in_one_piece() {
    let t = ids("012 023 031 132");
    assert_eq!(probe::edge_chain(&t), (true, false));
    assert_eq!(probe::face_net(&t), (1, false));
    assert_eq!(pieces(&t), 1);
}

#[test]
fn opposite_faces_cancel() {
    assert_eq!(probe::edge_chain(&ids("012 210 333")), (true, false));
    assert_eq!(probe::face_net(&ids("012 210 333")), (0, true));
    assert!(!probe::edge_chain(&ids("012 210")).0, "six ids are too few");
}

#[test]
fn nine_zeros_are_no_chain_and_yet_a_closed_manifold() {
    assert!(!probe::edge_chain(&[0; 9]).0);
    assert!(probe::is_closed_manifold(&[0; 9]));
    assert_eq!(pieces(&[0; 9]), 0);
}

#[test]
fn doubled_tetrahedron_is_over_incident_with_face_sum_2() {
    let t = ids("012 023 031 132 012 023 031 132");
    assert_eq!(probe::edge_chain(&t), (true, true));
    assert_eq!(probe::face_net(&t).0, 2);
}

#[test]
fn ten_ids_are_not_boundary_free() {
    assert!(!probe::edge_chain(&ids("012 023 031 1")).0);
    assert!(!probe::edge_chain(&ids("012 023 031 132 0")).0);
}

/// One piece in 01; 02's A2 makes them two.
#[test]
fn two_tetrahedra_sharing_one_id_are_two_pieces() {
    assert_eq!(pieces(&ids("012 023 031 132 345 356 364 465")), 2);
    assert_eq!(pieces(&ids("012 023 031 132 456 467 475 576")), 2);
    assert_eq!(pieces(&ids("012 023 031 132 234 245 253 354")), 1, "sharing an edge");
}

#[test]
fn clip_comes_before_defect() {
    for (defect, case) in (1..).zip(DEFECTS) {
        let both = record(&MeshFile { flags: Flags { clip: true, defect }, ..cube() });
        assert_eq!((both.method, both.reliable, both.profile), ("mesh_unclipped", false, Some(case.as_str())));
        let alone = record(&MeshFile { flags: Flags { clip: false, defect }, ..cube() });
        assert_eq!((alone.method, alone.reliable), ("mesh_profile_invalid", false));
        assert_eq!(alone.profile, Some(case.as_str()));
    }
    let names = DEFECTS.map(|d| d.as_str());
    assert_eq!(names, ["self_intersecting", "degenerate", "hole_outside", "overlapping"]);
}

#[test]
fn cube_without_457_is_open_and_trusted() {
    let mut mesh = cube();
    mesh.ids.drain(6..9);
    let answer = record(&mesh);
    assert_eq!((answer.quality, answer.method), ("open_shell", "mesh_open"));
    assert_eq!(answer.prism, Some(8.0));
}

#[test]
fn a_level_triangle_is_degenerate_with_bound_0() {
    let answer = record(&plain(1.0, &[0.0, 0.0, 5.0, 1.0, 0.0, 5.0, 0.0, 1.0, 5.0], &[0, 1, 2]));
    assert_eq!((answer.quality, answer.prism), ("degenerate", Some(0.0)));
}

#[test]
fn eight_floats_or_two_ids_give_the_zero_record() {
    let eight = record(&plain(1.0, &[1.0; 8], &[0, 1, 2]));
    let two = record(&plain(1.0, &[1.0; 9], &[0, 1]));
    for zero in [eight, two] {
        assert_eq!((zero.quality, zero.method, zero.reliable), ("degenerate", "prism_fallback", false));
        assert_eq!((zero.prism, zero.rows.len(), zero.counts), (Some(0.0), 0, Counts::default()));
        let numbers = [zero.volume, zero.aabb, zero.surface, zero.top, zero.bottom, zero.side, zero.inclined];
        assert!(numbers.iter().chain(&[zero.largest, zero.smallest, zero.best]).all(|n| n.to_bits() == 0));
    }
}

#[test]
fn pieces_are_counted_beside_a_zero_record() {
    let text = listing(&write(&plain(f32::NAN, &[1.0; 8], &ids("012 345 3")), false)).0;
    assert!(text.starts_with("quality degenerate\nreliable 0\nmethod prism_fallback\nprofile none\nvolume 00000000\n"));
    assert!(text.ends_with("best 00000000\nprism 00000000\npieces 2\nused 0\nrange 0\nsliver 0\nsurfaces 0\n"));
}

#[test]
fn the_limits_and_their_neighbours() {
    let far = |x: f32| refusal(&plain(1.0, &[x, 0.0, 0.0, 1.0, 0.0, 0.0, 0.0, 1.0, 0.0], &[0, 1, 2]));
    assert_eq!((far(8_589_934_592.0), far(-8_589_934_592.0)), (0, 0));
    assert_eq!((far(8_589_935_616.0), far(-8_589_935_616.0)), (4, 4));
    assert_eq!(8_589_934_592f32.next_up(), 8_589_935_616.0);
    let at = |unit: f32| refusal(&MeshFile { unit, ..cube() });
    assert_eq!((at(16.0), at(16f32.next_up())), (0, 2));
    assert_eq!((at(0.5f32.powi(20)), at(0.5f32.powi(20).next_down())), (0, 2));
    assert_eq!((at(f32::NAN), at(f32::INFINITY), at(-1.0)), (2, 2, 2));
}

#[test]
fn the_areas_are_asked_for_exactly_and_in_01s_order() {
    let mesh = cube();
    let asked = Lent::exactly(24, 36);
    assert_eq!(asked.work, 5 * 36 + 4 * 12 + 8 * 8);
    let with = |lent: Lent, mesh: &MeshFile| match compute(mesh, lent) {
        Answer::Refused(n) => n,
        Answer::Record(..) => 0,
    };
    assert_eq!(with(asked, &mesh), 0);
    assert_eq!(with(Lent { work: asked.work - 1, ..asked }, &mesh), 3);
    assert_eq!(with(Lent { raster: asked.raster - 1, ..asked }, &mesh), 3);
    assert_eq!(with(Lent { surfaces: asked.surfaces - 1, ..asked }, &mesh), 3);
    let nothing = Lent { work: 0, raster: 0, surfaces: 0 };
    assert_eq!(with(nothing, &MeshFile { unit: 17.0, ..cube() }), 2, "2 before 3");
    let mut far = cube();
    far.vertices[0] = f32::NAN;
    assert_eq!(with(nothing, &far), 3, "3 before 4");
    assert_eq!(with(nothing, &plain(f32::NAN, &[f32::NAN; 8], &[0; 3])), 0, "the zero record before 2, 3 and 4");
    assert_eq!(with(nothing, &plain(f32::NAN, &vec![0.0; 98_305], &[])), 1, "1 before the zero record");
    assert_eq!(with(nothing, &plain(f32::NAN, &[], &vec![0; 98_305])), 1);
    assert_eq!(with(nothing, &plain(f32::NAN, &vec![0.0; 98_304], &[])), 0);
}

#[test]
fn one_bad_edge_of_50_passes_and_of_49_does_not() {
    assert!(probe::winding_coherent(&with_one_bad_edge(50)));
    assert!(!probe::winding_coherent(&with_one_bad_edge(49)));
}

#[test]
fn the_exact_test_of_the_one_exception() {
    // s = 1/2, p = 1: 8s³ = p²
    assert!(!cube_exceeds(0.5, 1.0) && is_near(0.5, 1.0));
    assert!(cube_exceeds(0.5f32.next_up(), 1.0) && is_near(0.5f32.next_up(), 1.0));
    assert!(!cube_exceeds(0.5f32.next_down(), 1.0));
    assert!(cube_exceeds(1.0, 1.0) && !is_near(1.0, 1.0));
    assert!(!cube_exceeds(0.0, 1.0) && !cube_exceeds(0.0, 0.0) && cube_exceeds(1.0, 0.0));
    assert!(cube_exceeds(f32::MAX, f32::MAX) && !cube_exceeds(f32::from_bits(1), f32::from_bits(1)));
    assert!(!cube_exceeds(f32::from_bits(1), f32::MAX) && cube_exceeds(f32::MAX, f32::from_bits(1)));
}
