//! The readings of docs/DIFFERENCES.md: for each, an input on which the original's answer tells the reading that was
//! taken from the one that was not.

use mowfrost_oracle::file::{push_record, write, Flags, MeshFile};
use mowfrost_oracle::listing::listing;
use mowfrost_oracle::mesh::qto::probe;
use mowfrost_oracle::pieces::pieces;
use mowfrost_oracle::record::{compute, compute_under, original, plain, Answer, Lent, Record, LEAST_UNIT};
use mowfrost_oracle::solids::Shape;
use mowfrost_oracle::stored::readings::shelf;
use std::hint::black_box;

/// A tetrahedron with three legs along the axes, outward.
fn legs(x: f32, y: f32, z: f32) -> Shape {
    Shape::tetrahedron(1.0).scaled([x, y, z])
}

/// A shape of these corners and triangles.
fn shape(corners: &[[f32; 3]], triangles: &[[u32; 3]]) -> Shape {
    Shape { vertices: corners.concat(), ids: triangles.concat() }
}

fn answer(shape: &Shape, unit: f32) -> Record {
    original(&shape.vertices, &shape.ids, unit)
}

fn bits(x: f32) -> String {
    format!("{:08x}", x.to_bits())
}

/// 2^-50
const TINY: f32 = f32::from_bits((127 - 50) << 23);

#[test]
fn d1_the_least_prism_is_chosen_before_the_unit() {
    // A floor that fills the plan of its box, and a wall over half the elevation. The wall's product is the least
    // positive one, and the only one that the cube of the unit takes to 0.
    let (x, y, z) = (2048.0, TINY, 0.9 * TINY);
    let mesh = shape(
        &[[0.0; 3], [x, 0.0, 0.0], [x, y, 0.0], [0.0, y, 0.0], [0.0, 0.0, z]],
        &[[0, 1, 2], [0, 2, 3], [0, 1, 4]],
    );
    let floor = probe::footprint_raw(&mesh.vertices, &mesh.ids, [0, 1], [0.0, x], [0.0, y]) * z;
    let wall = probe::footprint_raw(&mesh.vertices, &mesh.ids, [0, 2], [0.0, x], [0.0, z]) * y;
    assert!(0.0 < wall && wall < floor);
    let cubed = LEAST_UNIT * LEAST_UNIT * LEAST_UNIT;
    assert_eq!((bits(wall * cubed), bits(floor * cubed)), ("00000000".into(), "00000001".into()));
    let record = answer(&mesh, LEAST_UNIT);
    assert_eq!((record.quality, record.prism.map(bits)), ("open_shell", Some("00000000".into())));
}

#[test]
fn d2_constants_are_f32_and_so_are_products_with_them() {
    let t = Shape::tetrahedron(1.0);
    let quality = |volume: f32, aabb: f32| probe::classify_mesh_quality(&t.vertices, &t.ids, 1.0, volume, aabb);
    // 1.001 is 3f8020c5, above the decimal
    assert!(1.001f32 as f64 > 1.001);
    assert_eq!((quality(1.001, 1.0), quality(1.001f32.next_up(), 1.0)), ("closed", "open_shell"));
    // and thrice that is rounded up
    let bound = f32::from_bits(0x4040_3128);
    assert!(bound as f64 > 3.0 * 1.001f32 as f64);
    assert_eq!((quality(bound, 3.0), quality(bound.next_up(), 3.0)), ("closed", "open_shell"));

    // 1e-6 times 3 is 3649539c, above the exact product and above 3e-6
    let sheet = shape(&[[0.0; 3]; 4], &[[0, 1, 2], [2, 1, 0], [3, 3, 3]]);
    let cancels = |volume: f32| probe::classify_mesh_quality(&sheet.vertices, &sheet.ids, 1.0, volume, 3.0);
    let bound = f32::from_bits(0x3649_539c);
    assert!(bound as f64 > 3e-6 && bound as f64 > 3.0 * 1e-6f32 as f64);
    assert_eq!((cancels(bound), cancels(bound.next_up())), ("degenerate", "closed"));
}

fn shelf_record(d: f32, part: f32, whole_ceilings: usize) -> Record {
    answer(&shelf(d, part, whole_ceilings), 1.0)
}

#[test]
fn d2_the_margin_of_1_05_is_f32() {
    // The volume is at most 7 times 1.05 and above 7 times the f32: not trusted.
    let record = shelf_record(1.75, 0.2625, 3);
    assert_eq!((record.prism, bits(record.volume)), (Some(7.0), "40eb3333".into()));
    assert!(record.volume as f64 <= 7.0 * 1.05 && record.volume > 7.0 * 1.05f32);
    assert_eq!((record.quality, record.method), ("open_shell", "prism_fallback"));
}

#[test]
fn d2_the_share_of_1e_3_is_f32() {
    // The volume is under 4.125 times 1e-3 and not under 4.125 times the f32: not collapsed.
    let record = shelf_record(1.03125, f32::from_bits(0x3b4a_c083), 0);
    assert_eq!((record.prism, bits(record.volume)), (Some(4.125), "3b872b02".into()));
    assert!((record.volume as f64) < 4.125 * 1e-3 && record.volume == 4.125 * 1e-3f32);
    assert_eq!((record.quality, record.method), ("open_shell", "mesh_open"));
}

#[test]
fn d2_slope_thresholds_read_alike_in_f32_and_decimal() {
    // No f32 stands between a threshold and its decimal, so the strict comparisons cannot tell them apart.
    assert!((0.940f32 as f64) < 0.940 && (0.940f32.next_up() as f64) > 0.940);
    assert!((0.342f32 as f64) > 0.342 && (0.342f32.next_down() as f64) < 0.342);
}

#[test]
fn a6_the_thresholds_of_edition_2_read_alike_in_f32_and_decimal() {
    // 0.866 is 3f5db22d, below the decimal, and the next f32 is above it; 0.5 is itself.
    assert_eq!((bits(0.866), bits(0.5)), ("3f5db22d".into(), "3f000000".into()));
    assert!((0.866f32 as f64) < 0.866 && (0.866f32.next_up() as f64) > 0.866);
    assert_eq!((0.5f32 as f64, 0.5f32.next_down() as f64), (0.5, 0.5 - 2f64.powi(-25)));
    for nz in [0.866f32.next_down(), 0.866, 0.866f32.next_up(), 0.5f32.next_down(), 0.5, 0.5f32.next_up()] {
        let wide = nz as f64;
        assert_eq!((nz > 0.866, -nz < -0.866f32, nz.abs() < 0.5), (wide > 0.866, -wide < -0.866, wide.abs() < 0.5));
    }
}

#[test]
fn a6_the_normal_is_narrowed_before_it_is_compared() {
    // Above 0.866 in f64 and on its f32 once narrowed; under 0.5 in f64 and 0.5 once narrowed: inclined, both.
    for (direction, at) in [([166.0, 310.0, 609.0], 0.866f32), ([1145.0, 3372.0, 2056.0], 0.5)] {
        let [a, b, c]: [f64; 3] = direction;
        let z = c * (1.0 / (a * a + b * b + c * c).sqrt());
        assert!(z as f32 == at && if at == 0.866 { z > 0.866 } else { z < 0.5 });
        let shape = Shape::facing(direction.map(|k| k as i32));
        let mesh = plain(1.0, &shape.vertices, &shape.ids);
        let lent = Lent::exactly(mesh.vertices.len(), mesh.ids.len());
        let Answer::Record(record, _) = compute_under(&mesh, 2, lent) else { panic!("refused") };
        assert_eq!(record.slopes().map(|area| area > 0.0), [false, false, false, true]);
    }
}

#[test]
fn a6_an_edition_that_is_not_known_is_nothing_to_a_zero_record() {
    let nothing = plain(f32::NAN, &[f32::NAN; 8], &[0, 1, 2]);
    let none = Lent { work: 0, raster: 0, surfaces: 0 };
    let Answer::Record(record, _) = compute_under(&nothing, 3, none) else { panic!("refused") };
    assert_eq!((record.quality, record.method, record.rows.len()), ("degenerate", "prism_fallback", 0));
    let refusal = |unit: f32, x: f32, edition: u32, lent: Lent| {
        let mesh = plain(unit, &[x, 0.0, 0.0, 0.0, 1.0, 0.0, 0.0, 0.0, 1.0], &[0, 1, 2]);
        match compute_under(&mesh, edition, lent) {
            Answer::Refused(number) => number,
            Answer::Record(..) => 0,
        }
    };
    let exact = Lent::exactly(9, 3);
    assert_eq!(refusal(17.0, f32::NAN, 3, none), 2, "2 before 7");
    assert_eq!(refusal(1.0, f32::NAN, 3, none), 7, "7 before 3");
    assert_eq!(refusal(1.0, f32::NAN, 3, exact), 7, "7 before 4");
    assert_eq!(refusal(1.0, f32::NAN, 2, none), 3);
    assert_eq!(refusal(1.0, f32::NAN, 2, exact), 4);
    assert_eq!([0, 1, 2, 3, u32::MAX].map(|edition| refusal(1.0, 1.0, edition, exact)), [7, 0, 0, 7, 7]);
}

#[test]
fn d3_the_sliver_is_f64_and_the_rasters_is_f32() {
    // Doubled area f32 1e-12 (2b8cbccc), which is below the decimal.
    let mesh = shape(&[[0.0; 3], [1.0, 0.0, 0.0], [0.0, 1e-12, 0.0]], &[[0, 1, 2]]);
    assert!((1e-12f32 as f64) < 1e-12);
    assert!(answer(&mesh, 1.0).rows.is_empty(), "skipped in the sums: under the f64");
    let footprint = probe::footprint_raw(&mesh.vertices, &mesh.ids, [0, 1], [0.0, 1.0], [0.0, 1e-12]);
    assert!(footprint > 0.0, "kept in the raster: not under the f32");
    let under = shape(&[[0.0; 3], [1.0, 0.0, 0.0], [0.0, 1e-12f32.next_down(), 0.0]], &[[0, 1, 2]]);
    assert_eq!(probe::footprint_raw(&under.vertices, &under.ids, [0, 1], [0.0, 1.0], [0.0, 1e-12]), 0.0);
}

#[test]
fn d4_a_volume_can_be_negative_zero() {
    let record = answer(&legs(2048.0, TINY, TINY).flipped(), LEAST_UNIT);
    assert_eq!((bits(record.volume), bits(record.aabb)), ("80000000".into(), "00000001".into()));
}

#[test]
fn d5_the_normal_is_multiplied_by_one_over_its_length() {
    // The normal's z divided by its length narrows to -0.95 from above; by way of 1/length to the f32 before it.
    let mesh = shape(&[[0.0; 3], [15.0, 1.0, 0.0], [16_679_983.0, 0.0, 364_687.0]], &[[0, 1, 2]]);
    let n = [364_687.0f64, -5_470_305.0, -16_679_983.0];
    let length = (n[0] * n[0] + n[1] * n[1] + n[2] * n[2]).sqrt();
    assert_eq!(bits((n[2] * (1.0 / length)) as f32), "bf733332");
    assert_eq!(bits((n[2] / length) as f32), "bf733333");
    let keys = [0xbf73_3332, 0xbf73_3333].map(|b| (f32::from_bits(b) * 10.0).round());
    assert_eq!(keys, [-9.0, -10.0]);
    assert_eq!(answer(&mesh, 1.0).rows[0][3], -9.0 / 10.0);
}

#[test]
fn d6_volume_is_divided_then_scaled_then_narrowed() {
    let unit = 0.001f32;
    let cubed = unit * unit * unit;
    // narrowing before the unit would show on the smallest tetrahedron
    let one = answer(&legs(1.0, 1.0, 1.0), unit);
    assert_eq!((bits(one.volume), bits((1.0f64 / 6.0) as f32 * cubed)), ("2f374081".into(), "2f374082".into()));
    // dividing last shows first at six volumes of 85 · 10,125,853
    let six = 860_697_505.0f64;
    let large = answer(&legs(85.0, 10_125_853.0, 1.0), unit);
    assert_eq!(bits((six * cubed as f64 / 6.0) as f32), "3e12e475");
    assert_eq!(bits(large.volume), "3e12e474");
}

#[test]
fn d7_rows_are_ordered_by_the_area_after_the_unit() {
    // The level triangle is larger by one step, and after u² the two are equal: then the lesser nx comes first.
    let (unit, less) = (0.1f32, 1.5625f32);
    let more = less.next_up();
    let mesh = shape(&[[0.0; 3], [more, 0.0, 0.0], [0.0, 1.0, 0.0], [0.0, 0.0, less]], &[[0, 1, 2], [0, 3, 2]]);
    assert_eq!((more * 0.5) * (unit * unit), (less * 0.5) * (unit * unit));
    let normals: Vec<[f32; 3]> = answer(&mesh, unit).rows.iter().map(|r| [r[1], r[2], r[3]]).collect();
    assert_eq!(normals, [[-1.0, 0.0, 0.0], [0.0, 0.0, 1.0]]);
    let normals: Vec<[f32; 3]> = answer(&mesh, 1.0).rows.iter().map(|r| [r[1], r[2], r[3]]).collect();
    assert_eq!(normals, [[0.0, 0.0, 1.0], [-1.0, 0.0, 0.0]]);
}

#[test]
fn d8_box_and_volume_are_judged_after_the_unit() {
    // The raw box is above 0; its product with u³ is not.
    let side = f32::from_bits((127 - 31) << 23);
    let record = answer(&Shape::cube(side), LEAST_UNIT);
    assert_eq!((record.quality, bits(record.aabb)), ("degenerate", "00000000".into()));
    assert_eq!(answer(&Shape::cube(side), 1.0).quality, "closed");
}

#[test]
fn d9_largest_is_0_without_rows() {
    let record = answer(&shape(&[[0.0; 3], [1.0, 1.0, 1.0], [2.0, 2.0, 2.0]], &[[0, 1, 2]]), 1.0);
    assert_eq!(
        (record.rows.len(), bits(record.largest), bits(record.smallest)),
        (0, "00000000".into(), "00000000".into())
    );
}

#[test]
fn d10_flags_apply_to_the_zero_record() {
    let mesh = MeshFile { flags: Flags { clip: true, defect: 3 }, ..plain(1.0, &[], &[]) };
    let Answer::Record(record, _) = compute(&mesh, Lent::exactly(0, 0)) else { panic!("refused") };
    assert_eq!((record.method, record.profile, record.reliable), ("prism_fallback", Some("hole_outside"), false));
}

#[test]
fn d11_leftover_floats_count_for_refusal_4_and_not_for_the_box() {
    let mut cube = Shape::cube(1.0);
    cube.vertices.extend([-500.0, 500.0]);
    assert_eq!(answer(&cube, 1.0).aabb, 1.0);
    cube.vertices[25] = f32::NAN;
    assert_eq!(listing(&write(&plain(1.0, &cube.vertices, &cube.ids), false)).0, "refused 4\n");
}

#[test]
fn d12_pieces_and_faces_need_no_nine_ids_and_ignore_leftovers() {
    assert_eq!((pieces(&[0, 1, 2]), pieces(&[0, 1, 2, 3, 4, 5, 6]), pieces(&[0, 1])), (1, 2, 0));
    assert_eq!(probe::face_net(&[0, 1, 2, 0, 1, 2]), (2, false));
    assert_eq!(probe::face_net(&[0, 1, 2, 0, 1, 2, 0, 1]), (2, false));
    assert_eq!(probe::face_net(&[]), (0, true));
    assert_eq!(probe::edge_chain(&[0, 1, 2, 0, 1, 2, 0, 1]), (false, false), "the chain is empty, not over-incident");
}

#[test]
fn d13_faults_of_the_file_come_before_the_table() {
    let mut bytes = Vec::new();
    push_record(&mut bytes, 1, &f32::NAN.to_le_bytes());
    push_record(&mut bytes, 2, &vec![0xff; 4 * 1537]);
    assert_eq!(
        listing(&bytes).0,
        "refused 6\n",
        "too many is met before the ids that are missing, and before the unit"
    );
    assert_eq!(listing(&bytes[..20]).0, "refused 6\n", "and before the payload that is cut");
    assert_eq!(listing(&bytes[..15]).0, "refused 5\n", "a header that is cut comes first");
    assert_eq!(listing(&[]).0, "refused 5\n");
}

#[test]
fn d14_one_in_fifty_by_f64_is_fifty_times_by_whole_numbers() {
    for edges in 1u32..=98_304 {
        for bad in [edges / 50, edges / 50 + 1] {
            assert_eq!(bad as f64 <= edges as f64 * 0.02, 50 * bad <= edges, "{bad} of {edges}");
        }
    }
}

#[test]
fn d15_chain_drops_a_triangle_with_a_repeated_id_whole_and_manifold_only_its_zero_edge() {
    // A tetrahedron and 011: an edge of its own, walked once each way.
    let ids = [0, 1, 2, 0, 2, 3, 0, 3, 1, 1, 3, 2, 4, 5, 5];
    assert_eq!(probe::edge_chain(&ids), (true, false));
    assert!(probe::is_closed_manifold(&ids));
    // The same on an edge that the tetrahedron has: four uses.
    let ids = [0, 1, 2, 0, 2, 3, 0, 3, 1, 1, 3, 2, 0, 1, 1];
    assert_eq!(probe::edge_chain(&ids), (true, false));
    assert!(!probe::is_closed_manifold(&ids));
    assert!(!probe::winding_coherent(&ids));
}

#[test]
fn d16_rust_leaves_the_zero_of_least_and_greatest_open() {
    // 01 takes the first of two equal values. Rust may hand back either: only the value is the same.
    for (x, y) in [(0.0f32, -0.0f32), (-0.0, 0.0)] {
        let (x, y) = (black_box(x), black_box(y));
        assert_eq!((x.min(y), x.max(y)), (0.0, 0.0));
    }
}

#[test]
fn d17_rust_may_answer_a_signalling_nan_with_a_nan() {
    // 01 passes over it as over any NaN: 1. IEEE 754-2019 9.6 does too. Rust on Arm answers a NaN.
    let signalling = black_box(f32::from_bits(0x7f80_0001));
    for least in [signalling.min(black_box(1.0)), black_box(1.0f32).min(signalling)] {
        assert!(least.is_nan() || least == 1.0);
    }
    assert_eq!(black_box(f32::NAN).min(black_box(1.0)), 1.0, "over a quiet one it passes");
}

#[test]
fn d18_a_nan_that_an_operation_made_has_no_fixed_bits() {
    // 01 fixes 7fc00000 and 7ff8000000000000. Rust fixes neither sign nor digits.
    assert!((black_box(0.0f32) / black_box(0.0)).is_nan());
    assert!(black_box(-1.0f64).sqrt().is_nan());
    let digits = black_box(f64::from_bits(0x7ff8_1234_5678_9abc));
    assert!((digits as f32).is_nan() && digits.floor().is_nan());
    // These are fixed in all three: the root of -0 is -0; of a magnitude the sign goes and the digits stay.
    assert_eq!(black_box(-0.0f64).sqrt().to_bits(), 1 << 63);
    assert_eq!(black_box(f32::from_bits(0xff80_0001)).abs().to_bits(), 0x7f80_0001);
}
