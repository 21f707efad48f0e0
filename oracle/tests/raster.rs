//! The port's point test and footprint beside the original's, and its cells beside the plain reference's: large meshes and some
//! thousand by chance here, more by `oracle raster N`. What asks the port is ignored, and says so, where its static libraries were not
//! built.

use mowfrost_oracle::mesh::qto::probe;
use mowfrost_oracle::random::Random;
use mowfrost_oracle::raster::cells::{by_values, grid, place, values, Cells, Grid, Place, Point};
use mowfrost_oracle::raster::compare::{on_chance, on_large, on_points, Count, BYTES, POINT_TEST, PORT};
use mowfrost_oracle::raster::meshes::{by_chance, Scene};
use mowfrost_oracle::raster::speed::with_rim;

mod rules;

use rules::{WRONG_CELLS, WRONG_TESTS};

#[test]
#[cfg_attr(
    not(port),
    ignore = "the port's libraries were not built: at the root, tools/staticlib capi and tools/staticlib probe"
)]
fn every_footprint_agrees() {
    reaches_everything(on_large(PORT), on_chance(PORT, 2_000));
}

fn reaches_everything(large: Count, chance: Count) {
    for count in [&large, &chance] {
        assert_eq!(count.differ, 0, "{:?}", count.shown);
    }
    assert!(large.some > 10 && chance.some > 700 && chance.nothing > 100 && chance.nan > 5 && chance.untaken > 50);
    assert!(large.told > 15 && chance.told > 1_700, "{} and {}", large.told, chance.told);
    let (met, told) = (chance.met, chance.met.told());
    assert!(met.rims > 20_000 && met.rim > 300 && met.rim_alone > 15, "{told}");
    assert!(met.of_two > 100 && met.of_more > 20 && met.inside_another > 100, "{told}");
}

#[test]
#[cfg_attr(
    not(port),
    ignore = "the port's libraries were not built: at the root, tools/staticlib capi and tools/staticlib probe"
)]
fn every_point_agrees() {
    let count = on_points(POINT_TEST, 200_000);
    assert_eq!(count.differ, 0, "{:?}", count.shown);
    points_reach_everything(count.places, count.outside_with_zero, count.nan);
}

fn points_reach_everything(places: [u64; 3], outside_with_zero: u64, nan: u64) {
    assert!(places.iter().all(|&times| times > 9_000) && outside_with_zero > 5_000 && nan > 2_000, "{places:?}");
}

/// A port by the reference, with another point test, another count of the cells, and so many bytes cleared.
fn by<'a>(
    change: &'a dyn Fn(&mut Scene),
    test: &'a dyn Fn(Point, [Point; 3]) -> Place,
    cells: &'a dyn Fn(&Grid) -> Cells,
    zeroed: usize,
) -> impl Fn(&Scene, &mut [u8], &mut [u32; 2]) -> f32 + 'a {
    move |given: &Scene, raster: &mut [u8], counted: &mut [u32; 2]| {
        if raster.len() < BYTES {
            return 0.0;
        }
        raster[..zeroed].fill(0);
        let Scene { vertices, ids, axes, u, v } = given;
        let mut s = Scene { vertices: vertices.clone(), ids: ids.clone(), axes: *axes, u: *u, v: *v };
        change(&mut s);
        let grid = grid(&s.vertices, &s.ids, s.axes, s.u, s.v, test);
        let Cells { covered, rim } = grid.as_ref().map_or(Cells::default(), cells);
        *counted = [covered, rim];
        probe::footprint_raw(&s.vertices, &s.ids, s.axes, s.u, s.v)
    }
}

#[test]
fn the_reference_agrees_and_reaches_everything() {
    let port = by(&|_| {}, &place, &Grid::cells, BYTES);
    reaches_everything(on_large(&port), on_chance(&port, 2_000));
    let points = on_points(&|p, a, b, c| place(p, [a, b, c]) as u32, 200_000);
    assert_eq!(points.differ, 0, "{:?}", points.shown);
    points_reach_everything(points.places, points.outside_with_zero, points.nan);
}

/// The form that is raced has the same answers.
#[test]
fn so_does_the_plain_form() {
    let port = |scene: &Scene, raster: &mut [u8], counted: &mut [u32; 2]| {
        if raster.len() < BYTES {
            return 0.0;
        }
        raster[..BYTES].fill(0);
        let (area, Cells { covered, rim }) = with_rim(scene);
        *counted = [covered, rim];
        area
    };
    reaches_everything(on_large(&port), on_chance(&port, 2_000));
}

#[test]
fn a_wrong_point_test_is_found() {
    let wrong =
        |test: &dyn Fn(Point, [Point; 3]) -> u32| on_points(&|p, a, b, c| test(p, [a, b, c]), 20_000).differ > 0;
    assert!(!wrong(&|p, corners| by_values(values(p, corners)) as u32));
    for (what, test) in WRONG_TESTS {
        assert!(wrong(&|p, corners| test(p, corners) as u32), "{what}");
    }
    assert!(wrong(&|p, corners| (place(p, corners) != Place::Outside) as u32), "yes and no");
    assert!(wrong(&|p, corners| [0, 2, 1][place(p, corners) as usize]), "the two exchanged");
    let positive = |d: [f32; 3]| d.iter().all(|&d| d >= 0.0);
    assert!(wrong(&|p, c| if positive(values(p, c)) { place(p, c) as u32 } else { 0 }), "one way round");
}

#[test]
fn a_wrong_footprint_is_found() {
    let wrong = |change: &dyn Fn(&mut Scene), zeroed: usize| {
        on_chance(&by(change, &place, &Grid::cells, zeroed), 500).differ > 0
    };
    assert!(!wrong(&|_| {}, BYTES));
    assert!(wrong(&|_| {}, BYTES - 1), "a byte left set");
    assert!(wrong(&|scene| scene.ids.truncate(3), BYTES), "the first triangle alone");
    assert!(wrong(&|scene| scene.axes.swap(0, 1), BYTES), "the axes exchanged");
    let clamp = |scene: &mut Scene| {
        let most = (scene.vertices.len() / 3).saturating_sub(1) as u32;
        scene.ids.iter_mut().for_each(|id| *id = (*id).min(most));
    };
    assert!(wrong(&clamp, BYTES), "an id out of range taken for the last vertex");
    let drop_last = |scene: &mut Scene| {
        let ids = scene.ids.len() / 3 * 3;
        scene.ids.truncate(ids.saturating_sub(3));
    };
    assert!(wrong(&drop_last, BYTES), "the last triangle left out");
}

/// A port that is right in all but the two numbers.
#[test]
fn wrong_cells_are_found() {
    let wrong = |test: &dyn Fn(Point, [Point; 3]) -> Place, cells: &dyn Fn(&Grid) -> Cells| {
        [100, 1_000].iter().any(|&n| on_chance(&by(&|_| {}, test, cells, BYTES), n).differ > 0)
    };
    for (what, test) in WRONG_TESTS {
        assert!(wrong(&test, &Grid::cells), "{what}");
    }
    for (what, cells) in WRONG_CELLS {
        assert!(wrong(&place, &cells), "{what}");
    }
    let stores = |store: fn(&Scene, usize, &mut [u32; 2])| {
        let right = by(&|_| {}, &place, &Grid::cells, BYTES);
        let port = |scene: &Scene, raster: &mut [u8], counted: &mut [u32; 2]| {
            let area = right(scene, raster, counted);
            store(scene, raster.len(), counted);
            area
        };
        on_chance(&port, 400).differ > 0
    };
    assert!(
        stores(|_, lent, counted| if lent < BYTES {
            *counted = [0; 2]
        }),
        "0 where the raster is too short"
    );
    assert!(stores(|_, _, counted| counted.reverse()), "rim and covered");
    assert!(stores(|_, _, counted| counted[1] = 0), "no rim");
    assert!(stores(|_, _, counted| counted[0] &= 0xffff), "covered in 16 bits");
    assert!(stores(|s, _, counted| counted[1] *= (s.ids.len() > 3) as u32), "no rim of one triangle");
}

#[test]
fn the_scenes_have_what_they_are_for() {
    let scenes: Vec<Scene> = (0..3_000).map(|turn| by_chance(&mut Random::new(turn))).collect();
    let some = |test: &dyn Fn(&Scene) -> bool| scenes.iter().filter(|scene| test(scene)).count() > 10;
    assert!(some(&|s| s.axes[0] == s.axes[1]) && some(&|s| s.axes == [1, 2]));
    assert!(some(&|s| s.u[0] == s.u[1]), "a box with no length");
    assert!(some(&|s| s.u[1] < s.u[0]), "a box that goes back");
    let ratio = |s: &Scene| (s.u[1] - s.u[0]) / (s.v[1] - s.v[0]);
    assert!(some(&|s| ratio(s) > 1e4) && some(&|s| ratio(s) < 1e-4 && ratio(s) > 0.0), "thin boxes");
    assert!(some(&|s| s.ids.iter().any(|&id| id as usize >= s.vertices.len() / 3)), "an id out of range");
    assert!(some(&|s| s.ids.len() % 3 > 0), "ids left over");
    assert!(some(&|s| s.vertices.iter().any(|x| !x.is_finite())), "a vertex that is not finite");
    // a triangle that counts and one that does not, on either side of 1e-12
    let twice = |s: &Scene, t: &[u32]| {
        let at = |id: u32, k: usize| s.vertices.get(3 * id as usize + s.axes[k]).copied().unwrap_or(f32::NAN);
        let [a, b, c] = [t[0], t[1], t[2]].map(|id| [at(id, 0), at(id, 1)]);
        ((b[0] - a[0]) * (c[1] - a[1]) - (c[0] - a[0]) * (b[1] - a[1])).abs()
    };
    let near = |s: &Scene, low: f32, high: f32| s.ids.chunks_exact(3).any(|t| (low..high).contains(&twice(s, t)));
    assert!(some(&|s| near(s, 1e-13, 1e-12)) && some(&|s| near(s, 1e-12, 1e-11)));
    // triangles that are each other's reverse, and that have an edge in common with one other and with two
    let triples = |s: &Scene| s.ids.chunks_exact(3).map(<[u32]>::to_vec).collect::<Vec<_>>();
    let reverse = |t: &[u32], o: &[u32]| (0..3).any(|k| [o[k], o[(k + 2) % 3], o[(k + 1) % 3]] == *t);
    assert!(some(&|s| triples(s).iter().any(|t| triples(s).iter().any(|o| reverse(t, o)))), "reverses");
    let uses = |s: &Scene, t: &[u32]| {
        triples(s).iter().filter(|other| other.contains(&t[0]) && other.contains(&t[1]) && t[0] != t[1]).count()
    };
    for times in [2, 3] {
        assert!(some(&|s| triples(s).iter().any(|t| uses(s, t) == times)), "an edge of {times}");
    }
}
