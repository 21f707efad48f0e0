//! The readings of docs/DIFFERENCES.md, and meshes on which document 01's mistakes that look right would show.

use super::examples::{corners, ids, of, tilted, CLOSED, DEGENERATE, OPEN, PRISM};
use super::List;
use crate::file::MeshFile;
use crate::record::{plain, LEAST_UNIT};
use crate::solids::{two_to, Shape};

/// A shape of these corners and triangles.
pub fn shape(corners: &[[f32; 3]], triangles: &str) -> Shape {
    Shape { vertices: corners.concat(), ids: ids(triangles) }
}

/// The inputs of docs/DIFFERENCES.md that are meshes of a program's file, by their numbers there.
pub(super) fn readings(list: &mut List) {
    const TINY: f32 = two_to(-50);
    let legs = |x: f32, y: f32, z: f32| Shape::tetrahedron(1.0).scaled([x, y, z]);
    let (x, y, z) = (2048.0, TINY, 0.9 * TINY);
    let floor = [[0.0; 3], [x, 0.0, 0.0], [x, y, 0.0], [0.0, y, 0.0], [0.0, 0.0, z]];
    list.mesh(PRISM, "d1: the least prism before the unit", &of(LEAST_UNIT, &shape(&floor, "012 023 014")));
    list.mesh(PRISM, "d2: above 1.05 of the bound", &of(1.0, &shelf(1.75, 0.2625, 3)));
    let part = f32::from_bits(0x3e86_665e);
    list.mesh(OPEN, "d2: a step within 1.05 of the bound", &of(1.0, &shelf(1.75, part, 3)));
    let part = f32::from_bits(0x3b4a_c083);
    list.mesh(OPEN, "d2: not under 1e-3 of the bound", &of(1.0, &shelf(1.03125, part, 0)));
    list.mesh(PRISM, "d2: a step under 1e-3 of the bound", &of(1.0, &shelf(1.03125, part.next_down(), 0)));
    let sliver = |across: f32| shape(&[[0.0; 3], [1.0, 0.0, 0.0], [0.0, across, two_to(-20)]], "012");
    for across in [1e-12f32, 1e-12f32.next_up()] {
        let flat = shape(&[[0.0; 3], [1.0, 0.0, 0.0], [0.0, across, 0.0]], "012");
        list.mesh(DEGENERATE, format!("d3: a cross product of {across:e}"), &of(1.0, &flat));
    }
    list.mesh(PRISM, "a triangle that is narrow in plan alone", &of(1.0, &sliver(1e-12)));
    let turned = legs(2048.0, TINY, TINY).flipped();
    list.mesh(CLOSED, "d4: a volume of -0", &of(LEAST_UNIT, &turned));
    let normal = shape(&[[0.0; 3], [15.0, 1.0, 0.0], [16_679_983.0, 0.0, 364_687.0]], "012");
    list.mesh(PRISM, "d5: times one over the length", &of(1.0, &normal));
    list.mesh(CLOSED, "d6: narrowed after the unit", &of(0.001, &legs(1.0, 1.0, 1.0)));
    list.mesh(CLOSED, "d6: divided before the unit", &of(0.001, &legs(85.0, 10_125_853.0, 1.0)));
    let less = 1.5625f32;
    let rows = [[0.0; 3], [less.next_up(), 0.0, 0.0], [0.0, 1.0, 0.0], [0.0, 0.0, less]];
    for unit in [0.1, 1.0] {
        list.mesh(PRISM, format!("d7: rows in order at unit {unit}"), &of(unit, &shape(&rows, "012 032")));
    }
    list.mesh(DEGENERATE, "d8: the box after the unit", &of(LEAST_UNIT, &Shape::cube(two_to(-31))));
    list.mesh(CLOSED, "d8: the same at unit 1", &of(1.0, &Shape::cube(two_to(-31))));
    let line = shape(&[[0.0; 3], [1.0; 3], [2.0; 3]], "012");
    list.mesh(PRISM, "d9: no rows", &of(1.0, &line));
    let mut cube = Shape::cube(1.0);
    cube.vertices.extend([-500.0, 500.0]);
    list.mesh(CLOSED, "d11: leftover floats and the box", &of(1.0, &cube));
    list.mesh("open_shell", "d12: 012 012", &plain(1.0, &tilted().vertices, &ids("012 012")));
    let tetrahedron = "021 013 032 123";
    for more in ["455", "011"] {
        let with = plain(1.0, &corners(), &ids(&format!("{tetrahedron} {more}")));
        list.mesh(CLOSED, format!("d15: a tetrahedron and {more}"), &with);
    }
}

/// An open shell in a box of side 2: a floor of depth d and a wall, both through the origin, give a prism of 4d and no
/// volume; whole ceilings over the floor add a third of that each, and one of depth `part` its share.
pub fn shelf(d: f32, part: f32, whole_ceilings: usize) -> Shape {
    let w = 2.0;
    let floor = [[0.0, 0.0, 0.0], [w, 0.0, 0.0], [w, d, 0.0], [0.0, d, 0.0]];
    let above = [[0.0, 0.0, w], [w, 0.0, w], [w, d, w], [0.0, d, w], [w, part, w], [0.0, part, w], [w, w, w]];
    let mut mesh = shape(&[&floor[..], &above].concat(), "012 023 015 054 458 489");
    (0..whole_ceilings).for_each(|_| mesh.ids.extend([4, 5, 6, 4, 6, 7]));
    mesh
}

/// The tetrahedron with another id for its last corner, which stays among the vertices.
fn with_apex(id: u32) -> MeshFile {
    let mut mesh = of(1.0, &Shape::tetrahedron(1.0));
    mesh.ids.iter_mut().filter(|apex| **apex == 3).for_each(|apex| *apex = id);
    mesh
}

pub(super) fn mistakes(list: &mut List) {
    // ids out of range count in the chain; of these, three times the id and two is a small number in 32 bits
    for id in [4, 0x5555_5555, 0x5555_5556, 0xaaaa_aaab, u32::MAX] {
        list.mesh(CLOSED, format!("an apex of id {id:x}, out of range"), &with_apex(id));
    }
    let cube = Shape::cube(2.0);
    list.mesh(CLOSED, "the cube, its last vertex cut short", &plain(1.0, &cube.vertices[..23], &cube.ids));
    list.mesh(CLOSED, "the cube without its last vertex", &plain(1.0, &cube.vertices[..21], &cube.ids));
    let all: Vec<u32> = Shape::tetrahedron(1.0).ids.iter().map(|id| id + 4).collect();
    list.mesh(CLOSED, "every id out of range", &plain(1.0, &Shape::tetrahedron(1.0).vertices, &all));

    let tetrahedron = Shape::tetrahedron(1.0);
    let twice = tetrahedron.clone().with(tetrahedron.clone());
    list.mesh(CLOSED, "two shells in one place, boundary-free as given", &of(1.0, &twice));
    list.mesh(CLOSED, "corners apart, closed once welded", &of(1.0, &tetrahedron.clone().exploded()));
    list.mesh("open_shell", "the same twice: face sums of 2 once welded", &of(1.0, &twice.exploded()));
    let against = tetrahedron.clone().with(tetrahedron.clone().flipped());
    list.mesh(CLOSED, "two shells that cancel, as given", &of(1.0, &against));
    list.mesh(DEGENERATE, "two shells that cancel, once welded", &of(1.0, &against.exploded()));
    let beside = tetrahedron.clone().with(tetrahedron.clone().moved([2.0, 0.0, 0.0]).flipped());
    list.mesh(CLOSED, "no volume in sum, and no face cancels", &of(1.0, &beside));
    let mut far = tetrahedron.clone().exploded();
    far.ids.iter_mut().for_each(|id| *id += if [5, 7, 11].contains(id) { 100 } else { 0 });
    far.ids.iter_mut().filter(|id| **id > 100).for_each(|id| *id = 100);
    list.mesh(CLOSED, "welded beside an id past the vertices", &of(1.0, &far));

    for (says, name, triangles) in [
        (PRISM, "edges with equal ends alone", "001 001 001"),
        (CLOSED, "an edge of four uses", "012 023 031 132 014 046 061 164"),
        (OPEN, "a leftover id", "021 013 032 123 0"),
        (OPEN, "two leftover ids", "021 013 032 123 01"),
        ("open_shell", "a face walked the wrong way", "012 013 032 123"),
        (CLOSED, "a face and its opposite within a closed shell", "021 013 032 123 456 465"),
    ] {
        list.mesh(says, format!("{name}: {triangles}"), &plain(1.0, &corners(), &ids(triangles)));
    }
}
