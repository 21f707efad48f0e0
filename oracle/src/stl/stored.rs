//! The STL files that the crate `replay` holds, so that the gate has some of the Rust's answers to files without the Rust: each for one
//! reason, and small but for two.

use super::damage::counted;
use super::dress::beginning;
use super::file::{corners, length, Stl, FRONT, MOST};
use crate::record::FARTHEST;
use crate::solids::Shape;
use crate::stored::examples::{CLOSED, DEGENERATE, OPEN};
use crate::stored::Stored;

struct List(Vec<Stored>);

impl List {
    fn file(&mut self, says: &'static str, name: &str, bytes: Vec<u8>) {
        self.0.push(Stored { name: name.into(), says, bytes });
    }

    fn stl(&mut self, says: &'static str, name: &str, stl: &Stl) {
        self.file(says, name, stl.bytes());
    }

    fn shape(&mut self, says: &'static str, name: &str, shape: &Shape) {
        self.stl(says, name, &Stl::of(&corners(shape)));
    }
}

pub fn all() -> Vec<Stored> {
    let mut list = List(Vec::new());
    lengths(&mut list);
    ignored(&mut list);
    meshes(&mut list);
    floats(&mut list);
    gaps(&mut list);
    list.0
}

fn cube() -> Shape {
    Shape::cube(40.0)
}

/// One triangle that no axis is level with.
fn tilted() -> Stl {
    Stl::of(&[[100.0, 0.0, 0.0, 0.0, 100.0, 0.0, 0.0, 0.0, 100.0]])
}

/// What decides before any float is read, in 02's order.
fn lengths(list: &mut List) {
    let one = tilted();
    let with = |count: u32, long: usize| counted(one.bytes(), long, count.to_le_bytes());
    list.file("refused 5", "empty", vec![]);
    list.file("refused 5", "83 bytes", one.bytes()[..FRONT - 1].to_vec());
    list.file(DEGENERATE, "84 bytes, count 0", with(0, FRONT));
    list.stl(OPEN, "one triangle", &one);
    list.file("refused 5", "84 bytes, count 1", with(1, FRONT));
    list.file("refused 5", "one triangle, a byte less", with(1, length(1) - 1));
    list.file("refused 5", "one triangle, a byte more", with(1, length(1) + 1));
    list.file("refused 5", "one triangle, count 2", with(2, length(1)));
    list.file("refused 5", "one triangle, count 0", with(0, length(1)));
    list.stl("refused 6", "one triangle, count 1 big-endian", &Stl { count: 1u32.to_be_bytes(), ..one.clone() });
    list.file("refused 6", "one triangle, count 1 and the high bit", with(0x8000_0001, length(1)));
    list.file("refused 6", "84 bytes, count 171", with(171, FRONT));
    list.file("refused 5", "84 bytes, count 170", with(170, FRONT));
    list.file("refused 6", "84 bytes, count 4,294,967,295", with(u32::MAX, FRONT));
    let full = corners(&full());
    list.stl(CLOSED, "full: 170 triangles", &Stl::of(&full));
    list.stl("refused 6", "171 triangles", &Stl::of(&[&full[..], &full[..1]].concat()));
}

/// 14 boxes, and a triangle from both sides.
fn full() -> Shape {
    let place = |n: u16| [200.0 * (n % 4) as f32, 150.0 * (n / 4) as f32, 0.0];
    let sides = |n: u16| [10 + 7 * n, 50 + n, 30 + n * n].map(f32::from);
    let boxes = (0..14).map(|n| Shape::cuboid([0.0; 3], sides(n)).moved(place(n)));
    let mut shape = boxes.fold(Shape::default(), Shape::with);
    let [a, b, c] = [[0.0; 3], [90.0, 0.0, 0.0], [0.0, 60.0, 20.0]].map(|[x, y, z]| shape.vertex(x, y, z - 100.0));
    shape.triangle(a, b, c);
    shape.triangle(a, c, b);
    assert_eq!(shape.triangles(), MOST);
    shape
}

/// Header, normals and attributes: the listing is that of the cube.
fn ignored(list: &mut List) {
    let cube = Stl::of(&corners(&cube()));
    let with = |change: fn(usize, &mut Stl)| {
        let mut stl = cube.clone();
        (0..stl.triangles.len()).for_each(|t| change(t, &mut stl));
        stl
    };
    list.stl(CLOSED, "the cube, closed by the weld", &cube);
    list.stl(
        CLOSED,
        "the cube, the header begins with solid",
        &Stl { header: beginning(b"solid cube", b' '), ..cube.clone() },
    );
    list.stl(
        CLOSED,
        "the cube, all normals one",
        &with(|t, stl| stl.triangles[t].normal = [0.6f32, 0.0, -0.8].map(f32::to_bits)),
    );
    list.stl(
        CLOSED,
        "the cube, normals NaN",
        &with(|t, stl| stl.triangles[t].normal = [0x7fc0_0000, 0xff80_0001, u32::MAX]),
    );
    list.stl(CLOSED, "the cube, attributes set", &with(|t, stl| stl.triangles[t].attribute = 0xffff - 5 * t as u16));
}

fn meshes(list: &mut List) {
    let mut open = cube();
    open.remove(2);
    list.shape(OPEN, "the cube without a triangle", &open);
    list.shape(CLOSED, "the cube, moved by whole numbers", &cube().moved([1000.0, -70_000.0, 16_000_000.0]));
    list.shape(CLOSED, "the cube, inside out", &cube().flipped());
    list.shape(
        CLOSED,
        "two tetrahedra",
        &Shape::tetrahedron(30.0).with(Shape::tetrahedron(50.0).moved([200.0, 0.0, 0.0])),
    );
    list.shape(DEGENERATE, "flat: a cube without height", &cube().scaled([1.0, 1.0, 0.0]));
    let mut slivers = cube();
    for [a, b, c] in [[0, 0, 7], [0, 7, 7], [1, 1, 1]] {
        slivers.triangle(a, b, c);
    }
    list.shape(CLOSED, "the cube and slivers of one corner or two", &slivers);
    let mut line = cube();
    let [a, b, c] = [1.0, 2.0, 3.0].map(|x| line.vertex(x, x, 40.0));
    line.triangle(a, b, c);
    list.shape(OPEN, "the cube and a sliver with three corners in a line", &line);
}

/// The cube with one coordinate in the middle other than it was.
fn floats(list: &mut List) {
    for (says, name, bits) in [
        ("refused 4", "a NaN corner", 0x7fc0_0000),
        ("refused 4", "an infinite corner", 0xff80_0000),
        ("refused 4", "a corner too large", FARTHEST.next_up().to_bits()),
        ("open_shell", "a corner as large as may be", FARTHEST.to_bits()),
    ] {
        let mut stl = Stl::of(&corners(&cube()));
        stl.triangles[7].corners[4] = bits;
        list.stl(says, name, &stl);
    }
    let mut zeros = Stl::of(&corners(&cube()));
    let negative = |bits: &mut u32| *bits |= 0x8000_0000 * (*bits == 0) as u32;
    zeros.triangles.iter_mut().step_by(2).flat_map(|t| &mut t.corners).for_each(negative);
    list.stl(CLOSED, "zeros of both signs", &zeros);
}

/// The cube's first triangle moved a little: 0.1 is the weld distance, and a cell reaches 0.05 to either side of a corner.
fn gaps(list: &mut List) {
    for (says, name, gap) in [
        (CLOSED, "a gap of 0.04, within the cell", 0.04),
        (OPEN, "a gap of 0.06, into the next cell", 0.06),
        (OPEN, "a gap of 0.2", 0.2),
    ] {
        let mut triangles = corners(&cube());
        triangles[0].iter_mut().for_each(|x| *x += gap);
        list.stl(says, name, &Stl::of(&triangles));
    }
    // from 0.02 under a cell's middle to 0.03 above it
    let mut triangles = corners(&cube().moved([-0.02; 3]));
    triangles[0].iter_mut().for_each(|x| *x += 0.05);
    list.stl(CLOSED, "a gap of 0.05 within one cell", &Stl::of(&triangles));
    // 0.02 is less than the weld distance: the narrow sides weld away, and the hole in one of them too
    let mut plate = Shape::cuboid([0.0; 3], [0.4, 0.3, 0.02]);
    plate.remove(4);
    list.shape(CLOSED, "a plate drawn in metres, without a triangle of a narrow side", &plate);
}
