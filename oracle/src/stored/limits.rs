//! Refusals and their order, and lengths about what a file may hold.

use super::examples::{ids, of, tilted, CLOSED, DEGENERATE, OPEN, PRISM};
use super::List;
use crate::file::{write, Flags, MeshFile, MOST};
use crate::record::{plain, FARTHEST};
use crate::solids::Shape;

/// The two infinities, and NaNs quiet and signalling, with and without a sign and digits.
const NOT_FINITE: [u32; 6] = [0x7f80_0000, 0xff80_0000, 0x7fc0_0000, 0x7f80_0001, 0xff80_0001, 0xffff_ffff];

fn with_float(mesh: &MeshFile, at: usize, bits: u32) -> MeshFile {
    let mut mesh = mesh.clone();
    mesh.vertices[at] = f32::from_bits(bits);
    mesh
}

fn with_leftover(bits: &[u32]) -> MeshFile {
    let mut mesh = tilted();
    mesh.vertices.extend(bits.iter().map(|bits| f32::from_bits(*bits)));
    mesh
}

pub fn refusals(list: &mut List) {
    let at = |bits: u32| MeshFile { unit: f32::from_bits(bits), ..tilted() };
    // 0, -0, -1, the least unit with a sign, subnormal, normal and still too small, too large
    let units = [0, 0x8000_0000, 0xbf80_0000, 0xb580_0000, 1, 0x0080_0000, 0x7f7f_ffff];
    for bits in units.into_iter().chain(NOT_FINITE) {
        list.mesh("refused 2", format!("unit of bits {bits:08x}"), &at(bits));
    }
    for bits in NOT_FINITE.into_iter().chain([0x7f7f_ffff, 0xff7f_ffff]) {
        list.mesh("refused 4", format!("float of bits {bits:08x}"), &with_float(&tilted(), 0, bits));
    }
    list.mesh("refused 4", "a float in the middle", &with_float(&tilted(), 4, 0x7f80_0001));
    list.mesh("refused 4", "the last float", &with_float(&tilted(), 8, 0xffff_ffff));
    list.mesh("refused 4", "a vertex that no triangle names", &with_leftover(&[0, 0x7f80_0000, 0]));
    for bits in [1, 0x8000_0000] {
        list.mesh(OPEN, format!("float of bits {bits:08x}"), &with_float(&tilted(), 1, bits));
    }
    list.mesh("refused 4", "a leftover float, not finite", &with_leftover(&[0x7fc0_0000]));
    list.mesh("refused 4", "two leftover floats, the second not finite", &with_leftover(&[0, 0xff80_0000]));
    list.mesh("refused 4", "a leftover float too large", &with_leftover(&[FARTHEST.next_up().to_bits()]));
    list.mesh(OPEN, "a leftover float as large as may be", &with_leftover(&[FARTHEST.to_bits()]));

    let bad = |mesh: &MeshFile| MeshFile { unit: 17.0, ..with_float(mesh, 0, 0x7f80_0001) };
    list.mesh("refused 2", "a bad unit beside a bad float", &bad(&tilted()));
    let tetrahedron = of(1.0, &Shape::tetrahedron(1.0));
    list.mesh("refused 2", "a closed shell, unit and float bad", &bad(&tetrahedron));
    list.mesh("refused 4", "a closed shell, float bad", &with_float(&tetrahedron, 5, 0xff80_0000));
    let nan = f32::from_bits(0xffff_ffff);
    list.mesh(DEGENERATE, "8 floats, unit and floats not finite", &plain(nan, &[nan; 8], &[0, 1, 2]));
    list.mesh(DEGENERATE, "2 ids, unit and floats not finite", &plain(f32::INFINITY, &[nan; 9], &[0, 1]));
    list.mesh(DEGENERATE, "2 ids, unit 0", &plain(0.0, &tilted().vertices, &[0, 1]));
    list.mesh(DEGENERATE, "8 floats, unit too large, two pieces", &plain(17.0, &[1.0; 8], &ids("012 345 3")));
    list.mesh(DEGENERATE, "no floats, a closed shell of ids", &plain(-1.0, &[], &tetrahedron.ids));
}

/// Heights that make the normals of a rough sheet many.
fn rough(x: u32, y: u32) -> f32 {
    ((x * x * 7 + y * y * 11 + x * y * 5) % 23) as f32 * 0.25
}

/// Separate triangles, each with three corners of its own.
fn apart(triangles: usize) -> Shape {
    let mut shape = Shape::default();
    for n in 0..triangles as u32 {
        let at = |by: u32| (by * n % 31) as f32;
        let a = shape.vertex(at(7), at(11), at(3));
        let b = shape.vertex(at(7) + (n % 5) as f32, at(11) + 1.0, at(3) + (n % 3) as f32);
        let c = shape.vertex(at(7) - 1.0, at(11) + (n % 7) as f32, at(3) + (n % 4) as f32);
        shape.triangle(a, b, c);
    }
    shape
}

pub fn lengths(list: &mut List) {
    let blocks = Shape::blocks([8, 8, 4]);
    list.mesh(CLOSED, "1,536 ids, closed", &of(1.0, &blocks));
    let mut hills = blocks;
    for v in hills.vertices.chunks_exact_mut(3).filter(|v| v[2] == 4.0) {
        v[2] += rough(v[0] as u32, v[1] as u32);
    }
    list.mesh(CLOSED, "1,536 ids, closed, many surfaces", &of(0.25, &hills));
    let sheet = Shape::sheet(16, 16, rough);
    let mut full = MeshFile { flags: Flags { clip: true, defect: 4 }, ..of(1.0, &sheet) };
    full.vertices.resize(MOST, 1.0);
    list.mesh("open_shell 0 mesh_unclipped", "full: 1,536 floats, 1,536 ids and kind 4", &full);
    list.file("refused 5", "full, and one byte more", [write(&full, true), vec![0]].concat());
    let mut soup = of(1.0, &apart(170));
    soup.vertices.resize(MOST, 7.0);
    list.mesh("open_shell", "1,536 floats, each triangle apart", &soup);
    let odd = MeshFile { vertices: full.vertices[..MOST - 1].to_vec(), ids: full.ids[..MOST - 1].to_vec(), ..full };
    list.mesh("open_shell 0 mesh_unclipped", "1,535 floats and 1,535 ids: leftovers of both", &odd);

    let distinct: Vec<u32> = (0..MOST as u32).collect();
    list.mesh(OPEN, "1,536 ids, all distinct, three in range", &plain(1.0, &tilted().vertices, &distinct));
    // long and thin: its raster has few cells, and 512 times as many points are tried
    let long = [1.0, 0.0, 0.0, 0.0, 64.0, 0.0, 0.0, 0.0, 4096.0];
    list.mesh(PRISM, "1,536 ids, one triangle over and over", &plain(1.0, &long, &[0, 1, 2].repeat(512)));
    let both = ids("012 210").repeat(256);
    list.mesh(DEGENERATE, "1,536 ids, one triangle over and over, both ways", &plain(1.0, &tilted().vertices, &both));
    list.mesh(DEGENERATE, "1,536 floats and 2 ids", &plain(1.0, &vec![1.0; MOST], &[0, 1]));
    list.mesh(DEGENERATE, "8 floats and 1,536 ids", &plain(1.0, &[1.0; 8], &distinct));
    let more = vec![1; MOST + 1];
    list.mesh("refused 6", "1,537 floats", &plain(1.0, &vec![1.0; MOST + 1], &[0, 1, 2]));
    list.mesh("refused 6", "1,537 ids", &plain(1.0, &tilted().vertices, &more));
    list.mesh("refused 6", "1,537 ids, a bad unit and a bad float", &plain(17.0, &[f32::NAN; 9], &more));
}
