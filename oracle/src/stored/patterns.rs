//! What A5 writes back bit for bit (02): NaNs with digits in the vertices and in the unit, with and without kind 4, and lists of no length,
//! with leftovers and full. The listing knows one NaN; the line behind it has the checksum of the file.

use super::examples::{CLOSED, DEGENERATE};
use super::List;
use crate::file::{write_patterns, Flags, Patterns, MOST};
use crate::linked::bits;
use crate::solids::Shape;

/// Quiet and signalling, of both signs, with digits at the ends and within.
const NANS: [u32; 8] =
    [0x7fc0_0001, 0xffc1_2345, 0x7f80_0001, 0xff80_0001, 0x7fa5_5a5a, 0xffbf_ffff, 0x7fff_fffe, 0xffed_cba9];

const NONE: Flags = Flags { clip: false, defect: 0 };

fn cube() -> Patterns {
    let Shape { vertices, ids } = Shape::cube(2.0);
    Patterns { unit: 1f32.to_bits(), vertices: bits(&vertices), ids, flags: NONE }
}

/// The cube with NaNs among its coordinates, so many apart.
fn with_nans(apart: usize) -> Patterns {
    let mut mesh = cube();
    mesh.vertices.iter_mut().step_by(apart).zip(NANS.iter().cycle()).for_each(|(to, nan)| *to = *nan);
    mesh
}

/// As many of each as may be: every coordinate another NaN, and ids of any bits.
fn full() -> Patterns {
    let nan = |at: u32| NANS[at as usize % NANS.len()] ^ (at / 8) << 1;
    let vertices = (0..MOST as u32).map(nan).collect();
    let ids = (0..MOST as u32).map(|at| at.wrapping_mul(0x9e37_79b9)).collect();
    Patterns { unit: 0xff81_8181, vertices, ids, flags: Flags { clip: true, defect: 2 } }
}

pub fn patterns(list: &mut List) {
    let mut put = |says: &'static str, name: &str, mesh: Patterns, with_flags: bool| {
        list.file(says, format!("a5: {name}"), write_patterns(&mesh, with_flags));
    };
    let flags = |clip: bool, defect: u8| Flags { clip, defect };
    put("refused 4", "a NaN for every coordinate, no kind 4", with_nans(1), false);
    put("refused 4", "a NaN for every third coordinate, kind 4 of no flags", with_nans(3), true);
    put(
        "refused 4",
        "a NaN for every fifth coordinate, clip 1",
        Patterns { flags: flags(true, 0), ..with_nans(5) },
        true,
    );
    put("refused 4", "a NaN for every seventh, defect 3", Patterns { flags: flags(false, 3), ..with_nans(7) }, true);
    put("refused 2", "the unit a signalling NaN, no kind 4", Patterns { unit: 0x7f80_0abc, ..cube() }, false);
    let unit = |bits: u32, clip: bool, defect: u8| Patterns { unit: bits, flags: flags(clip, defect), ..with_nans(2) };
    put("refused 2", "unit and coordinates NaN, kind 4 of no flags", unit(0xffc0_ffee, false, 0), true);
    put("refused 2", "unit and coordinates NaN, clip 1, defect 1", unit(0xffbe_ef01, true, 1), true);
    // below 3 ids or 9 floats neither is looked at
    let none = |unit: u32| Patterns { unit, ..Patterns::default() };
    put(DEGENERATE, "nothing, the unit a quiet NaN, no kind 4", none(0x7fc0_0bad), false);
    put(
        DEGENERATE,
        "nothing, the unit a signalling NaN, defect 4",
        Patterns { flags: flags(false, 4), ..none(0xff80_1234) },
        true,
    );
    let ids = vec![u32::MAX, 0x8000_0000, 0x0102_0304, 0x7f80_0001, 2];
    put(DEGENERATE, "no floats, five ids, two left over, no kind 4", Patterns { ids, ..none(0x3f80_0000) }, false);
    let vertices = NANS[..7].to_vec();
    put(DEGENERATE, "seven NaNs, one left over, no ids", Patterns { vertices, ..none(0x8000_0000) }, true);
    let mut leftover = cube();
    leftover.vertices.extend([0x8000_0000, 1]);
    leftover.ids.push(0xffc0_0001);
    put("open_shell", "leftovers of both, kind 4 of no flags", leftover, true);
    let zeros = cube().vertices.iter().map(|bits| bits | (0x8000_0000 * (*bits == 0) as u32)).collect();
    put(CLOSED, "the cube, -0 for 0, kind 4 of no flags", Patterns { vertices: zeros, ..cube() }, true);
    put("refused 2", "full, every coordinate and the unit a NaN", full(), true);
}
