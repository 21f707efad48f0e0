//! The one exception (01): the original asks s > p^(2/3) / 2 with `powf`; document 01 asks exactly 8s³ > p².

/// 8s³ and p² in one common unit, as whole numbers, or which of the two is far the greater.
enum Sides {
    Near(u128, u128),
    CubeGreater,
    SquareGreater,
}

/// s and p are finite and not below zero.
fn sides(s: f32, p: f32) -> Sides {
    let ((ms, es), (mp, ep)) = (parts(s), parts(p));
    let (cube, square) = (8 * ms * ms * ms, mp * mp); // below 2^75 and 2^48
    if cube == 0 || square == 0 {
        return Sides::Near(cube, square);
    }
    match 3 * es - 2 * ep {
        up @ 0..=48 => Sides::Near(cube << up, square),
        down @ -78..=-1 => Sides::Near(cube, square << -down),
        up if up > 0 => Sides::CubeGreater,
        _ => Sides::SquareGreater,
    }
}

/// x is the first times 2 to the second.
fn parts(x: f32) -> (u128, i32) {
    let (field, digits) = ((x.to_bits() >> 23 & 0xff) as i32, (x.to_bits() & 0x7f_ffff) as u128);
    if field == 0 {
        (digits, -149)
    } else {
        (digits + 0x80_0000, field - 150)
    }
}

/// 8s³ > p², exactly.
pub fn cube_exceeds(s: f32, p: f32) -> bool {
    match sides(s, p) {
        Sides::Near(cube, square) => cube > square,
        Sides::CubeGreater => true,
        Sides::SquareGreater => false,
    }
}

/// |8s³ - p²| ≤ p²/65,536: where the original may answer otherwise.
pub fn is_near(s: f32, p: f32) -> bool {
    match sides(s, p) {
        Sides::Near(cube, square) if cube.max(square) < 1 << 110 => cube.abs_diff(square) << 16 <= square,
        _ => false,
    }
}
