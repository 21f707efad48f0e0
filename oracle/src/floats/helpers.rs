//! Each float helper of the C interface beside Rust's own operation, both on bit patterns.
//!
//! A pattern stands in a u64, an f32's in its lower half; so does an answer. Where Rust leaves the answer open, document
//! 01 has the rule, and `rust` is held to it: `Answer::Open`. The last helper is 8s³ > p², which the C interface does not
//! have; beside it stands our own exact form, and for the clock the original's, with `powf`.

use super::capi;
use super::patterns::{partners, partners_of_cube};
use crate::exception::cube_exceeds;

/// How wide the patterns are that a helper takes.
#[derive(Clone, Copy, PartialEq, Eq, Debug)]
pub enum Width {
    F32,
    F64,
}

/// What Rust's operation answers.
#[derive(Clone, Copy, PartialEq, Eq, Debug)]
pub enum Answer {
    Fixed(u64),
    /// Rust allows more than one answer; this is document 01's.
    Open(u64),
}

impl Answer {
    pub fn bits(self) -> u64 {
        match self {
            Answer::Fixed(bits) | Answer::Open(bits) => bits,
        }
    }
}

pub struct Helper {
    pub name: &'static str,
    pub width: Width,
    /// For a helper of two values, what to pair the first with; a helper of one leaves the second aside.
    pub second: Option<fn(Width, u64) -> Vec<u64>>,
    pub port: fn(u64, u64) -> u64,
    pub rust: fn(u64, u64) -> Answer,
    /// Rust's operation alone, as a program would call it: for the clock.
    pub plain: fn(u64, u64) -> u64,
}

const NAN64: u64 = 0x7ff8_0000_0000_0000;
const NAN32: u64 = 0x7fc0_0000;

fn wide(x: f64) -> Answer {
    if x.is_nan() {
        Answer::Open(NAN64)
    } else {
        Answer::Fixed(x.to_bits())
    }
}

fn short(x: f32) -> Answer {
    if x.is_nan() {
        Answer::Open(NAN32)
    } else {
        Answer::Fixed(x.to_bits() as u64)
    }
}

fn f64_at(x: u64) -> f64 {
    f64::from_bits(x)
}

fn f32_at(x: u64) -> f32 {
    f32::from_bits(x as u32)
}

/// A helper of one value whose answer has a width of its own.
macro_rules! one {
    ($name:literal, $width:ident, $port:ident, |$x:ident| $rust:expr, $answer:expr, $bits:expr) => {
        Helper {
            name: $name,
            width: Width::$width,
            second: None,
            port: |x, _| capi::$port(x as _) as _,
            rust: |x, _| {
                let $x = one!(@read $width, x);
                $answer($rust)
            },
            plain: |x, _| {
                let $x = one!(@read $width, x);
                $bits($rust)
            },
        }
    };
    (@read F64, $x:ident) => { f64_at($x) };
    (@read F32, $x:ident) => { f32_at($x) };
}

/// Least and greatest. Rust leaves open which zero it takes of 0 and -0, what becomes of a signalling NaN, and the bits of
/// the NaN that two of them give; for all else it is asked.
macro_rules! two {
    ($name:literal, $width:ident, $port:ident, $rust:ident, $read:ident, $nan:ident) => {
        Helper {
            name: $name,
            width: Width::$width,
            second: Some(partners),
            port: |x, y| capi::$port(x as _, y as _) as _,
            rust: |x, y| {
                let (a, b) = ($read(x), $read(y));
                let signalling = |nan: u64| nan & $nan != $nan;
                match (a.is_nan(), b.is_nan()) {
                    (true, true) => Answer::Open($nan),
                    (true, false) if signalling(x) => Answer::Open(y),
                    (false, true) if signalling(y) => Answer::Open(x),
                    (false, false) if a == b && x != y => Answer::Open(x),
                    _ => Answer::Fixed(a.$rust(b).to_bits() as u64),
                }
            },
            plain: |x, y| $read(x).$rust($read(y)).to_bits() as u64,
        }
    };
}

/// In the order of the C interface, and 8s³ > p² behind them.
pub const HELPERS: [Helper; 18] = [
    one!("root64", F64, mf_root64, |x| x.sqrt(), wide, f64::to_bits),
    // The sign goes and the digits stay, a NaN's too: Rust fixes every bit.
    one!("magnitude64", F64, mf_magnitude64, |x| x.abs(), |r: f64| Answer::Fixed(r.to_bits()), f64::to_bits),
    one!("magnitude32", F32, mf_magnitude32, |x| x.abs(), |r: f32| Answer::Fixed(r.to_bits() as u64), bits32),
    one!("floor64", F64, mf_floor64, |x| x.floor(), wide, f64::to_bits),
    one!("floor32", F32, mf_floor32, |x| x.floor(), short, bits32),
    one!("ceiling64", F64, mf_ceiling64, |x| x.ceil(), wide, f64::to_bits),
    one!("ceiling32", F32, mf_ceiling32, |x| x.ceil(), short, bits32),
    one!("round64", F64, mf_round64, |x| x.round(), wide, f64::to_bits),
    one!("round32", F32, mf_round32, |x| x.round(), short, bits32),
    two!("least64", F64, mf_least64, min, f64_at, NAN64),
    two!("least32", F32, mf_least32, min, f32_at, NAN32),
    two!("greatest64", F64, mf_greatest64, max, f64_at, NAN64),
    two!("greatest32", F32, mf_greatest32, max, f32_at, NAN32),
    one!("narrow", F64, mf_narrow, |x| x as f32, short, bits32),
    one!("to_i32", F32, mf_to_i32, |x| x as i32, |r: i32| Answer::Fixed(r as u64), |r: i32| r as u64),
    one!("to_i64", F64, mf_to_i64, |x| x as i64, |r: i64| Answer::Fixed(r as u64), |r: i64| r as u64),
    one!("to_u64", F32, mf_to_u64, |x| x as u64, Answer::Fixed, |r: u64| r),
    Helper {
        name: "cube_above",
        width: Width::F32,
        second: Some(partners_of_cube),
        port: |s, p| capi::probe_cube_above(s as u32, p as u32) as u64,
        rust: |s, p| Answer::Fixed(cube_above(f32_at(s), f32_at(p)) as u64),
        plain: |s, p| (f32_at(s) > f32_at(p).powf(2.0 / 3.0) * 0.5) as u64,
    },
];

/// 8s³ > p² on the numbers that s and p stand for, infinities as limits; a NaN makes it false.
fn cube_above(s: f32, p: f32) -> bool {
    s > 0.0 && p.abs() < f32::INFINITY && (s == f32::INFINITY || cube_exceeds(s, p.abs()))
}

fn bits32(x: f32) -> u64 {
    x.to_bits() as u64
}
