//! The port's float helpers beside Rust's operations: the edges here, more by `oracle floats N`. What asks the port is ignored, and says so,
//! where its static libraries were not built.

use mowfrost_oracle::floats::compare::{on_chance, on_edges};
use mowfrost_oracle::floats::helpers::{Answer, Helper, Width, HELPERS};
use mowfrost_oracle::floats::patterns::{edges, partners};

#[test]
#[cfg_attr(
    not(port),
    ignore = "the port's libraries were not built: at the root, tools/staticlib capi and tools/staticlib probe"
)]
fn every_helper_agrees_on_the_edges() {
    for helper in &HELPERS {
        let count = on_edges(helper);
        assert_eq!(count.differ, 0, "{:?}", count.shown);
        assert!(count.agree > 100_000, "{}: {} edges", helper.name, count.agree);
    }
}

/// Wrong helpers that look right: each must show on the edges, and by chance.
#[test]
fn a_wrong_helper_is_found() {
    type Port = fn(u64, u64) -> u64;
    let wrong: [(&str, Port); 8] = [
        ("root64", |x, _| (f64::from_bits(x) as f32).sqrt().to_bits() as u64),
        ("floor64", |x, _| f64::from_bits(x).trunc().to_bits()),
        ("ceiling32", |x, _| (f32::from_bits(x as u32).floor() + 1.0).to_bits() as u64),
        ("round64", |x, _| f64::from_bits(x).round_ties_even().to_bits()),
        ("least64", |x, y| if f64::from_bits(x) < f64::from_bits(y) { x } else { y }),
        ("narrow", |x, _| (x >> 32 & 0x8000_0000) | (x >> 29).wrapping_sub(0x1_c000_0000) & 0x7fff_ffff),
        ("to_i32", |x, _| f32::from_bits(x as u32) as i64 as i32 as u64),
        ("cube_above", |s, p| (f32::from_bits(s as u32) > f32::from_bits(p as u32).powf(2.0 / 3.0) * 0.5) as u64),
    ];
    for (name, port) in wrong {
        let right = HELPERS.iter().find(|helper| helper.name == name).expect("a helper of that name");
        let helper = Helper { port, ..*right };
        assert!(on_edges(&helper).differ > 0, "{name}: not found on the edges");
        assert!(on_chance(&helper, 1, 100_000).differ > 0, "{name}: not found by chance");
    }
}

/// What the edges are for: ties of both kinds, subnormals, both infinities, NaNs, the ends of the integer types.
#[test]
fn the_edges_have_what_they_are_for() {
    let (short, long) = (edges(Width::F32), edges(Width::F64));
    for pattern in
        [2.5f32, -0.5, 0.5, 3.5, f32::MAX, f32::INFINITY, -2147483648.0, 2147483648.0, 18446744073709551616.0]
    {
        assert!(short.contains(&(pattern.to_bits() as u64)), "{pattern}");
    }
    for pattern in [1, 0x8000_0001, 0x7f80_0001, 0xffc0_0000, 0x4eff_ffff, 0x5f7f_ffff] {
        assert!(short.contains(&pattern), "{pattern:x}");
    }
    // 1 + 2^-24 and 1 + 3·2^-24 are ties of narrowing, from an even and an odd digit; 2^-150 is the least one's
    for pattern in [1.0 + 2f64.powi(-24), 1.0 + 3.0 * 2f64.powi(-24), 2f64.powi(-150), 2f64.powi(128) - 2f64.powi(103)]
    {
        assert!(long.contains(&pattern.to_bits()), "{pattern}");
    }
    for pattern in [9223372036854775808.0, -9223372036854775808.0, f64::MIN_POSITIVE, -f64::INFINITY] {
        assert!(long.contains(&pattern.to_bits()), "{pattern}");
    }
    assert!(partners(Width::F32, 0).contains(&0x8000_0000), "-0 beside 0");
    let least = HELPERS.iter().find(|helper| helper.name == "least32").expect("least32");
    assert_eq!((least.rust)(0, 0x8000_0000), Answer::Open(0), "01's rule, where Rust leaves it open");
}
