//! Patterns to try a float helper on: the edges, and patterns by chance that come by where something happens.

use super::helpers::Width;
use crate::random::Random;

impl Width {
    /// How many digits stand below the leading one.
    pub fn digits(self) -> u32 {
        match self {
            Width::F32 => 23,
            Width::F64 => 52,
        }
    }

    /// The exponent's field of an infinity: all ones.
    pub fn ones(self) -> u64 {
        match self {
            Width::F32 => 0xff,
            Width::F64 => 0x7ff,
        }
    }

    pub fn sign(self) -> u64 {
        (self.ones() + 1) << self.digits()
    }

    /// The field of the numbers from 1 to 2.
    fn one(self) -> u64 {
        self.ones() / 2
    }
}

/// Digit fields at which a rounding turns, at whatever place it cuts: none, one, two neighbouring ones or all but one,
/// with the neighbours up and down. So every cut meets a tie from an even and from an odd digit, and both sides of it.
fn digit_fields(width: Width) -> Vec<u64> {
    let all = (1u64 << width.digits()) - 1;
    let mut fields = vec![0, all];
    for k in 0..width.digits() {
        let bit = 1u64 << k;
        for base in [bit, 3 * bit, all ^ bit, all - (bit - 1)] {
            fields.extend([base.wrapping_sub(1) & all, base & all, (base + 1) & all]);
        }
    }
    fields.sort_unstable();
    fields.dedup();
    fields
}

/// Every exponent, both signs, all the digit fields: subnormals, infinities and NaNs are among them.
pub fn edges(width: Width) -> Vec<u64> {
    let fields = digit_fields(width);
    let mut patterns = Vec::new();
    for exponent in 0..=width.ones() {
        for &digits in &fields {
            let size = exponent << width.digits() | digits;
            patterns.extend([size, size | width.sign()]);
        }
    }
    patterns
}

/// What an edge is paired with in a helper of two values: itself, its negative, its neighbours, the zeros, 1, the
/// infinities, and a quiet and a signalling NaN of either sign.
pub fn partners(width: Width, x: u64) -> Vec<u64> {
    let sign = width.sign();
    let infinity = width.ones() << width.digits();
    let size = x & (sign - 1);
    let own = [size, size.saturating_sub(1), (size + 1) & (sign - 1)];
    let fixed = [0, width.one() << width.digits(), infinity, infinity | 1, infinity | 1 << (width.digits() - 1)];
    own.iter().chain(&fixed).flat_map(|&p| [p, p | sign]).collect()
}

/// For 8s³ > p²: the p's about √(8s³), of either sign, where the answer turns, and the others.
pub fn partners_of_cube(width: Width, s: u64) -> Vec<u64> {
    let p = (8.0 * (f32::from_bits(s as u32) as f64).abs().powi(3)).sqrt() as f32;
    let about = [-1, 0, 1].map(|step| p.to_bits().saturating_add_signed(step) as u64 & (width.sign() - 1));
    about.iter().flat_map(|&p| [p, p | width.sign()]).chain(partners(width, s)).collect()
}

/// By chance, in five ways that take turns: any bits; a number with and without a fraction; a half or a whole number;
/// a number about the ends of f32's range, where narrowing turns; a value about 1 with few digits.
pub fn by_chance(width: Width, random: &mut Random, turn: u64) -> u64 {
    let any = random.bits();
    let digits = (1u64 << width.digits()) - 1;
    let with =
        |exponent: u64, digits_field: u64| (any & width.sign()) | exponent << width.digits() | digits_field & digits;
    match turn % 5 {
        0 => any & (2 * width.sign() - 1),
        1 => with(width.one() - 4 + random.below(72) as u64, random.bits()),
        2 => {
            let half = random.bits() >> (64 - width.digits() + random.below(width.digits() as usize) as u32);
            match width {
                Width::F32 => (half as f32 / 2.0).to_bits() as u64 | any & width.sign(),
                Width::F64 => (half as f64 / 2.0).to_bits() | any & width.sign(),
            }
        }
        3 => match width {
            Width::F32 => with(random.pick(&[0, 1, 2, 0xfd, 0xfe]), random.bits()),
            // 2^-150 to 2^-125, and about 2^128; the digits that narrowing drops are a tie in one of two
            Width::F64 => {
                let exponent = if any & 1 == 0 { 1023 - 152 + random.below(30) } else { 1023 + 125 + random.below(5) };
                let kept = random.bits() & !0x1fff_ffff;
                with(exponent as u64, if any & 2 == 0 { kept | 0x1000_0000 } else { random.bits() })
            }
        },
        _ => with(width.one() - 8 + random.below(16) as u64, random.bits() << (width.digits() - 8)),
    }
}
