//! The port's float helpers, from the static libraries, on bit patterns.

macro_rules! port {
    ($($name:ident($($x:ident: $of:ty),+) -> $to:ty;)+) => {
        mod c {
            crate::linked::linked! { $(fn $name($($x: $of),+) -> $to;)+ }
        }
        $(pub fn $name($($x: $of),+) -> $to {
            // SAFETY: a function of numbers, proved to answer every pattern.
            unsafe { c::$name($($x),+) }
        })+
    };
}

port! {
    mf_root64(x: u64) -> u64;
    mf_magnitude64(x: u64) -> u64;
    mf_magnitude32(x: u32) -> u32;
    mf_floor64(x: u64) -> u64;
    mf_floor32(x: u32) -> u32;
    mf_ceiling64(x: u64) -> u64;
    mf_ceiling32(x: u32) -> u32;
    mf_round64(x: u64) -> u64;
    mf_round32(x: u32) -> u32;
    mf_least64(x: u64, y: u64) -> u64;
    mf_least32(x: u32, y: u32) -> u32;
    mf_greatest64(x: u64, y: u64) -> u64;
    mf_greatest32(x: u32, y: u32) -> u32;
    mf_narrow(x: u64) -> u32;
    mf_to_i32(x: u32) -> i32;
    mf_to_i64(x: u64) -> i64;
    mf_to_u64(x: u32) -> u64;
    probe_cube_above(s: u32, p: u32) -> bool;
}
