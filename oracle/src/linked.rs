//! The functions of the port's two static libraries: `capi`, which is shipped, and `probe`, which is for these runs alone.

/// Declares them. Built without the libraries, each says what is missing and ends the run.
macro_rules! linked {
    ($(fn $name:ident($($x:ident: $of:ty),+ $(,)?) -> $to:ty;)+) => {
        #[cfg(port)]
        extern "C" {
            $(pub fn $name($($x: $of),+) -> $to;)+
        }
        $(
            #[cfg(not(port))]
            #[allow(clippy::too_many_arguments)]
            pub unsafe fn $name($(_: $of),+) -> $to {
                panic!("{}: {}", stringify!($name), $crate::linked::MISSING)
            }
        )+
    };
}

pub(crate) use linked;

/// What to do where the runs against the port cannot be made.
pub const MISSING: &str =
    "built without the port's static libraries. On x86-64, at the root of the repository: tools/staticlib capi and \
                           tools/staticlib probe; then build anew";

/// Floats as words: a NaN is one like any other.
pub fn bits(floats: &[f32]) -> Vec<u32> {
    floats.iter().map(|x| x.to_bits()).collect()
}
