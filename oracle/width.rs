//! What hangs on the width of a float: f32, or f64 with the feature `f64`.

#[cfg(feature = "f64")]
pub use f64 as Real;
#[cfg(feature = "f32")]
pub use f32 as Real;

/// The pattern of a float, which is also the word of a row.
#[cfg(feature = "f64")]
pub type Bits = u64;
#[cfg(feature = "f32")]
pub type Bits = u32;

/// The one NaN of all answers.
#[cfg(feature = "f64")]
const ONE_NAN: Bits = 0x7ff8_0000_0000_0000;
#[cfg(feature = "f32")]
const ONE_NAN: Bits = 0x7fc0_0000;

pub fn bits(x: Real) -> Bits {
    if x.is_nan() {
        ONE_NAN
    } else {
        x.to_bits()
    }
}

/// Hexadecimal digits of a pattern.
pub const HEX: usize = Bits::BITS as usize / 4;

/// The float so many patterns further.
pub fn step(x: Real, patterns: i32) -> Real {
    Real::from_bits(x.to_bits().wrapping_add(patterns as Bits))
}

/// The least float above 0, and the neighbours of 1. By sums and products, which compilers from Rust 1.63 on work out in a constant.
pub const TINY: Real = Real::MIN_POSITIVE * Real::EPSILON;
pub const BELOW_ONE: Real = 1.0 - Real::EPSILON / 2.0;
pub const ABOVE_ONE: Real = 1.0 + Real::EPSILON;
