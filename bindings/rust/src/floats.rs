//! The float operations that the core computes itself, with whole numbers, proved on every bit pattern.

use crate::face;

/// An f64 narrowed to f32: rounded to nearest, ties to even.
pub fn narrow(value: f64) -> f32 {
    f32::from_bits(face::narrow(value.to_bits()))
}

/// The square root, correctly rounded.
pub fn square_root(value: f64) -> f64 {
    f64::from_bits(face::square_root(value.to_bits()))
}

/// The square root of each number of a list of patterns, in its place: in a long list a root takes a quarter of the time.
pub fn square_roots(patterns: &mut [u64]) {
    face::square_roots(patterns);
}

/// Whether the number is neither a NaN nor infinite.
pub fn is_finite(value: f64) -> bool {
    face::is_finite(value.to_bits()) == 1
}

/// The same of an f32.
pub fn is_finite32(value: f32) -> bool {
    face::is_finite32(value.to_bits()) == 1
}

/// The absolute value, of a NaN's pattern too.
pub fn magnitude(value: f64) -> f64 {
    f64::from_bits(face::magnitude(value.to_bits()))
}
