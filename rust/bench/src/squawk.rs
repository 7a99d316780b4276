//! The rule of a squawk as quick Rust has it: of the forms tried, by divisions
//! and by products, with branches and without, the fastest.

/// 0.8 in parts of 2^32, rounded up.
const EIGHT_TENTHS: u32 = 3_435_973_837;

/// Four octal digits sent as a decimal number: at most 7777, which leaves three
/// digits to be looked at. A digit is at most 7 where the fraction from it on,
/// in parts of 2^32, is below 0.8.
#[inline]
pub fn is_squawk(number: u16) -> bool {
    let below = |inverse: u32| u32::from(number).wrapping_mul(inverse) < EIGHT_TENTHS;
    number <= 7777 && below(4_294_968) && below(42_949_673) && below(429_496_730)
}
