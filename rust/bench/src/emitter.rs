//! The rule of an emitter.

/// An emitter of 117 or 201, the last three of which are obstacles; other kinds
/// carry every octet.
#[inline]
pub fn is_emitter(number: u8) -> bool {
    number <= 21
}
