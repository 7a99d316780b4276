//! The GDL90 frame check sequence (document 01, Check and stuffing).

/// The divisor x^16 + x^12 + x^5 + 1, its leading term included.
const DIVISOR: u32 = 0x1_1021;

/// The term x^16: a remainder that holds it is not yet reduced.
const LEADING: u32 = 0x1_0000;

/// The check of a body: the remainder of the body, read as one binary
/// polynomial with the most significant bit of the first octet highest, by
/// x^16 + x^12 + x^5 + 1 (document 01, Check and stuffing).
///
/// It starts at 0, is not inverted, and no zero bits are put behind the body.
pub fn check(body: &[u8]) -> u16 {
    let remainder = bits(body).fold(0, divide_step);
    // Each step leaves a remainder below x^16, so nothing is cut off here.
    remainder as u16
}

/// The bits of a body, the most significant bit of each octet first.
fn bits(body: &[u8]) -> impl Iterator<Item = bool> + '_ {
    body.iter()
        .flat_map(|octet| (0..8).rev().map(move |place| octet >> place & 1 == 1))
}

/// One step of long division: bring down the next bit, and subtract the
/// divisor, which without carries is exclusive or, where it goes in.
fn divide_step(remainder: u32, bit: bool) -> u32 {
    let longer = remainder << 1 | u32::from(bit);
    if longer & LEADING == 0 {
        longer
    } else {
        longer ^ DIVISOR
    }
}
