//! Squawks built from their digits: what the rule is held to, which takes
//! numbers apart instead (document 02, c).

use std::collections::BTreeSet;

/// Codes that are easily refused: leading zeros, and 7 in every place.
const CODES: [u16; 14] = [
    0, 7, 10, 70, 77, 100, 700, 777, 1000, 1200, 1277, 7000, 7770, 7777,
];

/// Numbers that are easily taken for codes: an 8 or a 9 in every place, and
/// octal digits of which there are five.
const NO_CODES: [u16; 16] = [
    8, 9, 80, 800, 1280, 7778, 7780, 7787, 7800, 7877, 8000, 8777, 9999, 10_000, 57_777, 65_534,
];

/// Those numbers, and whether each is a code.
pub fn by_hand() -> impl Iterator<Item = (u16, bool)> {
    let codes = CODES.into_iter().map(|number| (number, true));
    codes.chain(NO_CODES.into_iter().map(|number| (number, false)))
}

/// The number that sends four octal digits.
pub fn code([a, b, c, d]: [u32; 4]) -> u16 {
    (a * 1000 + b * 100 + c * 10 + d) as u16
}

/// All codes.
pub fn codes() -> BTreeSet<u16> {
    let octal = 0..0o10000_u32;
    octal
        .map(|of| code([of >> 9, of >> 6 & 7, of >> 3 & 7, of & 7]))
        .collect()
}
