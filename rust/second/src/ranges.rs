//! The ranges of fields, one rule for all kinds that share it (document 01,
//! Message kinds on the UCP line and MAVLink kinds; document 02, c and e).

/// Whether an unsigned number fits in this many bits, fewer than 32.
pub(crate) fn fits(number: impl Into<u32>, width: u32) -> bool {
    number.into() < 1 << width
}

/// Whether a number in two's complement fits in this many bits, fewer than 32.
pub(crate) fn fits_signed(number: impl Into<i32>, width: u32) -> bool {
    let end = 1 << (width - 1);
    (-end..end).contains(&number.into())
}

/// Squawks of 45, 202 and 246: four octal digits sent as a decimal number, so
/// at most four decimal digits, and each of them 0 to 7 (document 02, c).
pub(crate) fn squawk(number: u16) -> bool {
    let digits = number.to_string();
    digits.len() <= 4 && digits.bytes().all(|digit| matches!(digit, b'0'..=b'7'))
}

/// Emitters of 117 and 201: 0 to 21, the last of them a line obstacle (document
/// 02, e; document 004, section 2.1). Other kinds carry any octet.
pub(crate) fn emitter(number: u8) -> bool {
    number <= 21
}

/// Size codes of 117 and 201.
pub(crate) fn size(code: u8) -> bool {
    code <= 15
}

/// Callsigns of 117 and 201: A-Z, 0-9 and spaces, anywhere.
pub(crate) fn callsign(text: &[u8]) -> bool {
    text.iter()
        .all(|&octet| letter_or_digit(octet) || octet == b' ')
}

/// Flight identities of 45: 0-9 and A-Z with spaces only at the end; all
/// spaces allowed.
pub(crate) fn flight_identity(text: &[u8]) -> bool {
    let end = text
        .iter()
        .rposition(|&octet| octet != b' ')
        .map_or(0, |last| last + 1);
    text[..end].iter().all(|&octet| letter_or_digit(octet))
}

/// A-Z and 0-9.
fn letter_or_digit(octet: u8) -> bool {
    octet.is_ascii_uppercase() || octet.is_ascii_digit()
}
