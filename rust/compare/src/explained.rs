//! What the explaining programs write, worked out from the second program's
//! values by Rust's own formatting: the words and units that
//! docs/users/SERVICE-DESK.md promises.

mod line;
mod mavlink;

pub use line::line;
pub use mavlink::mavlink;

/// A refusal in words.
fn reason(number: u8) -> &'static str {
    match number {
        1 => "bad escape",
        2 => "escape before the flag",
        3 => "too long",
        4 => "too short",
        5 => "check wrong",
        6 => "no room for the body",
        10 => "unknown message",
        11 => "wrong length",
        12 => "wrong version, signature or subtype",
        13 => "field outside its range",
        20 => "too few bytes",
        21 => "first byte not fe",
        22 => "unknown message",
        23 => "wrong length",
        24 => "check wrong",
        25 => "field outside its range",
        _ => panic!("no such refusal: {number}"),
    }
}

/// A text in quotes: what can't be shown, quotes and backslashes by their
/// numbers.
pub(crate) fn quoted(text: &[u8]) -> String {
    let shown = text.iter().map(|&octet| match octet {
        b'"' | b'\\' => format!("\\x{octet:02x}"),
        b' '..=b'~' => char::from(octet).to_string(),
        _ => format!("\\x{octet:02x}"),
    });
    format!("\"{}\"", shown.collect::<String>())
}

/// So many parts, with so many digits behind the point.
pub(crate) fn pointed(parts: i64, places: usize) -> String {
    let whole = 10_u64.pow(places as u32);
    let size = parts.unsigned_abs();
    let sign = if parts < 0 { "-" } else { "" };
    format!("{sign}{}.{:0places$}", size / whole, size % whole)
}

/// A value with its unit, or that there is none.
pub(crate) fn known(value: Option<String>, unit: &str) -> String {
    value.map_or("no data".to_owned(), |value| format!("{value} {unit}"))
}

/// `yes` or `no`.
pub(crate) fn truth(bit: u8) -> &'static str {
    if bit == 0 {
        "no"
    } else {
        "yes"
    }
}

/// Octets in hexadecimal, a space before each.
pub(crate) fn hexadecimal(octets: &[u8]) -> String {
    octets.iter().map(|octet| format!(" {octet:02x}")).collect()
}
