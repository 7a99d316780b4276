//! The check as Rust would have it: by a table of 256 entries.

static TABLE: [u16; 256] = table();

/// One octet further.
#[inline]
pub fn next_check(check: u16, octet: u8) -> u16 {
    let [low, high] = check.to_le_bytes();
    TABLE[usize::from(high)] ^ u16::from_le_bytes([octet, low])
}

/// For each octet, the remainder of that octet followed by 16 zero bits.
const fn table() -> [u16; 256] {
    let mut table = [0; 256];
    let mut octet = 0;
    while octet < 256 {
        table[octet] = remainder((octet as u16) << 8);
        octet += 1;
    }
    table
}

const fn remainder(mut rest: u16) -> u16 {
    let mut bit = 0;
    while bit < 8 {
        rest = if rest & 0x8000 == 0 {
            rest << 1
        } else {
            rest << 1 ^ 0x1021
        };
        bit += 1;
    }
    rest
}
