//! The X.25 check as Rust would have it: by a table of 256 entries.

static TABLE: [u16; 256] = table();

/// The check of some octets and one extra octet behind them.
#[inline]
pub fn x25(octets: &[u8], extra: u8) -> u16 {
    next(octets.iter().copied().fold(0xFFFF, next), extra) as u16
}

/// One octet further, in a word: 16 bits would be widened at each octet.
#[inline]
fn next(check: u32, octet: u8) -> u32 {
    let [low, ..] = check.to_le_bytes();
    check >> 8 ^ u32::from(TABLE[usize::from(low ^ octet)])
}

/// For each octet, the check that it alone leads to from 0.
const fn table() -> [u16; 256] {
    let mut table = [0; 256];
    let mut octet = 0;
    while octet < 256 {
        table[octet] = remainder(octet as u16);
        octet += 1;
    }
    table
}

const fn remainder(mut rest: u16) -> u16 {
    let mut bit = 0;
    while bit < 8 {
        rest = if rest & 1 == 0 {
            rest >> 1
        } else {
            rest >> 1 ^ 0x8408
        };
        bit += 1;
    }
    rest
}

#[cfg(test)]
mod tests {
    use super::*;

    #[test]
    fn the_published_value() {
        assert_eq!(x25(b"12345678", b'9'), 0x6F91);
    }
}
