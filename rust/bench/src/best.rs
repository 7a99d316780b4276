//! Both checks by the best methods known: tables of eight, and carry-less
//! multiplication where the processor has it. They are the limit on this
//! machine, not a contender: nothing of them is proved.

#[cfg(target_arch = "x86_64")]
use core::arch::x86_64::{
    __m128i, _mm_clmulepi64_si128, _mm_loadu_si128, _mm_set_epi64x, _mm_storeu_si128, _mm_xor_si128,
};

/// x^16 + x^12 + x^5 + 1 without its highest power.
const GENERATOR: u16 = 0x1021;

/// Eight tables: what an octet comes to, so many octets before the end.
pub type Tables = [[u16; 256]; 8];

/// x times a remainder.
const fn times_x(rest: u16) -> u16 {
    rest << 1 ^ if rest & 0x8000 == 0 { 0 } else { GENERATOR }
}

/// x^power, reduced.
const fn power_of_x(power: u32) -> u16 {
    let (mut rest, mut i) = (1, 0);
    while i < power {
        rest = times_x(rest);
        i += 1;
    }
    rest
}

/// The tables of the UCP line's check, most significant bit first, or of X.25,
/// least significant first.
const fn tables(reflected: bool) -> Tables {
    let mut tables = [[0; 256]; 8];
    let mut octet = 0;
    while octet < 256 {
        let bits = if reflected {
            (octet as u8).reverse_bits()
        } else {
            octet as u8
        };
        let mut rest = (bits as u16) << 8;
        let mut place = 0;
        while place < 8 {
            let mut bit = 0;
            while bit < 8 {
                rest = times_x(rest);
                bit += 1;
            }
            tables[place][octet] = if reflected { rest.reverse_bits() } else { rest };
            place += 1;
        }
        octet += 1;
    }
    tables
}

static GDL90: Tables = tables(false);
static X25: Tables = tables(true);

/// The remainder of octets times x^16, most significant bit first.
fn by_eight(mut check: u16, octets: &[u8]) -> u16 {
    let (words, rest) = octets.as_chunks::<8>();
    for word in words {
        let [high, low] = (check ^ u16::from_be_bytes([word[0], word[1]])).to_be_bytes();
        check = GDL90[7][usize::from(high)] ^ GDL90[6][usize::from(low)];
        for (place, &octet) in word[2..].iter().enumerate() {
            check ^= GDL90[5 - place][usize::from(octet)];
        }
    }
    rest.iter().fold(check, |check, &octet| {
        check << 8 ^ GDL90[0][usize::from((check >> 8) as u8 ^ octet)]
    })
}

/// The same, least significant bit first.
fn by_eight_reflected(mut check: u16, octets: &[u8]) -> u16 {
    let (words, rest) = octets.as_chunks::<8>();
    for word in words {
        let [low, high] = (check ^ u16::from_le_bytes([word[0], word[1]])).to_le_bytes();
        check = X25[7][usize::from(low)] ^ X25[6][usize::from(high)];
        for (place, &octet) in word[2..].iter().enumerate() {
            check ^= X25[5 - place][usize::from(octet)];
        }
    }
    rest.iter().fold(check, |check, &octet| {
        check >> 8 ^ X25[0][usize::from(check as u8 ^ octet)]
    })
}

/// The UCP line's check has no zeros behind the body: its last two octets are
/// added, not multiplied.
fn gdl90(body: &[u8], remainder: impl Fn(&[u8]) -> u16) -> u16 {
    match body.split_last_chunk::<2>() {
        Some((rest, &last)) => remainder(rest) ^ u16::from_be_bytes(last),
        None => body.first().map_or(0, |&octet| u16::from(octet)),
    }
}

/// The UCP line's check by tables of eight.
#[inline(never)]
pub fn gdl90_by_tables(body: &[u8]) -> u16 {
    gdl90(body, |octets| by_eight(0, octets))
}

/// X.25 by tables of eight.
#[inline(never)]
pub fn x25_by_tables(octets: &[u8]) -> u16 {
    by_eight_reflected(0xFFFF, octets)
}

/// Whether the processor multiplies without carries.
pub fn multiplies() -> bool {
    cfg!(target_arch = "x86_64") && std::arch::is_x86_feature_detected!("pclmulqdq")
}

/// Sixteen octets at a time, each fold two products; what is left by tables.
#[cfg(target_arch = "x86_64")]
#[target_feature(enable = "pclmulqdq,sse2,ssse3")]
fn folded(octets: &[u8], start: u16, reflected: bool) -> u16 {
    let finish = |check, rest: &[u8]| match reflected {
        true => by_eight_reflected(check, rest),
        false => by_eight(check, rest),
    };
    let (blocks, rest) = octets.as_chunks::<16>();
    let Some((first, others)) = blocks.split_first() else {
        return finish(start, octets);
    };
    let by = |power: u32| match reflected {
        true => (u64::from(power_of_x_cached(power - 1).reverse_bits()) << 48) as i64,
        false => i64::from(power_of_x_cached(power)),
    };
    // Of a block, the half that comes first is 64 places further up.
    let keys = match reflected {
        true => _mm_set_epi64x(by(128), by(192)),
        false => _mm_set_epi64x(by(192), by(128)),
    };
    let mut start_block = *first;
    let [high, low] = start.to_be_bytes();
    let (one, two) = if reflected { (low, high) } else { (high, low) };
    start_block[0] ^= one;
    start_block[1] ^= two;
    let mut folded = load(&start_block, reflected);
    for block in others {
        let upper = _mm_clmulepi64_si128(folded, keys, 0x11);
        let lower = _mm_clmulepi64_si128(folded, keys, 0x00);
        folded = _mm_xor_si128(_mm_xor_si128(upper, lower), load(block, reflected));
    }
    finish(finish(0, &stored(folded, reflected)), rest)
}

/// Powers that are used are few; each is worked out once.
fn power_of_x_cached(power: u32) -> u16 {
    const POWERS: [u16; 4] = [
        power_of_x(127),
        power_of_x(128),
        power_of_x(191),
        power_of_x(192),
    ];
    match power {
        127 => POWERS[0],
        128 => POWERS[1],
        191 => POWERS[2],
        _ => POWERS[3],
    }
}

#[cfg(target_arch = "x86_64")]
#[target_feature(enable = "sse2")]
#[allow(unsafe_code)]
fn load(block: &[u8; 16], reflected: bool) -> __m128i {
    let mut octets = *block;
    if !reflected {
        octets.reverse();
    }
    // SAFETY: sixteen octets are there, and the load asks for no alignment.
    unsafe { _mm_loadu_si128(octets.as_ptr().cast()) }
}

#[cfg(target_arch = "x86_64")]
#[target_feature(enable = "sse2")]
#[allow(unsafe_code)]
fn stored(block: __m128i, reflected: bool) -> [u8; 16] {
    let mut octets = [0; 16];
    // SAFETY: there is room for sixteen octets, and the store asks for no
    // alignment.
    unsafe { _mm_storeu_si128(octets.as_mut_ptr().cast(), block) };
    if !reflected {
        octets.reverse();
    }
    octets
}

/// The UCP line's check by carry-less multiplication, where there is one.
#[inline(never)]
#[allow(unsafe_code)]
pub fn gdl90_by_products(body: &[u8]) -> u16 {
    // SAFETY: the processor was asked.
    gdl90(body, |octets| unsafe { folded(octets, 0, false) })
}

/// X.25 by carry-less multiplication, where there is one.
#[inline(never)]
#[allow(unsafe_code)]
pub fn x25_by_products(octets: &[u8]) -> u16 {
    // SAFETY: the processor was asked.
    unsafe { folded(octets, 0xFFFF, true) }
}

/// Another method that answers something else would be no measure.
#[cfg(test)]
mod tests {
    use super::*;
    use compare::generator::Generator;

    #[test]
    fn all_methods_give_the_checks() {
        let mut generator = Generator::new(71);
        for length in 0..600 {
            let octets: Vec<u8> = (0..length).map(|_| generator.number() as u8).collect();
            let (check, x25) = (second::check::check(&octets), second::mavlink::x25(&octets));
            assert_eq!(gdl90_by_tables(&octets), check, "{length} octets");
            assert_eq!(x25_by_tables(&octets), x25, "{length} octets");
            if multiplies() {
                assert_eq!(gdl90_by_products(&octets), check, "{length} octets");
                assert_eq!(x25_by_products(&octets), x25, "{length} octets");
            }
        }
    }
}
