//! Bodies to frame: plain ones, and those that stuffing makes hard.

use second::check::check;
use second::frame::{ESCAPE, ESCAPED_ESCAPE, ESCAPED_FLAG, FLAG};

use crate::generator::Generator;

/// How a body is made.
#[derive(Clone, Copy, Debug, PartialEq, Eq)]
pub enum Kind {
    /// Every octet random.
    Random,
    /// Every octet 7E.
    Flags,
    /// Every octet 7D.
    Escapes,
    /// Mostly flags, escapes and what follows an escape.
    EscapeHeavy,
    /// Random, with a check of which one octet or both are escaped.
    EscapedCheck,
}

impl Kind {
    /// Every kind.
    pub const ALL: [Self; 5] = [
        Self::Random,
        Self::Flags,
        Self::Escapes,
        Self::EscapeHeavy,
        Self::EscapedCheck,
    ];

    /// What the counts call it.
    pub const fn name(self) -> &'static str {
        match self {
            Self::Random => "random bodies",
            Self::Flags => "bodies all 7E",
            Self::Escapes => "bodies all 7D",
            Self::EscapeHeavy => "bodies heavy in escapes",
            Self::EscapedCheck => "bodies with an escaped check",
        }
    }

    /// A body of this kind and length.
    pub fn body(self, length: usize, generator: &mut Generator) -> Vec<u8> {
        match self {
            Self::Random => generator.octets(length),
            Self::Flags => vec![FLAG; length],
            Self::Escapes => vec![ESCAPE; length],
            Self::EscapeHeavy => escape_heavy(length, generator),
            Self::EscapedCheck => escaped_check(length, generator),
        }
    }
}

/// The body of the longest frame: all its octets are escaped, those of its
/// check too.
pub fn longest_frame() -> Vec<u8> {
    let mut body = vec![FLAG; 436];
    body[1] = ESCAPE;
    body[373] = ESCAPE;
    body
}

fn escape_heavy(length: usize, generator: &mut Generator) -> Vec<u8> {
    let mut body = generator.octets(length);
    for octet in &mut body {
        if *octet >= 64 {
            *octet = generator.pick(&[FLAG, ESCAPE, ESCAPED_FLAG, ESCAPED_ESCAPE]);
        }
    }
    body
}

fn escaped_check(length: usize, generator: &mut Generator) -> Vec<u8> {
    let mut sent = generator.number().to_le_bytes();
    let which = generator.pick(&[(true, false), (false, true), (true, true)]);
    if which.0 {
        sent[0] = generator.pick(&[FLAG, ESCAPE]);
    }
    if which.1 {
        sent[1] = generator.pick(&[FLAG, ESCAPE]);
    }
    let mut body = generator.octets(length);
    give_check(&mut body, u16::from_le_bytes([sent[0], sent[1]]));
    body
}

/// Changes the last two octets so that the body has this check: they are the
/// lowest 16 terms, so what is added to them is added to the remainder. A body
/// of one octet is its own check.
pub fn give_check(body: &mut [u8], wanted: u16) {
    let [high, low] = (check(body) ^ wanted).to_be_bytes();
    match body {
        [.., before, last] => {
            *before ^= high;
            *last ^= low;
        }
        [only] => *only ^= low,
        [] => {}
    }
}

#[cfg(test)]
mod tests {
    use super::*;
    use second::frame::stuffed;

    #[test]
    fn an_escaped_check_is_escaped() {
        let mut generator = Generator::new(1);
        for length in 2..=436 {
            let body = Kind::EscapedCheck.body(length, &mut generator);
            let sent = check(&body).to_le_bytes();
            assert!(stuffed(&sent).len() > sent.len(), "{body:02X?}");
        }
    }

    #[test]
    fn the_longest_frame_has_878_octets() {
        assert_eq!(second::frame::frame(&longest_frame()).len(), 878);
    }
}
