//! Outputs to lend, and what a call did to them.

use crate::generator::Generator;

/// Octets kept on each side of the lent part, so that a write past its ends
/// shows too.
const MARGIN: usize = 16;

/// Octets that a call may be lent, in the midst of a random pattern that is
/// compared whole.
#[derive(Clone, Debug, PartialEq, Eq)]
pub struct Room {
    octets: Vec<u8>,
}

impl Room {
    /// A room for up to `longest` octets.
    pub fn new(longest: usize) -> Self {
        let octets = vec![0; MARGIN + longest + MARGIN];
        Self { octets }
    }

    /// A fresh pattern everywhere: a constant one would hide a write of the
    /// same octet.
    pub fn prefill(&mut self, generator: &mut Generator) {
        generator.fill(&mut self.octets);
    }

    /// Makes this room the same as the other.
    pub fn copy(&mut self, other: &Self) {
        self.octets.copy_from_slice(&other.octets);
    }

    /// The first `length` octets of the room.
    pub fn lend(&mut self, length: usize) -> &mut [u8] {
        &mut self.octets[MARGIN..MARGIN + length]
    }
}
