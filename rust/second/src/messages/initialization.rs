//! Message 117.

use super::{Kind, Message};
use crate::fields::{Fields, Row};
use crate::ranges::{self, fits};

/// Message 117 (document 000, Initialization Message).
#[derive(Clone, Debug, PartialEq, Eq)]
pub struct Initialization {
    /// Version, any.
    pub version: u8,
    /// Vehicle address, 24 bits.
    pub address: u32,
    /// Emitter, 0 to 21 (document 02, e).
    pub emitter: u8,
    /// Callsign of A-Z, 0-9 and space (document 01, Message kinds on the UCP
    /// line).
    pub callsign: [u8; 8],
    /// Stall speed.
    pub stall_speed: u8,
    /// Size code, 0 to 15 (document 01, Message kinds on the UCP line).
    pub size: u8,
    /// Lateral offset of the antenna, 3 bits.
    pub lateral: u8,
    /// Longitudinal offset of the antenna, 5 bits.
    pub longitudinal: u8,
}

pub(super) const INITIALIZATION: Kind = Kind {
    id: 117,
    length: 19,
    fixed: &[65, 1],
    take: |fields| Message::Initialization(Initialization::take(fields)),
};

impl Initialization {
    pub(super) fn take(fields: &mut Fields) -> Self {
        Self {
            version: fields.unsigned(8),
            address: fields.address(),
            emitter: fields.unsigned(8),
            callsign: fields.octets(),
            stall_speed: fields.unsigned(8),
            size: fields.unsigned(8),
            lateral: fields.unsigned(3),
            longitudinal: fields.unsigned(5),
        }
    }

    pub(super) fn put(&self, row: &mut Row) {
        row.octets(&[self.version]);
        row.address(self.address);
        row.octets(&[self.emitter]);
        row.octets(&self.callsign);
        row.octets(&[self.stall_speed, self.size]);
        row.unsigned(self.lateral, 3);
        row.unsigned(self.longitudinal, 5);
    }

    pub(super) fn in_range(&self) -> bool {
        fits(self.address, 24)
            && ranges::emitter(self.emitter)
            && ranges::callsign(&self.callsign)
            && ranges::size(self.size)
            && fits(self.lateral, 3)
            && fits(self.longitudinal, 5)
    }
}
