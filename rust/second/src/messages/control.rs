//! Message 45.

use super::{Kind, Message};
use crate::fields::{Fields, Row};
use crate::ranges::{self, fits};

/// Message 45, version 1 (document 003, section 6.2.5.1).
#[derive(Clone, Debug, PartialEq, Eq)]
pub struct Control {
    /// 1090ES TX enabled, 1 bit.
    pub transmit_enabled: u8,
    /// Mode S reply enabled, 1 bit.
    pub mode_s_enabled: u8,
    /// Mode C reply enabled, 1 bit.
    pub mode_c_enabled: u8,
    /// Mode A reply enabled, 1 bit.
    pub mode_a_enabled: u8,
    /// Ident button active, 1 bit.
    pub ident: u8,
    /// Aircraft air-ground state, 2 bits.
    pub air_ground: u8,
    /// External barometer sensor cross checked, 1 bit.
    pub barometer_checked: u8,
    /// External barometric pressure altitude.
    pub pressure_altitude: i32,
    /// Squawk, four octal digits sent as a decimal number (document 02, c).
    pub squawk: u16,
    /// Emergency state.
    pub emergency: u8,
    /// Flight identity: 0-9 and A-Z, spaces only at its end, all spaces
    /// allowed (document 01, Message kinds on the UCP line).
    pub flight_identity: [u8; 8],
}

pub(super) const CONTROL: Kind = Kind {
    id: 45,
    length: 18,
    fixed: &[1],
    take: |fields| Message::Control(Control::take(fields)),
};

impl Control {
    pub(super) fn take(fields: &mut Fields) -> Self {
        Self {
            transmit_enabled: fields.unsigned(1),
            mode_s_enabled: fields.unsigned(1),
            mode_c_enabled: fields.unsigned(1),
            mode_a_enabled: fields.unsigned(1),
            ident: fields.unsigned(1),
            air_ground: fields.unsigned(2),
            barometer_checked: fields.unsigned(1),
            pressure_altitude: i32::from_le_bytes(fields.octets()),
            squawk: u16::from_le_bytes(fields.octets()),
            emergency: fields.unsigned(8),
            flight_identity: fields.octets(),
        }
    }

    pub(super) fn put(&self, row: &mut Row) {
        row.unsigned(self.transmit_enabled, 1);
        row.unsigned(self.mode_s_enabled, 1);
        row.unsigned(self.mode_c_enabled, 1);
        row.unsigned(self.mode_a_enabled, 1);
        row.unsigned(self.ident, 1);
        row.unsigned(self.air_ground, 2);
        row.unsigned(self.barometer_checked, 1);
        row.octets(&self.pressure_altitude.to_le_bytes());
        row.octets(&self.squawk.to_le_bytes());
        row.octets(&[self.emergency]);
        row.octets(&self.flight_identity);
    }

    pub(super) fn in_range(&self) -> bool {
        let single = [
            self.transmit_enabled,
            self.mode_s_enabled,
            self.mode_c_enabled,
            self.mode_a_enabled,
            self.ident,
            self.barometer_checked,
        ];
        single.into_iter().all(|bit| fits(bit, 1))
            && fits(self.air_ground, 2)
            && ranges::squawk(self.squawk)
            && ranges::flight_identity(&self.flight_identity)
    }
}
