//! Messages 10 and 20.

use super::{Kind, Message};
use crate::fields::{Fields, Row};
use crate::ranges::{fits, fits_signed};

/// Messages 10 and 20 (document 01, Message kinds on the UCP line).
#[derive(Clone, Debug, PartialEq, Eq)]
pub struct Report {
    /// Alert, 4 bits.
    pub alert: u8,
    /// Address type, 4 bits.
    pub address_type: u8,
    /// Address, 24 bits.
    pub address: u32,
    /// Latitude, 24 bits, signed; see [`degrees`](super::degrees).
    pub latitude: i32,
    /// Longitude, 24 bits, signed; see [`degrees`](super::degrees).
    pub longitude: i32,
    /// Altitude, 12 bits; see [`altitude_feet`](super::altitude_feet).
    pub altitude: u16,
    /// Miscellaneous, 4 bits.
    pub miscellaneous: u8,
    /// NIC, 4 bits.
    pub nic: u8,
    /// NACp, 4 bits.
    pub nacp: u8,
    /// Speed, 12 bits.
    pub speed: u16,
    /// Vertical rate, 12 bits, signed; see
    /// [`vertical_rate_feet_per_minute`](super::vertical_rate_feet_per_minute).
    pub vertical_rate: i16,
    /// Track, 8 bits.
    pub track: u8,
    /// Emitter, 8 bits.
    pub emitter: u8,
    /// Callsign, any eight octets.
    pub callsign: [u8; 8],
    /// Emergency, 4 bits.
    pub emergency: u8,
    /// Spare, 4 bits.
    pub spare: u8,
}

pub(super) const OWNSHIP: Kind = Kind {
    id: 10,
    length: 28,
    fixed: &[],
    take: |fields| Message::Ownship(Report::take(fields)),
};

pub(super) const TRAFFIC: Kind = Kind {
    id: 20,
    length: 28,
    fixed: &[],
    take: |fields| Message::Traffic(Report::take(fields)),
};

impl Report {
    pub(super) fn take(fields: &mut Fields) -> Self {
        Self {
            alert: fields.unsigned(4),
            address_type: fields.unsigned(4),
            address: fields.unsigned(24),
            latitude: fields.signed(24),
            longitude: fields.signed(24),
            altitude: fields.unsigned(12),
            miscellaneous: fields.unsigned(4),
            nic: fields.unsigned(4),
            nacp: fields.unsigned(4),
            speed: fields.unsigned(12),
            vertical_rate: fields.signed(12),
            track: fields.unsigned(8),
            emitter: fields.unsigned(8),
            callsign: fields.octets(),
            emergency: fields.unsigned(4),
            spare: fields.unsigned(4),
        }
    }

    pub(super) fn put(&self, row: &mut Row) {
        row.unsigned(self.alert, 4);
        row.unsigned(self.address_type, 4);
        row.unsigned(self.address, 24);
        row.signed(self.latitude, 24);
        row.signed(self.longitude, 24);
        row.unsigned(self.altitude, 12);
        row.unsigned(self.miscellaneous, 4);
        row.unsigned(self.nic, 4);
        row.unsigned(self.nacp, 4);
        row.unsigned(self.speed, 12);
        row.signed(self.vertical_rate, 12);
        row.unsigned(self.track, 8);
        row.unsigned(self.emitter, 8);
        row.octets(&self.callsign);
        row.unsigned(self.emergency, 4);
        row.unsigned(self.spare, 4);
    }

    /// No range is tested here but the bits' own (document 01, Message kinds on
    /// the UCP line).
    pub(super) fn in_range(&self) -> bool {
        let halves = [
            self.alert,
            self.address_type,
            self.miscellaneous,
            self.nic,
            self.nacp,
            self.emergency,
            self.spare,
        ];
        halves.into_iter().all(|half| fits(half, 4))
            && fits(self.address, 24)
            && fits_signed(self.latitude, 24)
            && fits_signed(self.longitude, 24)
            && fits(self.altitude, 12)
            && fits(self.speed, 12)
            && fits_signed(self.vertical_rate, 12)
    }
}
