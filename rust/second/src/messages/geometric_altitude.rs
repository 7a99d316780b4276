//! Message 11.

use super::{Kind, Message};
use crate::fields::{Fields, Row};

/// Message 11 (document 01, Message kinds on the UCP line).
#[derive(Clone, Debug, PartialEq, Eq)]
pub struct GeometricAltitude {
    /// Altitude in steps of 5 feet; see [`geometric_altitude_feet`](super::geometric_altitude_feet).
    pub altitude: i16,
    /// Metrics.
    pub metrics: u16,
}

pub(super) const GEOMETRIC_ALTITUDE: Kind = Kind {
    id: 11,
    length: 5,
    fixed: &[],
    take: |fields| Message::GeometricAltitude(GeometricAltitude::take(fields)),
};

impl GeometricAltitude {
    pub(super) fn take(fields: &mut Fields) -> Self {
        Self {
            altitude: fields.signed(16),
            metrics: fields.unsigned(16),
        }
    }

    pub(super) fn put(&self, row: &mut Row) {
        row.signed(self.altitude, 16);
        row.unsigned(self.metrics, 16);
    }
}
