//! Message 11.

use super::calls::kind;
use crate::boundary::{layout, ucp_calls};

/// Message 11.
#[derive(Clone, Copy, Debug, Default, PartialEq, Eq)]
#[repr(C)]
pub struct GeometricAltitude {
    /// Altitude in steps of 5 feet.
    pub altitude: i16,
    /// Metrics.
    pub metrics: u16,
}

ucp_calls! {
    GeometricAltitude: ostrogosz_ucp_read_geometric_altitude,
        ostrogosz_ucp_write_geometric_altitude, ostrogosz_ucp_send_geometric_altitude;
}

layout! {
    GeometricAltitude, 4 { altitude: 0, metrics: 2, }
}

kind! {
    GeometricAltitude, 11, 5, "GeometricAltitude { altitude: 200, metrics: 10 }";
    read_from ostrogosz_ucp_read_geometric_altitude;
    write_to ostrogosz_ucp_write_geometric_altitude;
    send_to ostrogosz_ucp_send_geometric_altitude
}
