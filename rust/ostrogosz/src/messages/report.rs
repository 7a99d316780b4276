//! Messages 10 and 20.

use super::calls::kind;
use crate::boundary::{layout, ucp_calls};
use crate::hidden::debug_without;

/// Messages 10 and 20. No range is tested but the bits' own. The debug form
/// leaves address and callsign out.
#[derive(Clone, Copy, Default, PartialEq, Eq)]
#[repr(C)]
pub struct Report {
    /// Alert: 4 bits.
    pub alert: u8,
    /// Address type: 4 bits.
    pub address_type: u8,
    /// Address: 24 bits.
    pub address: u32,
    /// Latitude in steps of 180 / 2^23 degrees, north positive: 24 bits, so
    /// -2^23 to 2^23 - 1.
    pub latitude: i32,
    /// Longitude in steps of 180 / 2^23 degrees, east positive: 24 bits, so
    /// -2^23 to 2^23 - 1.
    pub longitude: i32,
    /// Altitude n, which means 25 n - 1000 feet: 12 bits. No data: 0xFFF.
    pub altitude: u16,
    /// Miscellaneous: 4 bits.
    pub miscellaneous: u8,
    /// Navigation integrity category: 4 bits.
    pub nic: u8,
    /// Navigation accuracy category for position: 4 bits.
    pub nacp: u8,
    /// Speed in knots: 12 bits. No data: 0xFFF.
    pub speed: u16,
    /// Vertical rate n, which means 64 n feet per minute: 12 bits, so -2048 to
    /// 2047. No data: -2048.
    pub vertical_rate: i16,
    /// Track in steps of 360 / 256 degrees.
    pub track: u8,
    /// [Emitter category](crate::emitter): any octet.
    pub emitter: u8,
    /// Callsign: any octets; no zero is put behind them.
    pub callsign: [u8; 8],
    /// Emergency: 4 bits.
    pub emergency: u8,
    /// Spare: 4 bits.
    pub spare: u8,
}

debug_without! {
    Report {
        alert, address_type, latitude, longitude, altitude, miscellaneous, nic, nacp, speed,
        vertical_rate, track, emitter, emergency, spare,
    } hidden { address, callsign, }
}

ucp_calls! {
    Report: ostrogosz_ucp_read_ownship, ostrogosz_ucp_write_ownship, ostrogosz_ucp_send_ownship;
    Report: ostrogosz_ucp_read_traffic, ostrogosz_ucp_write_traffic, ostrogosz_ucp_send_traffic;
}

layout! {
    Report, 40 {
        alert: 0, address_type: 1, address: 4, latitude: 8, longitude: 12, altitude: 16,
        miscellaneous: 18, nic: 19, nacp: 20, speed: 22, vertical_rate: 24, track: 26,
        emitter: 27, callsign: 28, emergency: 36, spare: 37,
    }
}

kind! {
    Report, 10, 28, "Report { altitude: 240, ..Report::default() }";
    read_ownship_from ostrogosz_ucp_read_ownship;
    write_ownship_to ostrogosz_ucp_write_ownship;
    send_ownship_to ostrogosz_ucp_send_ownship
}

kind! {
    Report, 20, 28, "Report { callsign: *b\"N825V   \", ..Report::default() }";
    read_traffic_from ostrogosz_ucp_read_traffic;
    write_traffic_to ostrogosz_ucp_write_traffic;
    send_traffic_to ostrogosz_ucp_send_traffic
}
