//! Message 0.

use super::calls::kind;
use crate::boundary::{layout, ucp_calls};

/// Message 0: all bits are carried.
#[derive(Clone, Copy, Debug, Default, PartialEq, Eq)]
#[repr(C)]
pub struct Heartbeat {
    /// The first status octet.
    pub status_1: u8,
    /// The second status octet; bit 7 is bit 16 of the time stamp.
    pub status_2: u8,
    /// Seconds since midnight UTC, bits 0 to 15; low octet first on the line.
    pub time_stamp: u16,
    /// Messages received; high octet first on the line.
    pub counts: u16,
}

ucp_calls! {
    Heartbeat: ostrogosz_ucp_read_heartbeat, ostrogosz_ucp_write_heartbeat,
        ostrogosz_ucp_send_heartbeat;
}

layout! {
    Heartbeat, 6 { status_1: 0, status_2: 1, time_stamp: 2, counts: 4, }
}

kind! {
    Heartbeat, 0, 7, "Heartbeat { time_stamp: 53_467, ..Heartbeat::default() }";
    read_from ostrogosz_ucp_read_heartbeat;
    write_to ostrogosz_ucp_write_heartbeat;
    send_to ostrogosz_ucp_send_heartbeat
}
