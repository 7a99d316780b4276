//! Message 117.

use super::calls::kind;
use crate::boundary::{layout, ucp_calls};
use crate::hidden::debug_without;

/// Message 117; its signature is 65 and its subtype 1. The debug form leaves
/// address and callsign out.
#[derive(Clone, Copy, Default, PartialEq, Eq)]
#[repr(C)]
pub struct Initialization {
    /// Version: any.
    pub version: u8,
    /// Address: 24 bits.
    pub address: u32,
    /// [Emitter category](crate::emitter): range 0 to 21.
    pub emitter: u8,
    /// Callsign: range A-Z, 0-9 and space.
    pub callsign: [u8; 8],
    /// Stall speed in knots.
    pub stall_speed: u8,
    /// A code of length and width: range 0 to 15.
    pub size: u8,
    /// Lateral offset of the antenna: 3 bits.
    pub lateral: u8,
    /// Longitudinal offset of the antenna: 5 bits.
    pub longitudinal: u8,
}

debug_without! {
    Initialization {
        version, emitter, stall_speed, size, lateral, longitudinal,
    } hidden { address, callsign, }
}

ucp_calls! {
    Initialization: ostrogosz_ucp_read_initialization, ostrogosz_ucp_write_initialization,
        ostrogosz_ucp_send_initialization;
}

layout! {
    Initialization, 24 {
        version: 0, address: 4, emitter: 8, callsign: 9, stall_speed: 17, size: 18,
        lateral: 19, longitudinal: 20,
    }
}

kind! {
    Initialization, 117, 19, "Initialization { callsign: *b\"N825V   \", ..Initialization::default() }";
    read_from ostrogosz_ucp_read_initialization;
    write_to ostrogosz_ucp_write_initialization;
    send_to ostrogosz_ucp_send_initialization
}
