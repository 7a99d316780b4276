//! Message 45.

use super::calls::kind;
use crate::boundary::{layout, ucp_calls};
use crate::hidden::debug_without;

/// Message 45, version 1. The debug form leaves the identity out.
///
/// ```
/// use ostrogosz::WriteRefusal;
/// use ostrogosz::messages::Control;
///
/// let mut control = Control { identity: *b"N825V   ", ..Control::default() };
/// let mut body = [0; 18];
/// control.squawk = 1277;
/// assert_eq!(control.write_to(&mut body), Ok(18));
/// // A Mode A code has no digit 8 or 9.
/// control.squawk = 1280;
/// assert_eq!(control.write_to(&mut body), Err(WriteRefusal::Field));
/// assert_eq!(WriteRefusal::Field.number(), 13);
/// ```
#[derive(Clone, Copy, Default, PartialEq, Eq)]
#[repr(C)]
pub struct Control {
    /// 1090ES transmission is enabled.
    pub es_enabled: bool,
    /// Replies in mode S are enabled.
    pub mode_s: bool,
    /// Replies in mode C are enabled.
    pub mode_c: bool,
    /// Replies in mode A are enabled.
    pub mode_a: bool,
    /// The ident button is active.
    pub ident: bool,
    /// Air-ground state: 2 bits.
    pub air_ground: u8,
    /// The external barometer is cross checked.
    pub baro_checked: bool,
    /// Pressure altitude in millimetres. Unknown: [`i32::MAX`].
    pub altitude: i32,
    /// Squawk, four octal digits sent as a decimal number: range 0 to 7777,
    /// every digit 0 to 7. 1200 is one, 1280 is refused.
    pub squawk: u16,
    /// Emergency state.
    pub emergency: u8,
    /// Flight identity: range 0-9 and A-Z, spaces at the end alone; all spaces
    /// too.
    pub identity: [u8; 8],
}

debug_without! {
    Control {
        es_enabled, mode_s, mode_c, mode_a, ident, air_ground, baro_checked, altitude, squawk,
        emergency,
    } hidden { identity, }
}

ucp_calls! {
    Control: ostrogosz_ucp_read_control, ostrogosz_ucp_write_control, ostrogosz_ucp_send_control;
}

layout! {
    Control, 24 {
        es_enabled: 0, mode_s: 1, mode_c: 2, mode_a: 3, ident: 4, air_ground: 5,
        baro_checked: 6, altitude: 8, squawk: 12, emergency: 14, identity: 15,
    }
}

kind! {
    Control, 45, 18, "Control { squawk: 1200, identity: *b\"N825V   \", ..Control::default() }";
    read_from ostrogosz_ucp_read_control;
    write_to ostrogosz_ucp_write_control;
    send_to ostrogosz_ucp_send_control
}
