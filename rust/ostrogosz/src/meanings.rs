//! What the raw numbers of messages 10, 11 and 20 mean. No call here refuses.

use crate::boundary::{
    Measure, ostrogosz_ucp_altitude_in_feet, ostrogosz_ucp_degrees_e7,
    ostrogosz_ucp_geometric_altitude_in_feet, ostrogosz_ucp_rate_in_feet_per_minute,
};

/// The pressure altitude of messages 10 and 20 in feet, 25 n - 1000; `None`
/// for 0xFFF, no data.
///
/// ```
/// use ostrogosz::meanings::altitude_in_feet;
///
/// assert_eq!(altitude_in_feet(240), Some(5000));
/// assert_eq!(altitude_in_feet(0xFFF), None);
/// ```
#[inline]
#[must_use]
pub fn altitude_in_feet(altitude: u16) -> Option<i32> {
    // SAFETY: the call takes and gives numbers alone.
    known(unsafe { ostrogosz_ucp_altitude_in_feet(altitude) })
}

/// The vertical rate of messages 10 and 20 in feet per minute, 64 n; `None`
/// for -2048, no data.
///
/// ```
/// use ostrogosz::meanings::rate_in_feet_per_minute;
///
/// assert_eq!(rate_in_feet_per_minute(-2), Some(-128));
/// assert_eq!(rate_in_feet_per_minute(-2048), None);
/// ```
#[inline]
#[must_use]
pub fn rate_in_feet_per_minute(vertical_rate: i16) -> Option<i32> {
    // SAFETY: the call takes and gives numbers alone.
    known(unsafe { ostrogosz_ucp_rate_in_feet_per_minute(vertical_rate) })
}

/// The geometric altitude of message 11 in feet, 5 n.
///
/// ```
/// assert_eq!(ostrogosz::meanings::geometric_altitude_in_feet(-100), -500);
/// ```
#[inline]
#[must_use]
pub fn geometric_altitude_in_feet(altitude: i16) -> i32 {
    // SAFETY: the call takes and gives numbers alone.
    unsafe { ostrogosz_ucp_geometric_altitude_in_feet(altitude) }
}

/// A latitude or longitude of messages 10 and 20, n * 180 / 2^23 degrees, in
/// whole units of 1E-7 degree, toward zero.
///
/// ```
/// assert_eq!(ostrogosz::meanings::degrees_e7(0x40_0000), 900_000_000);
/// ```
#[inline]
#[must_use]
pub fn degrees_e7(angle: i32) -> i64 {
    // SAFETY: the call takes and gives numbers alone.
    unsafe { ostrogosz_ucp_degrees_e7(angle) }
}

fn known(measure: Measure) -> Option<i32> {
    (measure.known != 0).then_some(measure.value)
}
