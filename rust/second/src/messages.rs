//! The message kinds of the UCP line (document 01, Message kinds on the
//! UCP line).
//!
//! Every field is a raw number, in a type that may be wider than the field;
//! feet and degrees are meanings, given by functions.

mod control;
mod geometric_altitude;
mod heartbeat;
mod initialization;
mod report;
mod request;
mod uplink;

pub use control::Control;
pub use geometric_altitude::GeometricAltitude;
pub use heartbeat::Heartbeat;
pub use initialization::Initialization;
pub use report::Report;
pub use request::Request;
pub use uplink::Uplink;

use crate::fields::{Fields, Row};
use control::CONTROL;
use geometric_altitude::GEOMETRIC_ALTITUDE;
use heartbeat::HEARTBEAT;
use initialization::INITIALIZATION;
use report::{OWNSHIP, TRAFFIC};
use request::REQUEST;
use uplink::UPLINK;

/// The octets of an uplink behind its ID (document 01, Message kinds on the
/// UCP line: 436 with the ID).
pub const UPLINK_OCTETS: usize = 435;

/// The raw altitude of a report that says no data (document 01, Message kinds
/// on the UCP line).
const NO_ALTITUDE: u16 = 0xFFF;

/// The raw vertical rate of a report that says no data: 800 in 12 bits
/// (document 01, Message kinds on the UCP line).
const NO_VERTICAL_RATE: i16 = -2048;

/// A message of the UCP line (document 01, Message kinds on the UCP line).
#[derive(Clone, Debug, PartialEq, Eq)]
pub enum Message {
    /// ID 0.
    Heartbeat(Heartbeat),
    /// ID 7.
    Uplink(Uplink),
    /// ID 10.
    Ownship(Report),
    /// ID 11.
    GeometricAltitude(GeometricAltitude),
    /// ID 20.
    Traffic(Report),
    /// ID 44.
    Request(Request),
    /// ID 45.
    Control(Control),
    /// ID 117.
    Initialization(Initialization),
}

/// What is the same in all messages of a kind.
struct Kind {
    id: u8,
    /// The length with the ID.
    length: usize,
    /// What follows the ID: version, or signature and subtype.
    fixed: &'static [u8],
    /// Takes the fields behind these.
    take: fn(&mut Fields) -> Message,
}

/// The kinds of document 01, Message kinds on the UCP line.
const KINDS: [&Kind; 8] = [
    &HEARTBEAT,
    &UPLINK,
    &OWNSHIP,
    &GEOMETRIC_ALTITUDE,
    &TRAFFIC,
    &REQUEST,
    &CONTROL,
    &INITIALIZATION,
];

/// Reads a body (document 01, refusals 10 to 13).
///
/// Refused with 10 for an empty body or an unknown ID, then with 11 for a
/// length that is not the kind's, then with 12 for a wrong version, signature
/// or subtype, then with 13 for a field outside its range.
pub fn read(body: &[u8]) -> Result<Message, u8> {
    let (&id, behind) = body.split_first().ok_or(10)?;
    let kind = KINDS.into_iter().find(|kind| kind.id == id).ok_or(10)?;
    if body.len() != kind.length {
        return Err(11);
    }
    let content = behind.strip_prefix(kind.fixed).ok_or(12)?;
    let message = (kind.take)(&mut Fields::of(content));
    if message.in_range() {
        Ok(message)
    } else {
        Err(13)
    }
}

/// Writes a message at the start of `output` and gives its length (document
/// 01, refusals 13 and 8).
///
/// Refused with 13 for a field outside its range or too wide for its bits,
/// then with 8 where `output` is shorter than the body. A refusal writes
/// nothing; on success the octets behind the body keep what they held.
pub fn write(message: &Message, output: &mut [u8]) -> Result<usize, u8> {
    if !message.in_range() {
        return Err(13);
    }
    let body = message.body();
    let room = output.get_mut(..body.len()).ok_or(8)?;
    room.copy_from_slice(&body);
    Ok(body.len())
}

/// The feet of a report's raw altitude, or no data (document 01, Message kinds
/// on the UCP line).
pub fn altitude_feet(altitude: u16) -> Option<i32> {
    (altitude != NO_ALTITUDE).then(|| 25 * i32::from(altitude) - 1000)
}

/// The feet per minute of a report's raw vertical rate, or no data (document
/// 01, Message kinds on the UCP line).
pub fn vertical_rate_feet_per_minute(vertical_rate: i16) -> Option<i32> {
    (vertical_rate != NO_VERTICAL_RATE).then(|| 64 * i32::from(vertical_rate))
}

/// The feet of message 11's raw altitude (document 01, Message kinds on the
/// UCP line).
pub fn geometric_altitude_feet(altitude: i16) -> i32 {
    5 * i32::from(altitude)
}

/// The degrees of a raw latitude or longitude: steps of 180 / 2^23 (GDL90
/// public ICD Rev A, the traffic report; also document 003, section 6.2.7.2).
///
/// No rounding takes place: the product has at most 40 bits, and the divisor
/// is a power of two.
pub fn degrees(angle: i32) -> f64 {
    f64::from(angle) * 180.0 / f64::from(1 << 23)
}

impl Message {
    /// The kind of the message.
    fn kind(&self) -> &'static Kind {
        match self {
            Message::Heartbeat(_) => &HEARTBEAT,
            Message::Uplink(_) => &UPLINK,
            Message::Ownship(_) => &OWNSHIP,
            Message::GeometricAltitude(_) => &GEOMETRIC_ALTITUDE,
            Message::Traffic(_) => &TRAFFIC,
            Message::Request(_) => &REQUEST,
            Message::Control(_) => &CONTROL,
            Message::Initialization(_) => &INITIALIZATION,
        }
    }

    /// Whether every field is in its range and fits its bits.
    fn in_range(&self) -> bool {
        match self {
            Message::Heartbeat(_) | Message::GeometricAltitude(_) | Message::Request(_) => true,
            Message::Uplink(uplink) => uplink.octets.len() == UPLINK_OCTETS,
            Message::Ownship(report) | Message::Traffic(report) => report.in_range(),
            Message::Control(control) => control.in_range(),
            Message::Initialization(initialization) => initialization.in_range(),
        }
    }

    /// The body of a message whose fields are in range.
    fn body(&self) -> Vec<u8> {
        let kind = self.kind();
        let mut row = Row::default();
        row.octets(&[kind.id]);
        row.octets(kind.fixed);
        self.put(&mut row);
        row.done()
    }

    /// Puts the fields.
    fn put(&self, row: &mut Row) {
        match self {
            Message::Heartbeat(heartbeat) => row.octets(&heartbeat.octets),
            Message::Uplink(uplink) => row.octets(&uplink.octets),
            Message::Ownship(report) | Message::Traffic(report) => report.put(row),
            Message::GeometricAltitude(geometric) => geometric.put(row),
            Message::Request(request) => row.octets(&[request.requested]),
            Message::Control(control) => control.put(row),
            Message::Initialization(initialization) => initialization.put(row),
        }
    }
}
