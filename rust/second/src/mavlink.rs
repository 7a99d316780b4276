//! MAVLink version 1 frames with five message kinds (document 01, MAVLink
//! kinds).
//!
//! Every field is a raw number, in a type that may be wider than the field.

use crate::fields::{Fields, Row};
use crate::ranges::{self, fits};

/// The octet that starts every frame (document 01, MAVLink kinds).
pub const START: u8 = 0xFE;

/// The octets before the payload: start, length, sequence, system, component
/// and ID (document 01, MAVLink kinds).
const HEADER: usize = 6;

/// The octets of the check behind the payload.
const CHECK: usize = 2;

/// The polynomial of X.25, x^16 + x^12 + x^5 + 1, without its leading term and
/// with its lowest term in the highest bit: the wire sends the least
/// significant bit of an octet first.
const X25: u16 = 0x8408;

/// What stands for no squawk in a traffic report, and in no other kind
/// (document 01, MAVLink kinds; document 001, Traffic Report Message).
const NO_SQUAWK: u16 = 65_535;

/// A frame that was read (document 01, the paragraph below the refusal table).
#[derive(Clone, Debug, PartialEq, Eq)]
pub struct Frame {
    /// How many octets of the input the frame took.
    pub used: usize,
    /// Packet sequence.
    pub sequence: u8,
    /// System ID.
    pub system: u8,
    /// Component.
    pub component: u8,
    /// What the payload says.
    pub message: Message,
}

/// A message in a frame (document 01, MAVLink kinds).
#[derive(Clone, Debug, PartialEq, Eq)]
pub enum Message {
    /// ID 66.
    RequestDataStream(RequestDataStream),
    /// ID 201.
    Static(Static),
    /// ID 202.
    Dynamic(Dynamic),
    /// ID 203.
    Status(Status),
    /// ID 246.
    Traffic(Traffic),
}

/// Message 66 (document 01, MAVLink kinds).
#[derive(Clone, Debug, PartialEq, Eq)]
pub struct RequestDataStream {
    /// Rate.
    pub rate: u16,
    /// Target system.
    pub target_system: u8,
    /// Target component.
    pub target_component: u8,
    /// Stream.
    pub stream: u8,
    /// Start or stop.
    pub start_stop: u8,
}

/// Message 201 (document 001, Static Message).
#[derive(Clone, Debug, PartialEq, Eq)]
pub struct Static {
    /// Vehicle address, 24 bits.
    pub address: u32,
    /// Integrity and design assurance.
    pub integrity: u8,
    /// Stall speed.
    pub stall_speed: u16,
    /// Callsign of A-Z, 0-9 and space (document 01, MAVLink kinds).
    pub callsign: [u8; 8],
    /// Capability: only 0 is accepted, as 00 must follow the callsign
    /// (document 01, MAVLink kinds).
    pub capability: u8,
    /// Emitter, 0 to 21 (document 02, e).
    pub emitter: u8,
    /// Size code, 0 to 15 (document 01, MAVLink kinds).
    pub size: u8,
    /// Lateral offset of the antenna, 0 to 7 (document 01, MAVLink kinds).
    pub lateral: u8,
    /// Longitudinal offset of the antenna, 0 to 31 (document 01, MAVLink
    /// kinds).
    pub longitudinal: u8,
}

/// Message 202 (document 001, Dynamic / Ownship Message).
#[derive(Clone, Debug, PartialEq, Eq)]
pub struct Dynamic {
    /// UTC time.
    pub utc_time: u32,
    /// Latitude.
    pub latitude: i32,
    /// Longitude.
    pub longitude: i32,
    /// Barometric pressure altitude.
    pub pressure_altitude: i32,
    /// GNSS altitude.
    pub gnss_altitude: i32,
    /// Horizontal accuracy.
    pub horizontal_accuracy: u32,
    /// Vertical accuracy.
    pub vertical_accuracy: u16,
    /// Velocity accuracy.
    pub velocity_accuracy: u16,
    /// Vertical velocity.
    pub vertical_velocity: i16,
    /// North-south velocity, cm/s.
    pub north_velocity: i16,
    /// East-west velocity, cm/s.
    pub east_velocity: i16,
    /// State flags.
    pub state: u16,
    /// Squawk, four octal digits sent as a decimal number (document 02, c).
    pub squawk: u16,
    /// Fix type, 0 to 5 (document 01, MAVLink kinds).
    pub fix: u8,
    /// Number of satellites.
    pub satellites: u8,
    /// Emergency status.
    pub emergency: u8,
    /// Control flags.
    pub control: u8,
}

/// Message 203 (document 001, Status Message).
#[derive(Clone, Debug, PartialEq, Eq)]
pub struct Status {
    /// Self test status.
    pub status: u8,
}

/// Message 246 (document 001, Traffic Report Message).
#[derive(Clone, Debug, PartialEq, Eq)]
pub struct Traffic {
    /// Address.
    pub address: u32,
    /// Latitude.
    pub latitude: i32,
    /// Longitude.
    pub longitude: i32,
    /// Altitude.
    pub altitude: i32,
    /// Heading.
    pub heading: u16,
    /// Horizontal velocity.
    pub horizontal_velocity: u16,
    /// Vertical velocity.
    pub vertical_velocity: i16,
    /// Flags of the fields that are valid.
    pub valid: u16,
    /// Squawk, four octal digits sent as a decimal number, or 65535 (document
    /// 02, c).
    pub squawk: u16,
    /// Altitude type.
    pub altitude_type: u8,
    /// Callsign, any nine octets.
    pub callsign: [u8; 9],
    /// Emitter.
    pub emitter: u8,
    /// Time since the last communication.
    pub since_last: u8,
}

/// What is the same in all frames of a kind.
struct Kind {
    id: u8,
    /// The length of the payload.
    length: u8,
    /// The octet that the check takes in last and no frame carries.
    extra: u8,
    /// Takes the fields of the payload.
    take: fn(&mut Fields) -> Message,
}

const REQUEST_DATA_STREAM: Kind = Kind {
    id: 66,
    length: 6,
    extra: 148,
    take: |fields| Message::RequestDataStream(RequestDataStream::take(fields)),
};

const STATIC: Kind = Kind {
    id: 201,
    length: 19,
    extra: 126,
    take: |fields| Message::Static(Static::take(fields)),
};

const DYNAMIC: Kind = Kind {
    id: 202,
    length: 42,
    extra: 7,
    take: |fields| Message::Dynamic(Dynamic::take(fields)),
};

const STATUS: Kind = Kind {
    id: 203,
    length: 1,
    extra: 85,
    take: |fields| Message::Status(Status::take(fields)),
};

const TRAFFIC: Kind = Kind {
    id: 246,
    length: 38,
    extra: 184,
    take: |fields| Message::Traffic(Traffic::take(fields)),
};

/// The kinds of document 01, MAVLink kinds.
const KINDS: [&Kind; 5] = [&REQUEST_DATA_STREAM, &STATIC, &DYNAMIC, &STATUS, &TRAFFIC];

/// The X.25 check as document 001, CRC Code, gives it: it starts at FFFF and
/// is not inverted.
pub fn x25(bytes: &[u8]) -> u16 {
    bits(bytes).fold(0xFFFF, divide_step)
}

/// The bits of some octets, the least significant bit of each octet first.
fn bits(bytes: &[u8]) -> impl Iterator<Item = bool> + '_ {
    bytes
        .iter()
        .flat_map(|octet| (0..8).map(move |place| octet >> place & 1 == 1))
}

/// One step of the division: the highest term, which is in the lowest bit,
/// meets the next bit of the message, and the polynomial is subtracted where
/// they differ.
fn divide_step(remainder: u16, bit: bool) -> u16 {
    let leading = remainder & 1 == 1;
    let shifted = remainder >> 1;
    if leading == bit {
        shifted
    } else {
        shifted ^ X25
    }
}

/// Reads the frame at the start of `input`; the octets behind it are left
/// (document 01, the paragraph below the refusal table).
///
/// Refused, in this order, with 20 for no octet, 21 for a first octet other
/// than FE, 20 for fewer than 6 octets, 22 for an unknown ID, 23 for a length
/// octet that is not the kind's, 20 for fewer octets than that length and 8,
/// 24 for a wrong check, and 25 for a field outside its range.
pub fn read(input: &[u8]) -> Result<Frame, u8> {
    let (kind, sequence, system, component) = read_header(input)?;
    let message = read_message(kind, read_payload(kind, input)?)?;
    Ok(Frame {
        used: kind.frame_length(),
        sequence,
        system,
        component,
        message,
    })
}

/// The kind, sequence, system and component that a header gives: all tests up
/// to 23.
fn read_header(input: &[u8]) -> Result<(&'static Kind, u8, u8, u8), u8> {
    if *input.first().ok_or(20)? != START {
        return Err(21);
    }
    let &[_, length, sequence, system, component, id, ..] = input else {
        return Err(20);
    };
    let kind = KINDS.into_iter().find(|kind| kind.id == id).ok_or(22)?;
    if length != kind.length {
        return Err(23);
    }
    Ok((kind, sequence, system, component))
}

/// The payload of a frame of this kind: the last test for 20, and 24.
fn read_payload<'a>(kind: &Kind, input: &'a [u8]) -> Result<&'a [u8], u8> {
    let frame = input.get(..kind.frame_length()).ok_or(20)?;
    let (checked, sent) = frame.split_at(frame.len() - CHECK);
    if sent != kind.check(checked) {
        return Err(24);
    }
    Ok(&checked[HEADER..])
}

/// The message of a payload: the test for 25.
fn read_message(kind: &Kind, payload: &[u8]) -> Result<Message, u8> {
    let message = (kind.take)(&mut Fields::of(payload));
    if message.in_range() {
        Ok(message)
    } else {
        Err(25)
    }
}

/// Writes a frame at the start of `output` and gives its length (document 01,
/// refusals 25 and 8).
///
/// Refused with 25 for a field outside its range or too wide for its bits,
/// then with 8 where `output` is shorter than the frame. A refusal writes
/// nothing; on success the octets behind the frame keep what they held.
pub fn write(
    sequence: u8,
    system: u8,
    component: u8,
    message: &Message,
    output: &mut [u8],
) -> Result<usize, u8> {
    if !message.in_range() {
        return Err(25);
    }
    let frame = message.frame(sequence, system, component);
    let room = output.get_mut(..frame.len()).ok_or(8)?;
    room.copy_from_slice(&frame);
    Ok(frame.len())
}

impl Kind {
    /// The length of a whole frame.
    fn frame_length(&self) -> usize {
        HEADER + usize::from(self.length) + CHECK
    }

    /// The check of a frame that ends with its payload, low octet first: over
    /// all octets from the length on, then the extra octet.
    fn check(&self, frame: &[u8]) -> [u8; CHECK] {
        let checked = [&frame[1..], &[self.extra]].concat();
        x25(&checked).to_le_bytes()
    }
}

impl Message {
    /// The kind of the message.
    fn kind(&self) -> &'static Kind {
        match self {
            Message::RequestDataStream(_) => &REQUEST_DATA_STREAM,
            Message::Static(_) => &STATIC,
            Message::Dynamic(_) => &DYNAMIC,
            Message::Status(_) => &STATUS,
            Message::Traffic(_) => &TRAFFIC,
        }
    }

    /// Whether every field is in its range and fits its bits.
    fn in_range(&self) -> bool {
        match self {
            Message::RequestDataStream(_) | Message::Status(_) => true,
            Message::Static(it) => it.in_range(),
            Message::Dynamic(it) => ranges::squawk(it.squawk) && it.fix <= 5,
            Message::Traffic(it) => ranges::squawk(it.squawk) || it.squawk == NO_SQUAWK,
        }
    }

    /// The whole frame of a message whose fields are in range.
    fn frame(&self, sequence: u8, system: u8, component: u8) -> Vec<u8> {
        let kind = self.kind();
        let mut row = Row::default();
        row.octets(&[START, kind.length, sequence, system, component, kind.id]);
        self.put(&mut row);
        let mut frame = row.done();
        let check = kind.check(&frame);
        frame.extend(check);
        frame
    }

    /// Puts the fields.
    fn put(&self, row: &mut Row) {
        match self {
            Message::RequestDataStream(it) => it.put(row),
            Message::Static(it) => it.put(row),
            Message::Dynamic(it) => it.put(row),
            Message::Status(it) => row.octets(&[it.status]),
            Message::Traffic(it) => it.put(row),
        }
    }
}

impl RequestDataStream {
    fn take(fields: &mut Fields) -> Self {
        Self {
            rate: u16::from_le_bytes(fields.octets()),
            target_system: fields.unsigned(8),
            target_component: fields.unsigned(8),
            stream: fields.unsigned(8),
            start_stop: fields.unsigned(8),
        }
    }

    fn put(&self, row: &mut Row) {
        row.octets(&self.rate.to_le_bytes());
        row.octets(&[self.target_system, self.target_component]);
        row.octets(&[self.stream, self.start_stop]);
    }
}

impl Static {
    fn take(fields: &mut Fields) -> Self {
        Self {
            address: fields.address(),
            integrity: fields.unsigned(8),
            stall_speed: u16::from_le_bytes(fields.octets()),
            callsign: fields.octets(),
            capability: fields.unsigned(8),
            emitter: fields.unsigned(8),
            size: fields.unsigned(8),
            lateral: fields.unsigned(8),
            longitudinal: fields.unsigned(8),
        }
    }

    fn put(&self, row: &mut Row) {
        row.address(self.address);
        row.octets(&[self.integrity]);
        row.octets(&self.stall_speed.to_le_bytes());
        row.octets(&self.callsign);
        row.octets(&[self.capability, self.emitter, self.size]);
        row.octets(&[self.lateral, self.longitudinal]);
    }

    fn in_range(&self) -> bool {
        fits(self.address, 24)
            && ranges::callsign(&self.callsign)
            && self.capability == 0
            && ranges::emitter(self.emitter)
            && ranges::size(self.size)
            && self.lateral <= 7
            && self.longitudinal <= 31
    }
}

impl Dynamic {
    fn take(fields: &mut Fields) -> Self {
        Self {
            utc_time: u32::from_le_bytes(fields.octets()),
            latitude: i32::from_le_bytes(fields.octets()),
            longitude: i32::from_le_bytes(fields.octets()),
            pressure_altitude: i32::from_le_bytes(fields.octets()),
            gnss_altitude: i32::from_le_bytes(fields.octets()),
            horizontal_accuracy: u32::from_le_bytes(fields.octets()),
            vertical_accuracy: u16::from_le_bytes(fields.octets()),
            velocity_accuracy: u16::from_le_bytes(fields.octets()),
            vertical_velocity: i16::from_le_bytes(fields.octets()),
            north_velocity: i16::from_le_bytes(fields.octets()),
            east_velocity: i16::from_le_bytes(fields.octets()),
            state: u16::from_le_bytes(fields.octets()),
            squawk: u16::from_le_bytes(fields.octets()),
            fix: fields.unsigned(8),
            satellites: fields.unsigned(8),
            emergency: fields.unsigned(8),
            control: fields.unsigned(8),
        }
    }

    fn put(&self, row: &mut Row) {
        row.octets(&self.utc_time.to_le_bytes());
        row.octets(&self.latitude.to_le_bytes());
        row.octets(&self.longitude.to_le_bytes());
        row.octets(&self.pressure_altitude.to_le_bytes());
        row.octets(&self.gnss_altitude.to_le_bytes());
        row.octets(&self.horizontal_accuracy.to_le_bytes());
        row.octets(&self.vertical_accuracy.to_le_bytes());
        row.octets(&self.velocity_accuracy.to_le_bytes());
        row.octets(&self.vertical_velocity.to_le_bytes());
        row.octets(&self.north_velocity.to_le_bytes());
        row.octets(&self.east_velocity.to_le_bytes());
        row.octets(&self.state.to_le_bytes());
        row.octets(&self.squawk.to_le_bytes());
        row.octets(&[self.fix, self.satellites, self.emergency, self.control]);
    }
}

impl Status {
    fn take(fields: &mut Fields) -> Self {
        Self {
            status: fields.unsigned(8),
        }
    }

    /// How many failure bits, 1 to 4, are set (document 01, MAVLink kinds).
    pub fn failures(&self) -> u32 {
        (1..=4).map(|bit| u32::from(self.status >> bit & 1)).sum()
    }

    /// The lowest failure bit that is set, 1 to 4, or none (document 01,
    /// MAVLink kinds).
    pub fn lowest_failure(&self) -> Option<u32> {
        (1..=4).find(|bit| self.status >> bit & 1 == 1)
    }
}

impl Traffic {
    fn take(fields: &mut Fields) -> Self {
        Self {
            address: u32::from_le_bytes(fields.octets()),
            latitude: i32::from_le_bytes(fields.octets()),
            longitude: i32::from_le_bytes(fields.octets()),
            altitude: i32::from_le_bytes(fields.octets()),
            heading: u16::from_le_bytes(fields.octets()),
            horizontal_velocity: u16::from_le_bytes(fields.octets()),
            vertical_velocity: i16::from_le_bytes(fields.octets()),
            valid: u16::from_le_bytes(fields.octets()),
            squawk: u16::from_le_bytes(fields.octets()),
            altitude_type: fields.unsigned(8),
            callsign: fields.octets(),
            emitter: fields.unsigned(8),
            since_last: fields.unsigned(8),
        }
    }

    fn put(&self, row: &mut Row) {
        row.octets(&self.address.to_le_bytes());
        row.octets(&self.latitude.to_le_bytes());
        row.octets(&self.longitude.to_le_bytes());
        row.octets(&self.altitude.to_le_bytes());
        row.octets(&self.heading.to_le_bytes());
        row.octets(&self.horizontal_velocity.to_le_bytes());
        row.octets(&self.vertical_velocity.to_le_bytes());
        row.octets(&self.valid.to_le_bytes());
        row.octets(&self.squawk.to_le_bytes());
        row.octets(&[self.altitude_type]);
        row.octets(&self.callsign);
        row.octets(&[self.emitter, self.since_last]);
    }
}
