//! MAVLink version 1: its frame, and five kinds of message.
//!
//! Every field is a number in its raw unit. "Range" is tested in reading and in
//! writing. Every other value is carried, marks for what is unknown too. Fields
//! have the names of source document 001 in Rust's spelling (`altPres` is
//! `alt_pres`), those of [`DataStream`] the names of MAVLink's common set.
//!
//! | Message | ID | Octets of its frame |
//! |---|---|---|
//! | [`DataStream`] | 66 | 14 |
//! | [`Static`] | 201 | 27 |
//! | [`Dynamic`] | 202 | 50 |
//! | [`Status`] | 203 | 9 |
//! | [`Traffic`] | 246 | 46 |
//!
//! Two ways to read and write. Each kind has calls on its own struct, as
//! [`Static::read_from`]: the message lies in the caller's struct, and no
//! identity or address of it is left anywhere else. [`read_frame`] and [`write_frame`] choose by the
//! ID and give and take a [`Message`] by value, which the compiler may copy:
//! where identities are private, use the first.

use crate::boundary::*;
use crate::hidden::debug_without;
use crate::{MavlinkReadRefusal, MavlinkWriteRefusal};

/// Octets of the longest frame of the five kinds: the Dynamic one.
pub const LONGEST_FRAME: usize = 50;

/// Which kind of message a frame carries.
#[derive(Clone, Copy, Debug, PartialEq, Eq, Hash)]
#[non_exhaustive]
#[repr(u8)]
pub enum Id {
    /// [`DataStream`].
    DataStream = 66,
    /// [`Static`].
    Static = 201,
    /// [`Dynamic`].
    Dynamic = 202,
    /// [`Status`].
    Status = 203,
    /// [`Traffic`].
    Traffic = 246,
}

impl Id {
    /// The message ID in the kind's frames.
    ///
    /// ```
    /// assert_eq!(ostrogosz::mavlink::Id::Dynamic.number(), 202);
    /// ```
    #[must_use]
    pub const fn number(self) -> u8 {
        self as u8
    }

    /// The kind of a number that the proved code gave.
    #[inline]
    fn of_number(number: u32) -> Self {
        match number {
            66 => Self::DataStream,
            201 => Self::Static,
            202 => Self::Dynamic,
            203 => Self::Status,
            246 => Self::Traffic,
            _ => unreachable!("the contracts give no message {number}"),
        }
    }
}

/// What the frame at the start of an input is.
#[derive(Clone, Copy, Debug, PartialEq, Eq)]
pub struct Found {
    /// Which kind of message it carries.
    pub id: Id,
    /// Its octets; those behind it are left.
    pub used: usize,
}

/// A frame that was read.
#[derive(Clone, Copy, Debug, PartialEq, Eq)]
pub struct Frame {
    /// What it says of itself.
    pub header: Header,
    /// What its payload says.
    pub message: Message,
    /// Its octets; those behind it are left.
    pub used: usize,
}

/// The failure bits of a status.
#[derive(Clone, Copy, Debug, PartialEq, Eq)]
pub struct Failures {
    /// How many of bits 1 to 4 are set.
    pub count: u32,
    /// The lowest of them that is set.
    pub lowest: Option<u32>,
}

/// What a frame says of itself besides its message: any values.
#[derive(Clone, Copy, Debug, Default, PartialEq, Eq)]
#[repr(C)]
pub struct Header {
    /// Packet sequence.
    pub sequence: u8,
    /// ID of the sending system.
    pub system: u8,
    /// ID of the sending component.
    pub component: u8,
}

/// A message in a frame.
#[derive(Clone, Copy, Debug, PartialEq, Eq)]
#[non_exhaustive]
pub enum Message {
    /// ID 66.
    DataStream(DataStream),
    /// ID 201.
    Static(Static),
    /// ID 202.
    Dynamic(Dynamic),
    /// ID 203.
    Status(Status),
    /// ID 246.
    Traffic(Traffic),
}

/// Message 66, Request data stream: all bits are carried.
#[derive(Clone, Copy, Debug, Default, PartialEq, Eq)]
#[repr(C)]
pub struct DataStream {
    /// Messages a second.
    pub req_message_rate: u16,
    /// Target system.
    pub target_system: u8,
    /// Target component.
    pub target_component: u8,
    /// The stream that is requested.
    pub req_stream_id: u8,
    /// 1 to start, 0 to stop.
    pub start_stop: u8,
}

/// Message 201. The debug form leaves address and callsign out.
#[derive(Clone, Copy, Default, PartialEq, Eq)]
#[repr(C)]
pub struct Static {
    /// Address: 24 bits; a wider one is refused in writing.
    pub icao: u32,
    /// Stall speed in cm/s.
    pub stall_speed: u16,
    /// Callsign: range A-Z, 0-9 and space, with no zero at the end.
    pub callsign: [u8; 8],
    /// Capability: range 0, so that a unit that announces one is refused.
    pub capability: u8,
    /// [Emitter category](crate::emitter): range 0 to 21.
    pub emitter: u8,
    /// A code of length and width: range 0 to 15.
    pub alw_encode: u8,
    /// Lateral offset of the antenna: range 0 to 7.
    pub gps_lat_offs: u8,
    /// Longitudinal offset of the antenna: range 0 to 31.
    pub gps_lon_offs: u8,
    /// System integrity and design assurance.
    pub integrity: u8,
}

/// Message 202.
///
/// ```
/// use ostrogosz::MavlinkWriteRefusal;
/// use ostrogosz::mavlink::{Dynamic, Header};
///
/// let mut dynamic = Dynamic { squawk: 1277, ..Dynamic::default() };
/// let mut frame = [0; 50];
/// assert_eq!(dynamic.write_to(&Header::default(), &mut frame), Ok(50));
/// // A Mode A code has no digit 8 or 9.
/// dynamic.squawk = 1280;
/// let refused = dynamic.write_to(&Header::default(), &mut frame);
/// assert_eq!(refused, Err(MavlinkWriteRefusal::MavlinkField));
/// assert_eq!(MavlinkWriteRefusal::MavlinkField.number(), 25);
/// ```
#[derive(Clone, Copy, Debug, Default, PartialEq, Eq)]
#[repr(C)]
pub struct Dynamic {
    /// Seconds since 1980-01-06. Unknown: [`u32::MAX`].
    pub utc_time: u32,
    /// Latitude in 1E-7 degree, north positive. Unknown: [`i32::MAX`].
    pub latitude: i32,
    /// Longitude in 1E-7 degree, east positive. Unknown: [`i32::MAX`].
    pub longitude: i32,
    /// Pressure altitude in millimetres. Unknown: [`i32::MAX`].
    pub alt_pres: i32,
    /// GNSS altitude in millimetres. Unknown: [`i32::MAX`].
    pub alt_gnss: i32,
    /// Horizontal accuracy in millimetres. Unknown: [`u32::MAX`].
    pub acc_horiz: u32,
    /// Vertical accuracy in centimetres. Unknown: [`u16::MAX`].
    pub acc_vert: u16,
    /// Velocity accuracy in mm/s. Unknown: [`u16::MAX`].
    pub acc_vel: u16,
    /// Vertical speed in cm/s. Unknown: [`i16::MAX`].
    pub vel_vert: i16,
    /// Velocity in cm/s, north positive. Unknown: [`i16::MAX`].
    pub ns_vog: i16,
    /// Velocity in cm/s, east positive. Unknown: [`i16::MAX`].
    pub ew_vog: i16,
    /// State flags.
    pub state: u16,
    /// Squawk, four octal digits sent as a decimal number: range 0 to 7777,
    /// every digit 0 to 7. 1200 is one, 1280 is refused.
    pub squawk: u16,
    /// Kind of position fix: range 0 to 5.
    pub fix_type: u8,
    /// Satellites visible. Unknown: [`u8::MAX`].
    pub num_sats: u8,
    /// Emergency status.
    pub em_status: u8,
    /// Control flags.
    pub control: u8,
}

/// Message 203: all bits are carried.
#[derive(Clone, Copy, Debug, Default, PartialEq, Eq)]
#[repr(C)]
pub struct Status {
    /// Self test: 0x01 OK; failures 0x02 of sending 1090ES, 0x04 of receiving
    /// it, 0x08 of sending UAT, 0x10 of receiving it.
    pub status: u8,
}

/// Message 246. The debug form leaves address and callsign out.
#[derive(Clone, Copy, Default, PartialEq, Eq)]
#[repr(C)]
pub struct Traffic {
    /// Address: all 32 bits are carried.
    pub icao_address: u32,
    /// Latitude in 1E-7 degree, north positive.
    pub lat: i32,
    /// Longitude in 1E-7 degree, east positive.
    pub lon: i32,
    /// Altitude in millimetres, up positive; its type says above what.
    pub altitude: i32,
    /// Course over ground in 1E-2 degree.
    pub heading: u16,
    /// Horizontal speed in cm/s.
    pub hor_velocity: u16,
    /// Vertical speed in cm/s.
    pub ver_velocity: i16,
    /// Which fields are valid.
    pub valid_flags: u16,
    /// Squawk, four octal digits sent as a decimal number: range 0 to 7777,
    /// every digit 0 to 7, or 65535 for none. 1200 is one, 1280 is refused.
    pub squawk: u16,
    /// 0 for pressure altitude, 1 for geometric.
    pub altitude_type: u8,
    /// Callsign, its first eight octets: any.
    pub callsign: [u8; 8],
    /// The callsign's ninth octet: any.
    pub callsign_ninth: u8,
    /// [Emitter category](crate::emitter): any octet.
    pub emitter_type: u8,
    /// Seconds since the last communication.
    pub tslc: u8,
}

debug_without! {
    Static {
        stall_speed, capability, emitter, alw_encode, gps_lat_offs, gps_lon_offs, integrity,
    } hidden { icao, callsign, }
}

debug_without! {
    Traffic {
        lat, lon, altitude, heading, hor_velocity, ver_velocity, valid_flags, squawk,
        altitude_type, emitter_type, tslc,
    } hidden { icao_address, callsign, callsign_ninth, }
}

impl Message {
    /// Which kind it is.
    ///
    /// ```
    /// use ostrogosz::mavlink::{Id, Message, Status};
    ///
    /// assert_eq!(Message::from(Status { status: 1 }).id(), Id::Status);
    /// ```
    #[must_use]
    pub const fn id(&self) -> Id {
        match self {
            Self::DataStream(_) => Id::DataStream,
            Self::Static(_) => Id::Static,
            Self::Dynamic(_) => Id::Dynamic,
            Self::Status(_) => Id::Status,
            Self::Traffic(_) => Id::Traffic,
        }
    }
}

impl Status {
    /// The failure bits that are set.
    ///
    /// ```
    /// use ostrogosz::mavlink::Status;
    ///
    /// let failures = Status { status: 0b1_1000 }.failures();
    /// assert_eq!((failures.count, failures.lowest), (2, Some(3)));
    /// ```
    #[inline]
    #[must_use]
    pub fn failures(&self) -> Failures {
        // SAFETY: the call takes and gives numbers alone.
        let bits = unsafe { ostrogosz_mavlink_count_failures(self.status) };
        Failures {
            count: bits.count,
            lowest: (bits.lowest != 0).then_some(bits.lowest),
        }
    }
}

/// The calls on one kind's struct. The sample is a message that both accept.
macro_rules! kind {
    ($type:ident, $id:literal, $octets:literal, $sample:literal; $read:ident, $write:ident) => {
        impl $type {
            #[doc = concat!("Reads the frame of a message ", stringify!($id), " at the start of")]
            /// `input` into this struct and `header`; the octets behind the
            /// frame are left.
            ///
            /// # Errors
            ///
            /// Tested in the order of [`read_frame`], where 22 is another
            /// kind's ID too. A refusal leaves both structs as they were.
            ///
            /// ```
            #[doc = concat!("use ostrogosz::mavlink::{Header, ", stringify!($type), "};")]
            #[doc = concat!("let sent = ", $sample, ";")]
            #[doc = concat!("let mut frame = [0; ", stringify!($octets), "];")]
            /// sent.write_to(&Header::default(), &mut frame)?;
            #[doc = concat!("let mut message = ", stringify!($type), "::default();")]
            /// message.read_from(&mut Header::default(), &frame)?;
            /// assert_eq!(message, sent);
            /// # Ok::<(), Box<dyn std::error::Error>>(())
            /// ```
            #[inline]
            pub fn read_from(
                &mut self,
                header: &mut Header,
                input: &[u8],
            ) -> Result<(), MavlinkReadRefusal> {
                // SAFETY: pointer and length are those of one slice, which is
                // only read; both structs are all there and mutable.
                match unsafe { $read(input.as_ptr(), input.len(), header, self) } {
                    0 => Ok(()),
                    number => Err(MavlinkReadRefusal::of_number(number)),
                }
            }

            #[doc = concat!("Writes the frame of a message ", stringify!($id), " at the start of")]
            #[doc = concat!("`output` and gives its length, ", stringify!($octets), ". The octets behind")]
            /// it keep what they held.
            ///
            /// # Errors
            ///
            /// [`MavlinkWriteRefusal::MavlinkField`], then
            /// [`MavlinkWriteRefusal::OutputLength`]; a refusal writes nothing.
            ///
            /// ```
            #[doc = concat!("use ostrogosz::mavlink::{Header, ", stringify!($type), "};")]
            #[doc = concat!("let message = ", $sample, ";")]
            #[doc = concat!("let mut frame = [0; ", stringify!($octets), "];")]
            #[doc = concat!("assert_eq!(message.write_to(&Header::default(), &mut frame)?, ", stringify!($octets), ");")]
            /// # Ok::<(), Box<dyn std::error::Error>>(())
            /// ```
            #[inline]
            pub fn write_to(
                &self,
                header: &Header,
                output: &mut [u8],
            ) -> Result<usize, MavlinkWriteRefusal> {
                // SAFETY: both structs are all there; pointer and length are
                // those of one slice, which is mutable, so nothing overlaps.
                let written = unsafe { $write(self, header, output.as_mut_ptr(), output.len()) };
                written.answer(MavlinkWriteRefusal::of_number)
            }
        }

        impl From<$type> for Message {
            fn from(of: $type) -> Self {
                Self::$type(of)
            }
        }
    };
}

kind! {
    DataStream, 66, 14, "DataStream { req_message_rate: 2, ..DataStream::default() }";
    ostrogosz_mavlink_read_data_stream, ostrogosz_mavlink_write_data_stream
}
kind! {
    Static, 201, 27, "Static { callsign: *b\"PING2020\", ..Static::default() }";
    ostrogosz_mavlink_read_static, ostrogosz_mavlink_write_static
}
kind! {
    Dynamic, 202, 50, "Dynamic { squawk: 1200, ..Dynamic::default() }";
    ostrogosz_mavlink_read_dynamic, ostrogosz_mavlink_write_dynamic
}
kind! {
    Status, 203, 9, "Status { status: 1 }";
    ostrogosz_mavlink_read_status, ostrogosz_mavlink_write_status
}
kind! {
    Traffic, 246, 46, "Traffic { squawk: 7000, ..Traffic::default() }";
    ostrogosz_mavlink_read_traffic, ostrogosz_mavlink_write_traffic
}

/// Which message the frame at the start of `input` carries, and where it ends.
/// Its check and fields are not looked at.
///
/// # Errors
///
/// As for [`read_frame`], without 24 and 25.
///
/// ```
/// use ostrogosz::mavlink::{find_frame, Id};
///
/// let found = find_frame(&[0xFE, 1, 0, 0, 0, 203, 1, 0x0A, 0x0B, 0xFE])?;
/// assert_eq!((found.id, found.used), (Id::Status, 9));
/// # Ok::<(), ostrogosz::MavlinkReadRefusal>(())
/// ```
#[inline]
pub fn find_frame(input: &[u8]) -> Result<Found, MavlinkReadRefusal> {
    // SAFETY: pointer and length are those of one slice, which is only read.
    let found = unsafe { ostrogosz_mavlink_read_id(input.as_ptr(), input.len()) };
    match found.refusal {
        0 => Ok(Found {
            id: Id::of_number(found.id),
            used: found.used,
        }),
        number => Err(MavlinkReadRefusal::of_number(number)),
    }
}

/// Reads the frame at the start of `input`; the octets behind it are left.
///
/// # Errors
///
/// Tested in this order: [`MavlinkReadRefusal::MavlinkTooShort`] (20) for no
/// octet, [`MavlinkReadRefusal::MavlinkStart`] (21) for a first octet other than
/// FE, 20 for fewer than 6 octets, [`MavlinkReadRefusal::MavlinkUnknownId`]
/// (22), [`MavlinkReadRefusal::MavlinkLength`] (23) for a length octet that is
/// not the kind's, 20 for fewer octets than the frame has,
/// [`MavlinkReadRefusal::MavlinkCheck`] (24),
/// [`MavlinkReadRefusal::MavlinkField`] (25) for a field outside its range.
///
/// ```
/// use ostrogosz::mavlink::{read_frame, write_frame, Header, Message, Status};
///
/// let message = Message::Status(Status { status: 1 });
/// let mut output = [0; 9];
/// write_frame(&message, Header::default(), &mut output)?;
/// assert_eq!(read_frame(&output)?.message, message);
/// # Ok::<(), Box<dyn std::error::Error>>(())
/// ```
#[inline]
pub fn read_frame(input: &[u8]) -> Result<Frame, MavlinkReadRefusal> {
    let found = find_frame(input)?;
    let mut header = Header::default();
    /// A struct that a reader fills.
    macro_rules! read {
        ($kind:ident) => {{
            let mut of = $kind::default();
            of.read_from(&mut header, input)?;
            Message::$kind(of)
        }};
    }
    let message = match found.id {
        Id::DataStream => read!(DataStream),
        Id::Static => read!(Static),
        Id::Dynamic => read!(Dynamic),
        Id::Status => read!(Status),
        Id::Traffic => read!(Traffic),
    };
    Ok(Frame {
        header,
        message,
        used: found.used,
    })
}

/// Writes the frame of a message at the start of `output` and gives its length.
///
/// [`LONGEST_FRAME`] octets of room always suffice; for one kind, those of its
/// frame. The octets behind the frame keep what they held.
///
/// # Errors
///
/// Tested in this order: [`MavlinkWriteRefusal::MavlinkField`] for a field
/// outside its range or too wide for its bits,
/// [`MavlinkWriteRefusal::OutputLength`] for an output shorter than the frame. A
/// refusal writes nothing.
///
/// ```
/// use ostrogosz::mavlink::{write_frame, Header, Message, Status};
///
/// let mut output = [0; 9];
/// let message = Message::Status(Status { status: 1 });
/// assert_eq!(write_frame(&message, Header::default(), &mut output), Ok(9));
/// assert_eq!(output[..7], [0xFE, 1, 0, 0, 0, 203, 1]);
/// ```
#[inline]
pub fn write_frame(
    message: &Message,
    header: Header,
    output: &mut [u8],
) -> Result<usize, MavlinkWriteRefusal> {
    match message {
        Message::DataStream(of) => of.write_to(&header, output),
        Message::Static(of) => of.write_to(&header, output),
        Message::Dynamic(of) => of.write_to(&header, output),
        Message::Status(of) => of.write_to(&header, output),
        Message::Traffic(of) => of.write_to(&header, output),
    }
}
