//! The messages of the UCP line.
//!
//! Every field is a raw number, in a type that may be wider than the field.
//! "Bits" is what the body has for such a field; a wider value is refused in
//! writing. "Range" is tested in reading and in writing. Every other value is
//! carried, marks for what is unknown too.
//!
//! | Message | ID | Octets of its body | Paper |
//! |---|---|---|---|
//! | [`Heartbeat`] | 0 | 7 | GDL90 public ICD |
//! | [`Uplink`](Message::Uplink) | 7 | 436 | GDL90 public ICD |
//! | [`Ownship`](Message::Ownship), a [`Report`] | 10 | 28 | GDL90 public ICD |
//! | [`GeometricAltitude`] | 11 | 5 | GDL90 public ICD |
//! | [`Traffic`](Message::Traffic), a [`Report`] | 20 | 28 | GDL90 public ICD |
//! | [`Request`] | 44 | 3 | source document 003 |
//! | [`Control`] | 45 | 18 | source document 003 |
//! | [`Initialization`] | 117 | 19 | source document 000 |
//!
//! Two ways to read and write. Each kind has calls on its own struct, as
//! [`Control::read_from`]: the message lies in the caller's struct, and no
//! identity or address of it is left anywhere else. [`read_message`], [`write_message`] and
//! [`send_message`] choose by the ID and give and take a [`Message`] by value,
//! which the compiler may copy: where identities are private, use the first.

mod calls;
mod control;
mod geometric_altitude;
mod heartbeat;
mod initialization;
mod report;
mod request;

use core::fmt::{self, Debug, Formatter};

pub use control::Control;
pub use geometric_altitude::GeometricAltitude;
pub use heartbeat::Heartbeat;
pub use initialization::Initialization;
pub use report::Report;
pub use request::Request;

use crate::boundary::*;
use crate::{LONGEST_FRAME, ReadRefusal, SendRefusal, WriteRefusal};

/// Octets of an uplink's payload: all of its body but the ID.
pub const UPLINK_PAYLOAD: usize = 435;

/// Which kind of message a body is, by its first octet.
#[derive(Clone, Copy, Debug, PartialEq, Eq, Hash)]
#[non_exhaustive]
#[repr(u8)]
pub enum Id {
    /// [`Heartbeat`].
    Heartbeat = 0,
    /// [`Message::Uplink`].
    Uplink = 7,
    /// [`Message::Ownship`].
    Ownship = 10,
    /// [`GeometricAltitude`].
    GeometricAltitude = 11,
    /// [`Message::Traffic`].
    Traffic = 20,
    /// [`Request`].
    Request = 44,
    /// [`Control`].
    Control = 45,
    /// [`Initialization`].
    Initialization = 117,
}

impl Id {
    /// The first octet of the kind's bodies.
    ///
    /// ```
    /// assert_eq!(ostrogosz::messages::Id::Control.number(), 45);
    /// ```
    #[must_use]
    pub const fn number(self) -> u8 {
        self as u8
    }

    /// The kind of a number that the proved code gave.
    #[inline]
    fn of_number(number: u32) -> Self {
        match number {
            0 => Self::Heartbeat,
            7 => Self::Uplink,
            10 => Self::Ownship,
            11 => Self::GeometricAltitude,
            20 => Self::Traffic,
            44 => Self::Request,
            45 => Self::Control,
            117 => Self::Initialization,
            _ => unreachable!("the contracts give no message {number}"),
        }
    }
}

/// A message of the UCP line.
#[derive(Clone, Copy, PartialEq, Eq)]
#[non_exhaustive]
pub enum Message<'a> {
    /// ID 0.
    Heartbeat(Heartbeat),
    /// ID 7: the payload, which stays where the body lies. A payload of other
    /// than [`UPLINK_PAYLOAD`] octets is refused in writing, as a field outside
    /// its range is.
    Uplink(&'a [u8]),
    /// ID 10.
    Ownship(Report),
    /// ID 11.
    GeometricAltitude(GeometricAltitude),
    /// ID 20.
    Traffic(Report),
    /// ID 44.
    Request(Request),
    /// ID 45.
    Control(Control),
    /// ID 117.
    Initialization(Initialization),
}

impl Message<'_> {
    /// Which kind it is.
    ///
    /// ```
    /// use ostrogosz::messages::{Id, Message, Request};
    ///
    /// let message = Message::from(Request { requested_id: 43 });
    /// assert_eq!(message.id(), Id::Request);
    /// ```
    #[must_use]
    pub const fn id(&self) -> Id {
        match self {
            Self::Heartbeat(_) => Id::Heartbeat,
            Self::Uplink(_) => Id::Uplink,
            Self::Ownship(_) => Id::Ownship,
            Self::GeometricAltitude(_) => Id::GeometricAltitude,
            Self::Traffic(_) => Id::Traffic,
            Self::Request(_) => Id::Request,
            Self::Control(_) => Id::Control,
            Self::Initialization(_) => Id::Initialization,
        }
    }
}

/// Leaves out what the structs do, and of a payload all but its length.
impl Debug for Message<'_> {
    fn fmt(&self, to: &mut Formatter<'_>) -> fmt::Result {
        match self {
            Self::Heartbeat(of) => to.debug_tuple("Heartbeat").field(of).finish(),
            Self::Uplink(payload) => write!(to, "Uplink({} octets)", payload.len()),
            Self::Ownship(of) => to.debug_tuple("Ownship").field(of).finish(),
            Self::GeometricAltitude(of) => of.fmt(to),
            Self::Traffic(of) => to.debug_tuple("Traffic").field(of).finish(),
            Self::Request(of) => of.fmt(to),
            Self::Control(of) => of.fmt(to),
            Self::Initialization(of) => of.fmt(to),
        }
    }
}

/// A struct of one kind is a message of that kind.
macro_rules! into_message {
    ($($type:ident)+) => {
        $(impl From<$type> for Message<'_> {
            fn from(of: $type) -> Self {
                Self::$type(of)
            }
        })+
    };
}

into_message! { Heartbeat GeometricAltitude Request Control Initialization }

/// Which kind of message a body is. Its length and fields are not looked at.
///
/// # Errors
///
/// [`ReadRefusal::UnknownId`] for an unknown ID or no octet.
///
/// ```
/// use ostrogosz::messages::{body_id, Id};
/// use ostrogosz::ReadRefusal;
///
/// assert_eq!(body_id(&[44, 2, 43]), Ok(Id::Request));
/// assert_eq!(body_id(&[1]), Err(ReadRefusal::UnknownId));
/// ```
#[inline]
pub fn body_id(body: &[u8]) -> Result<Id, ReadRefusal> {
    // SAFETY: pointer and length are those of one slice, which is only read.
    let found = unsafe { ostrogosz_ucp_read_id(body.as_ptr(), body.len()) };
    match found.refusal {
        0 => Ok(Id::of_number(found.id)),
        number => Err(ReadRefusal::of_number(number)),
    }
}

/// Copies the payload out of the body of an uplink. It also stands in the body,
/// from its second octet on.
///
/// # Errors
///
/// [`ReadRefusal::UnknownId`] for no octet or another kind's ID,
/// [`ReadRefusal::MessageLength`] for other than 436 octets. A refusal leaves
/// `payload` as it was.
///
/// ```
/// use ostrogosz::messages::{read_uplink, UPLINK_PAYLOAD};
///
/// let mut body = [1; 1 + UPLINK_PAYLOAD];
/// body[0] = 7;
/// let mut payload = [0; UPLINK_PAYLOAD];
/// read_uplink(&body, &mut payload)?;
/// assert_eq!(payload, body[1..]);
/// # Ok::<(), ostrogosz::ReadRefusal>(())
/// ```
#[inline]
pub fn read_uplink(body: &[u8], payload: &mut [u8; UPLINK_PAYLOAD]) -> Result<(), ReadRefusal> {
    // SAFETY: pointer and length are those of one slice, which is only read,
    // and the payload is all there and mutable.
    match unsafe { ostrogosz_ucp_read_uplink(body.as_ptr(), body.len(), payload) } {
        0 => Ok(()),
        number => Err(ReadRefusal::of_number(number)),
    }
}

/// What a body means, as the receiver delivers one.
///
/// # Errors
///
/// Tested in this order: [`ReadRefusal::UnknownId`] for an unknown ID or no
/// octet, [`ReadRefusal::MessageLength`] for another length than the kind's,
/// [`ReadRefusal::Fixed`] for a wrong version, signature or subtype,
/// [`ReadRefusal::Field`] for a field outside its range.
///
/// ```
/// use ostrogosz::messages::{read_message, Message, Request};
///
/// let message = read_message(&[44, 2, 43])?;
/// assert_eq!(message, Message::Request(Request { requested_id: 43 }));
/// # Ok::<(), ostrogosz::ReadRefusal>(())
/// ```
#[inline]
pub fn read_message(body: &[u8]) -> Result<Message<'_>, ReadRefusal> {
    /// A struct that a reader fills.
    macro_rules! read {
        ($type:ident, $read_from:ident, $kind:ident) => {{
            let mut of = $type::default();
            of.$read_from(body)?;
            Message::$kind(of)
        }};
    }
    Ok(match body_id(body)? {
        Id::Heartbeat => read!(Heartbeat, read_from, Heartbeat),
        Id::Uplink if body.len() == 1 + UPLINK_PAYLOAD => Message::Uplink(&body[1..]),
        Id::Uplink => return Err(ReadRefusal::MessageLength),
        Id::Ownship => read!(Report, read_ownship_from, Ownship),
        Id::GeometricAltitude => read!(GeometricAltitude, read_from, GeometricAltitude),
        Id::Traffic => read!(Report, read_traffic_from, Traffic),
        Id::Request => read!(Request, read_from, Request),
        Id::Control => read!(Control, read_from, Control),
        Id::Initialization => read!(Initialization, read_from, Initialization),
    })
}

/// Writes the body of a message at the start of `output` and gives its length.
///
/// [`LONGEST_BODY`](crate::LONGEST_BODY) octets of room always suffice; for one
/// kind, those of its body. The octets behind the body keep what they held.
///
/// # Errors
///
/// Tested in this order: [`WriteRefusal::Field`] for a field outside its range
/// or too wide for its bits, [`WriteRefusal::OutputLength`] for an output
/// shorter than the body. A refusal writes nothing.
///
/// ```
/// use ostrogosz::messages::{write_message, Message, Request};
///
/// let mut body = [0; 3];
/// write_message(&Message::Request(Request { requested_id: 43 }), &mut body)?;
/// assert_eq!(body, [44, 2, 43]);
/// # Ok::<(), ostrogosz::WriteRefusal>(())
/// ```
#[inline]
pub fn write_message(message: &Message<'_>, output: &mut [u8]) -> Result<usize, WriteRefusal> {
    match message {
        Message::Heartbeat(of) => of.write_to(output),
        Message::Uplink(payload) => write_uplink(payload, output),
        Message::Ownship(of) => of.write_ownship_to(output),
        Message::GeometricAltitude(of) => of.write_to(output),
        Message::Traffic(of) => of.write_traffic_to(output),
        Message::Request(of) => of.write_to(output),
        Message::Control(of) => of.write_to(output),
        Message::Initialization(of) => of.write_to(output),
    }
}

#[inline]
fn write_uplink(payload: &[u8], output: &mut [u8]) -> Result<usize, WriteRefusal> {
    // SAFETY: each pointer goes with the length of its slice, and a shared and
    // a mutable slice have no octet in common.
    let written = unsafe {
        ostrogosz_ucp_write_uplink(
            payload.as_ptr(),
            payload.len(),
            output.as_mut_ptr(),
            output.len(),
        )
    };
    written.answer(WriteRefusal::of_number)
}

/// Writes the frame of a message at the start of `buffer` and gives its length:
/// body and frame in one call.
///
/// The buffer has room for every frame. The octets behind the frame keep what
/// they held.
///
/// # Errors
///
/// [`SendRefusal::Field`] for a field outside its range or too wide for its
/// bits. A refusal writes nothing.
///
/// ```
/// use ostrogosz::messages::{send_message, Message, Request};
///
/// let mut buffer = [0; ostrogosz::LONGEST_FRAME];
/// let length = send_message(&Message::Request(Request { requested_id: 43 }), &mut buffer)?;
/// assert_eq!(buffer[..length], [0x7E, 0x2C, 0x02, 0x2B, 0xC5, 0xE7, 0x7E]);
/// # Ok::<(), ostrogosz::SendRefusal>(())
/// ```
#[inline]
pub fn send_message(
    message: &Message<'_>,
    buffer: &mut [u8; LONGEST_FRAME],
) -> Result<usize, SendRefusal> {
    match message {
        Message::Heartbeat(of) => of.send_to(buffer),
        Message::Uplink(payload) => send_uplink(payload, buffer),
        Message::Ownship(of) => of.send_ownship_to(buffer),
        Message::GeometricAltitude(of) => of.send_to(buffer),
        Message::Traffic(of) => of.send_traffic_to(buffer),
        Message::Request(of) => of.send_to(buffer),
        Message::Control(of) => of.send_to(buffer),
        Message::Initialization(of) => of.send_to(buffer),
    }
}

#[inline]
fn send_uplink(payload: &[u8], buffer: &mut [u8; LONGEST_FRAME]) -> Result<usize, SendRefusal> {
    // SAFETY: the payload goes with its length, the buffer has all its octets,
    // and a shared and a mutable borrow have no octet in common.
    let sent = unsafe { ostrogosz_ucp_send_uplink(payload.as_ptr(), payload.len(), buffer) };
    sent.answer(SendRefusal::of_number)
}
