//! The refusals of document 01's table: all of them, and those of each family
//! of calls.

use core::error::Error;
use core::fmt::{self, Display, Formatter};

/// A refusal of any call, by its number in document 01's table.
///
/// Each family of calls has its own type with just the refusals that it gives;
/// all of them turn into this one.
///
/// ```
/// use ostrogosz::{write_frame, FrameRefusal, Refusal};
///
/// let refused = write_frame(&[], &mut []).unwrap_err();
/// assert_eq!(refused, FrameRefusal::BodyLength);
/// assert_eq!(Refusal::from(refused).number(), 7);
/// ```
#[derive(Clone, Copy, Debug, PartialEq, Eq, Hash)]
#[non_exhaustive]
#[repr(u8)]
pub enum Refusal {
    /// Receiver: 7D followed by an octet other than 5D, 5E, 7E.
    BadEscape = 1,
    /// Receiver: 7D directly before the closing flag.
    EscapeBeforeFlag = 2,
    /// Receiver: more than 438 unstuffed octets.
    TooLong = 3,
    /// Receiver: fewer than 3 unstuffed octets.
    TooShort = 4,
    /// Receiver: the check is wrong.
    WrongCheck = 5,
    /// Receiver: the output is shorter than the body; the frame is lost.
    Room = 6,
    /// Frame writer: a body of 0 or more than 436 octets.
    BodyLength = 7,
    /// Writers: the output is shorter than this very frame or body.
    OutputLength = 8,
    /// Message readers: unknown ID, another kind's, or no octet.
    UnknownId = 10,
    /// Message readers: another length than the kind's.
    MessageLength = 11,
    /// Message readers: wrong version, signature or subtype.
    Fixed = 12,
    /// Message readers: a field outside its range. Message writers: that, or a
    /// field too wide for its bits.
    Field = 13,
    /// MAVLink readers: too few octets.
    MavlinkTooShort = 20,
    /// MAVLink readers: the first octet is not FE.
    MavlinkStart = 21,
    /// MAVLink readers: unknown message ID, or another kind's.
    MavlinkUnknownId = 22,
    /// MAVLink readers: the length octet is not the kind's.
    MavlinkLength = 23,
    /// MAVLink readers: the check is wrong.
    MavlinkCheck = 24,
    /// MAVLink readers: a field outside its range. MAVLink writers: that, or a
    /// field too wide for its bits.
    MavlinkField = 25,
}

impl Refusal {
    /// The number of the refusal in document 01's table.
    ///
    /// ```
    /// assert_eq!(ostrogosz::Refusal::WrongCheck.number(), 5);
    /// ```
    #[must_use]
    pub const fn number(self) -> u8 {
        self as u8
    }

    const fn words(self) -> &'static str {
        match self {
            Self::BadEscape => "an escape before neither 5D, 5E nor the flag",
            Self::EscapeBeforeFlag => "an escape directly before the flag",
            Self::TooLong => "more than 438 unstuffed octets",
            Self::TooShort => "fewer than 3 unstuffed octets",
            Self::WrongCheck => "the frame check sequence is wrong",
            Self::Room => "the output is shorter than the body",
            Self::BodyLength => "a body has 1 to 436 octets",
            Self::OutputLength => "the output is shorter than what it gets",
            Self::UnknownId => "no message, or another kind, has this ID",
            Self::MessageLength => "the body's length is not the kind's",
            Self::Fixed => "wrong version, signature or subtype",
            Self::Field => "a field is outside its range or its bits",
            Self::MavlinkTooShort => "too few octets for a MAVLink frame",
            Self::MavlinkStart => "a MAVLink frame starts with FE",
            Self::MavlinkUnknownId => "no MAVLink message, or another kind, has this ID",
            Self::MavlinkLength => "the MAVLink length octet is not the kind's",
            Self::MavlinkCheck => "the MAVLink check is wrong",
            Self::MavlinkField => "a MAVLink field is outside its range or its bits",
        }
    }
}

impl Display for Refusal {
    fn fmt(&self, to: &mut Formatter<'_>) -> fmt::Result {
        write!(to, "refusal {}: {}", self.number(), self.words())
    }
}

impl Error for Refusal {}

/// The refusals of one family of calls, each with the name and the number that
/// [`Refusal`] has for it.
macro_rules! family {
    ($(#[$about:meta])* $family:ident { $($(#[$why:meta])* $name:ident,)+ }) => {
        $(#[$about])*
        #[derive(Clone, Copy, Debug, PartialEq, Eq, Hash)]
        #[non_exhaustive]
        #[repr(u8)]
        pub enum $family {
            $($(#[$why])* $name = Refusal::$name as u8,)+
        }

        impl $family {
            /// The number of the refusal in document 01's table.
            #[must_use]
            pub const fn number(self) -> u8 {
                self as u8
            }

            /// The refusal of a number that the proved code gave.
            #[inline]
            pub(crate) fn of_number(number: u32) -> Self {
                $(if number == Refusal::$name as u32 {
                    return Self::$name;
                })+
                unreachable!("the contracts give no refusal {number} here")
            }
        }

        impl From<$family> for Refusal {
            #[inline]
            fn from(refusal: $family) -> Self {
                match refusal {
                    $($family::$name => Self::$name,)+
                }
            }
        }

        impl PartialEq<Refusal> for $family {
            fn eq(&self, other: &Refusal) -> bool {
                Refusal::from(*self) == *other
            }
        }

        impl Display for $family {
            fn fmt(&self, to: &mut Formatter<'_>) -> fmt::Result {
                Refusal::from(*self).fmt(to)
            }
        }

        impl Error for $family {}
    };
}

family! {
    /// Why the receiver refuses a stretch.
    ReceiveRefusal {
        /// 1: 7D followed by an octet other than 5D, 5E, 7E.
        BadEscape,
        /// 2: 7D directly before the closing flag.
        EscapeBeforeFlag,
        /// 3: more than 438 unstuffed octets.
        TooLong,
        /// 4: fewer than 3 unstuffed octets.
        TooShort,
        /// 5: the check is wrong.
        WrongCheck,
        /// 6: the output is shorter than the body; the frame is lost.
        Room,
    }
}

family! {
    /// Why the frame writer refuses a body.
    FrameRefusal {
        /// 7: a body of 0 or more than 436 octets.
        BodyLength,
        /// 8: the output is shorter than this very frame.
        OutputLength,
    }
}

family! {
    /// Why a reader of messages refuses a body.
    ReadRefusal {
        /// 10: unknown ID, another kind's, or no octet.
        UnknownId,
        /// 11: another length than the kind's.
        MessageLength,
        /// 12: wrong version, signature or subtype.
        Fixed,
        /// 13: a field outside its range.
        Field,
    }
}

family! {
    /// Why a writer of messages refuses a message.
    WriteRefusal {
        /// 13: a field outside its range or too wide for its bits.
        Field,
        /// 8: the output is shorter than the body.
        OutputLength,
    }
}

family! {
    /// Why sending refuses a message: its buffer has room for every frame.
    SendRefusal {
        /// 13: a field outside its range or too wide for its bits.
        Field,
    }
}

family! {
    /// Why a reader of MAVLink refuses an input.
    MavlinkReadRefusal {
        /// 20: too few octets.
        MavlinkTooShort,
        /// 21: the first octet is not FE.
        MavlinkStart,
        /// 22: unknown message ID, or another kind's.
        MavlinkUnknownId,
        /// 23: the length octet is not the kind's.
        MavlinkLength,
        /// 24: the check is wrong.
        MavlinkCheck,
        /// 25: a field outside its range.
        MavlinkField,
    }
}

family! {
    /// Why a writer of MAVLink refuses a message.
    MavlinkWriteRefusal {
        /// 25: a field outside its range or too wide for its bits.
        MavlinkField,
        /// 8: the output is shorter than the frame.
        OutputLength,
    }
}
