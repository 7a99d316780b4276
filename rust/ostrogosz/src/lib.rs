//! Safe calls into the proved UCP/GDL90 and MAVLink line codec.
//!
//! The work is done by `libostrogosz.a`, whose functions are proved to give
//! these answers for every input; this crate only turns slices into pointers
//! and numbers into types. It has no allocation and no `std`. The numbers of
//! the refusals are those of the table in document 01.
//!
//! | Call | Room that always suffices | Refusals, in the order of their tests |
//! |---|---|---|
//! | [`Receiver::receive`], [`Receiver::receive_slice`] | [`LONGEST_BODY`], 436 | 1 or 3, the first fault; else at the flag 2, 4, 5, 6 |
//! | [`write_frame`] | [`LONGEST_FRAME`], 878 | 7, 8 |
//! | [`messages::body_id`] | | 10 |
//! | [`messages::read_message`], the kinds' `read_from` | | 10, 11, 12, 13 |
//! | [`messages::write_message`], the kinds' `write_to` | [`LONGEST_BODY`], 436 | 13, 8 |
//! | [`messages::send_message`], the kinds' `send_to` | its buffer, 878 | 13 |
//! | [`mavlink::find_frame`] | | 20, 21, 20, 22, 23, 20 |
//! | [`mavlink::read_frame`], the kinds' `read_from` | | 20, 21, 20, 22, 23, 20, 24, 25 |
//! | [`mavlink::write_frame`], the kinds' `write_to` | [`mavlink::LONGEST_FRAME`], 50 | 25, 8 |
//! | [`frame_check`], [`meanings`] | | none |
//!
//! A refusal writes nothing. Success writes exactly the answer at the start of
//! the output; the octets behind it keep what they held. A lent output is its
//! caller's to clear. The calls on a kind's own struct leave no identity or
//! address in any other memory; those that give or take a message by value may.
//!
//! Structs hold the machine's numbers. On the line messages 10, 11, 20 and the
//! counts of 0 have the high octet first; 45, 117, the time stamp of 0, all of
//! MAVLink and both checks have the low octet first. Each field's documentation
//! has its unit, and its mark for "unknown" where there is one; marks are
//! carried like any value.
//!
//! ```
//! use ostrogosz::messages::{read_message, send_message, Message, Request};
//! use ostrogosz::{Answer, Receiver, LONGEST_BODY, LONGEST_FRAME};
//!
//! let request = Message::Request(Request { requested_id: 43 });
//! let mut frame = [0; LONGEST_FRAME];
//! let length = send_message(&request, &mut frame)?;
//! assert_eq!(frame[..length], [0x7E, 0x2C, 0x02, 0x2B, 0xC5, 0xE7, 0x7E]);
//!
//! let mut receiver = Receiver::new();
//! let mut body = [0; LONGEST_BODY];
//! let taken = receiver.receive_slice(&frame[..length], &mut body);
//! assert_eq!(taken.answer, Answer::Delivered(3));
//! assert_eq!(read_message(&body[..3]), Ok(request));
//! # Ok::<(), Box<dyn std::error::Error>>(())
//! ```

#![no_std]
#![deny(missing_docs)]

mod boundary;
pub mod emitter;
mod hidden;
pub mod mavlink;
pub mod meanings;
pub mod messages;
mod receiver;
mod refusal;
mod writer;

pub use receiver::{Answer, Answers, Counts, Phase, Receiver, STORE, Taken};
pub use refusal::{
    FrameRefusal, MavlinkReadRefusal, MavlinkWriteRefusal, ReadRefusal, ReceiveRefusal, Refusal,
    SendRefusal, WriteRefusal,
};
pub use writer::{frame_check, write_frame};

/// Octets of the longest body that a frame carries.
pub const LONGEST_BODY: usize = 436;

/// Octets of the longest frame: two flags around 436 octets of body and 2 of
/// check, all of them escaped.
pub const LONGEST_FRAME: usize = 878;

/// The example of the crate's front page, run as a test.
#[cfg(doctest)]
#[doc = include_str!("../README.md")]
struct FrontPage;
