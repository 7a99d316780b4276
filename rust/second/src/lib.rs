//! A second opinion on the gateway's serial lines, UCP/GDL90 and MAVLink.
//!
//! This crate is written from the papers alone, documents 00 and 01, and
//! shares no code with the proved library. Both are run on the same inputs and
//! compared, so everything here is kept plain rather than fast: where the two
//! differ, one of them misreads the papers.
//!
//! - [`check`]: the frame check sequence, by long division.
//! - [`frame`]: stuffing and the frame writer.
//! - [`receiver`]: the receiver by the byte and its byte account.
//! - [`lister`]: the program that lists a line.
//! - [`messages`]: the eight message kinds of the UCP line.
//! - [`mavlink`]: MAVLink version 1 frames and their five kinds.

#![forbid(unsafe_code)]
#![deny(missing_docs)]

pub mod check;
mod fields;
pub mod frame;
pub mod lister;
pub mod mavlink;
pub mod messages;
mod ranges;
pub mod receiver;
