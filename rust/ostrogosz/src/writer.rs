//! The check and the frame writer.

use crate::FrameRefusal;
use crate::boundary::{ostrogosz_ucp_frame_check, ostrogosz_ucp_write_frame};

/// The frame check sequence of a body of any length: its remainder by
/// x^16 + x^12 + x^5 + 1, started at 0, not inverted, with no zero bits behind
/// the body.
///
/// ```
/// assert_eq!(ostrogosz::frame_check(&[44, 2, 43]), 0xE7C5);
/// ```
#[inline]
#[must_use]
pub fn frame_check(body: &[u8]) -> u16 {
    // SAFETY: pointer and length are those of one slice, which is only read.
    unsafe { ostrogosz_ucp_frame_check(body.as_ptr(), body.len()) }
}

/// Writes the frame of `body` at the start of `output` and gives its length.
///
/// [`LONGEST_FRAME`](crate::LONGEST_FRAME) octets of room always suffice. The
/// octets behind the frame keep what they held.
///
/// # Errors
///
/// [`FrameRefusal::BodyLength`] for a body of 0 or more than 436 octets, then
/// [`FrameRefusal::OutputLength`] for an output shorter than this very frame. A
/// refusal writes nothing.
///
/// ```
/// use ostrogosz::{write_frame, LONGEST_FRAME};
///
/// let mut output = [0; LONGEST_FRAME];
/// let length = write_frame(&[44, 2, 43], &mut output)?;
/// assert_eq!(output[..length], [0x7E, 0x2C, 0x02, 0x2B, 0xC5, 0xE7, 0x7E]);
/// # Ok::<(), ostrogosz::FrameRefusal>(())
/// ```
#[inline]
pub fn write_frame(body: &[u8], output: &mut [u8]) -> Result<usize, FrameRefusal> {
    // SAFETY: each pointer goes with the length of its slice, and a shared and
    // a mutable slice have no octet in common.
    let written = unsafe {
        ostrogosz_ucp_write_frame(body.as_ptr(), body.len(), output.as_mut_ptr(), output.len())
    };
    written.answer(FrameRefusal::of_number)
}
