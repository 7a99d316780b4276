//! Stuffing and the frame writer (document 01, Check and stuffing).

use crate::check::check;

/// The flag that opens and closes every frame (document 01, Check and
/// stuffing).
pub const FLAG: u8 = 0x7E;

/// The escape that stands before a stuffed octet (document 01, Check and
/// stuffing).
pub const ESCAPE: u8 = 0x7D;

/// What follows the escape in place of a flag (document 01, Check and
/// stuffing).
pub const ESCAPED_FLAG: u8 = 0x5E;

/// What follows the escape in place of an escape (document 01, Check and
/// stuffing).
pub const ESCAPED_ESCAPE: u8 = 0x5D;

/// The longest body that the frame writer accepts (document 01, refusal 7).
pub const LONGEST_BODY: usize = 436;

/// The octets with 7E and 7D escaped, and nothing else (document 01, Check and
/// stuffing).
pub fn stuffed(bytes: &[u8]) -> Vec<u8> {
    let mut line = Vec::new();
    for &octet in bytes {
        match octet {
            FLAG => line.extend([ESCAPE, ESCAPED_FLAG]),
            ESCAPE => line.extend([ESCAPE, ESCAPED_ESCAPE]),
            plain => line.push(plain),
        }
    }
    line
}

/// The whole frame of a body of any length: flag, body and check stuffed
/// together with the check's low octet first, flag (document 01, Check and
/// stuffing).
pub fn frame(body: &[u8]) -> Vec<u8> {
    let mut checked = body.to_vec();
    checked.extend(check(body).to_le_bytes());

    let mut line = vec![FLAG];
    line.extend(stuffed(&checked));
    line.push(FLAG);
    line
}

/// Writes the frame of `body` at the start of `out` and gives its length
/// (document 01, refusals 7 and 8).
///
/// Refused with 7 for a body of 0 or more than 436 octets, then with 8 where
/// `out` is shorter than this very frame. A refusal writes nothing; on success
/// the octets behind the frame keep what they held.
pub fn write_frame(body: &[u8], out: &mut [u8]) -> Result<usize, u8> {
    if body.is_empty() || body.len() > LONGEST_BODY {
        return Err(7);
    }
    let line = frame(body);
    let room = out.get_mut(..line.len()).ok_or(8)?;
    room.copy_from_slice(&line);
    Ok(line.len())
}
