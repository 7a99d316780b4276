//! The frame writers: the proved one, and as Rust would have it, stuffing one
//! octet at a time.
//!
//! All answer alike: 7, then 8, then the frame. Those in Rust are not inlined,
//! since a call through the C boundary can't be.

use ostrogosz::FrameRefusal;

use crate::check::next_check;

const FLAG: u8 = 0x7E;
const ESCAPE: u8 = 0x7D;
const LONGEST_BODY: usize = 436;

/// The proved one.
#[inline]
pub fn proved(body: &[u8], output: &mut [u8]) -> Result<usize, u8> {
    ostrogosz::write_frame(body, output).map_err(FrameRefusal::number)
}

/// Check and stuffing in one pass over the body.
#[inline(never)]
pub fn one_pass(body: &[u8], output: &mut [u8]) -> Result<usize, u8> {
    if body.is_empty() || body.len() > LONGEST_BODY {
        return Err(7);
    }
    // Only a room that the body could outgrow is measured, for that takes a
    // pass of its own.
    if output.len() < 2 * body.len() + 6 && output.len() < frame_length(body, check(body)) {
        return Err(8);
    }
    let mut line = Line { output, length: 0 };
    let mut check = 0;
    line.put(FLAG);
    for &octet in body {
        check = next_check(check, octet);
        line.put_stuffed(octet);
    }
    Ok(line.close(check))
}

/// The check first, then stuffing.
#[inline(never)]
pub fn two_passes(body: &[u8], output: &mut [u8]) -> Result<usize, u8> {
    if body.is_empty() || body.len() > LONGEST_BODY {
        return Err(7);
    }
    let check = check(body);
    if output.len() < 2 * body.len() + 6 && output.len() < frame_length(body, check) {
        return Err(8);
    }
    let mut line = Line { output, length: 0 };
    line.put(FLAG);
    for &octet in body {
        line.put_stuffed(octet);
    }
    Ok(line.close(check))
}

fn check(body: &[u8]) -> u16 {
    body.iter()
        .fold(0, |check, &octet| next_check(check, octet))
}

fn frame_length(body: &[u8], check: u16) -> usize {
    let octets = body.iter().copied().chain(check.to_le_bytes());
    2 + octets
        .map(|octet| 1 + usize::from(is_escaped(octet)))
        .sum::<usize>()
}

fn is_escaped(octet: u8) -> bool {
    matches!(octet, FLAG | ESCAPE)
}

/// The frame so far.
struct Line<'a> {
    output: &'a mut [u8],
    length: usize,
}

impl Line<'_> {
    #[inline]
    fn put(&mut self, octet: u8) {
        self.output[self.length] = octet;
        self.length += 1;
    }

    #[inline]
    fn put_stuffed(&mut self, octet: u8) {
        if is_escaped(octet) {
            self.put(ESCAPE);
            self.put(octet ^ 0x20);
        } else {
            self.put(octet);
        }
    }

    fn close(mut self, check: u16) -> usize {
        let [low, high] = check.to_le_bytes();
        self.put_stuffed(low);
        self.put_stuffed(high);
        self.put(FLAG);
        self.length
    }
}

/// A baseline that answers something else would be no measure.
#[cfg(test)]
mod tests {
    use super::*;
    use compare::bodies::{longest_frame, Kind};
    use compare::generator::Generator;

    fn assert_same(body: &[u8], room: usize) {
        let answers = [proved, one_pass, two_passes].map(|write| {
            let mut output = [0xA5; 900];
            (write(body, &mut output[..room]), output)
        });
        assert_eq!(answers[0], answers[1], "room {room}, body {body:02X?}");
        assert_eq!(answers[0], answers[2], "room {room}, body {body:02X?}");
    }

    #[test]
    fn all_writers_answer_alike() {
        let mut generator = Generator::new(6);
        for length in 0..=440 {
            for kind in Kind::ALL {
                let body = kind.body(length, &mut generator);
                for room in [generator.below(881), length + 4, length + 5, 878] {
                    assert_same(&body, room);
                }
            }
        }
        assert_same(&longest_frame(), 878);
        assert_same(&longest_frame(), 877);
    }
}
