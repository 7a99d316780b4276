//! The line lister (document 01, Frames to try).

use std::io::{self, BufReader, Read, Write};

use crate::frame::LONGEST_BODY;
use crate::receiver::{Answer, Counts, Receiver};

/// What the lister prints for these line octets (document 01, Frames to try).
pub fn list(input: &[u8]) -> Vec<u8> {
    let mut output = Vec::new();
    list_to(input, &mut output).expect("memory is read and written without error");
    output
}

/// Reads line octets to the end of `input` and prints one line for each
/// answer, then the counts; 436 octets of room are lent (document 01, Frames to
/// try).
///
/// The first error of `input` or `output` ends the listing and is returned.
pub fn list_to(input: impl Read, mut output: impl Write) -> io::Result<()> {
    let mut receiver = Receiver::new();
    let mut room = [0; LONGEST_BODY];
    for octet in BufReader::new(input).bytes() {
        match receiver.receive(octet?, &mut room) {
            Answer::Nothing => {}
            Answer::Refused(number) => writeln!(output, "no {number}")?,
            Answer::Delivered(length) => {
                let printed = print_body(&room[..length], &mut output);
                // A body may be private, and clearing lent room is the
                // lender's part (document 00, Condition A).
                room.fill(0);
                printed?;
            }
        }
    }
    print_counts(receiver.counts(), &mut output)?;
    output.flush()
}

/// The line of a delivery: length, then each octet in two hexadecimal digits.
fn print_body(body: &[u8], output: &mut impl Write) -> io::Result<()> {
    write!(output, "ok {}", body.len())?;
    for octet in body {
        write!(output, " {octet:02x}")?;
    }
    writeln!(output)
}

/// The closing line (document 01, Frames to try).
pub fn print_counts(counts: Counts, output: &mut impl Write) -> io::Result<()> {
    writeln!(
        output,
        "bytes {} flags {} delivered {} refused {} skipped {} open {}",
        counts.bytes(),
        counts.flags,
        counts.delivered,
        counts.refused,
        counts.skipped,
        counts.open
    )
}
