//! A UCP line explained.

use std::io::Write;

use second::frame::LONGEST_BODY;
use second::lister::print_counts;
use second::messages::read;
use second::receiver::{Answer, Receiver};

use super::{hexadecimal, reason};
use crate::messages::shown;

/// The explanation of a whole line.
pub fn line(octets: &[u8]) -> Vec<u8> {
    let mut receiver = Receiver::new();
    let mut room = [0; LONGEST_BODY];
    let mut text = Vec::new();
    for &octet in octets {
        match receiver.receive(octet, &mut room) {
            Answer::Nothing => {}
            Answer::Refused(number) => writeln!(text, "no {number} {}", reason(number)).unwrap(),
            Answer::Delivered(length) => writeln!(text, "{}", body(&room[..length])).unwrap(),
        }
    }
    print_counts(receiver.counts(), &mut text).unwrap();
    text
}

/// The line of a delivered body.
fn body(octets: &[u8]) -> String {
    let length = octets.len();
    match read(octets) {
        Ok(message) => format!("ok {length} {}", shown(&message)),
        Err(number) => {
            let words = reason(number);
            format!("no {number} {words} body {length}{}", hexadecimal(octets))
        }
    }
}
