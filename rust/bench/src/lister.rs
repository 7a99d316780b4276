//! The line lister as Rust would have it: blocks in and out, and a call of the
//! receiver for each octet.

use std::io::{self, BufWriter, Read, Write};

use ostrogosz::{Answer, Counts, LONGEST_BODY};

use crate::receiver::Receiver;

const BLOCK: usize = 65_536;

/// Lists standard input on standard output.
pub fn run() -> io::Result<()> {
    let mut input = io::stdin().lock();
    let mut text = BufWriter::with_capacity(BLOCK, io::stdout().lock());
    let mut block = vec![0; BLOCK];
    let mut room = [0; LONGEST_BODY];
    let mut receiver = Receiver::new();
    loop {
        let read = input.read(&mut block)?;
        if read == 0 {
            break;
        }
        for &octet in &block[..read] {
            match receiver.receive(octet, &mut room) {
                Answer::Nothing => {}
                Answer::Delivered(octets) => put_body(&mut text, &room[..octets])?,
                Answer::Refused(refusal) => writeln!(text, "no {}", refusal.number())?,
            }
        }
    }
    put_counts(&mut text, receiver.counts())?;
    text.flush()
}

fn put_body(text: &mut impl Write, body: &[u8]) -> io::Result<()> {
    const DIGITS: &[u8; 16] = b"0123456789abcdef";
    write!(text, "ok {}", body.len())?;
    let mut line = [0; 3 * LONGEST_BODY];
    let line = &mut line[..3 * body.len()];
    for (place, &octet) in line.chunks_exact_mut(3).zip(body) {
        let [high, low] = [octet >> 4, octet & 15].map(|digit| DIGITS[usize::from(digit)]);
        place.copy_from_slice(&[b' ', high, low]);
    }
    text.write_all(line)?;
    text.write_all(b"\n")
}

fn put_counts(text: &mut impl Write, counts: Counts) -> io::Result<()> {
    let Counts {
        flags,
        delivered,
        refused,
        skipped,
        open,
    } = counts;
    let octets = counts.octets();
    writeln!(
        text,
        "bytes {octets} flags {flags} delivered {delivered} refused {refused} skipped {skipped} open {open}"
    )
}
