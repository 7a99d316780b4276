//! The receiver as Rust would have it: one record with the store inside, taken
//! by `&mut self`, and a call for each octet.

use ostrogosz::{Answer, Counts, ReceiveRefusal, STORE};

use crate::check::next_check;

const FLAG: u8 = 0x7E;
const ESCAPE: u8 = 0x7D;

#[derive(Clone, Copy, PartialEq, Eq)]
enum Phase {
    Hunting,
    Reading,
    Escape,
    BadEscape,
    TooLong,
}

/// The receiver of one line.
pub struct Receiver {
    store: [u8; STORE],
    stored: usize,
    phase: Phase,
    counts: Counts,
}

impl Receiver {
    /// A fresh receiver.
    pub fn new() -> Self {
        Self {
            store: [0; STORE],
            stored: 0,
            phase: Phase::Hunting,
            counts: Counts::default(),
        }
    }

    /// One octet, by a call that is not inlined, since one through the C
    /// boundary can't be.
    #[inline(never)]
    pub fn receive(&mut self, octet: u8, output: &mut [u8]) -> Answer {
        self.take(octet, output)
    }

    /// Octets up to and with the first that gets an answer, or all of them.
    #[inline(never)]
    pub fn receive_slice(&mut self, octets: &[u8], output: &mut [u8]) -> (Answer, usize) {
        for (at, &octet) in octets.iter().enumerate() {
            let answer = self.take(octet, output);
            if answer != Answer::Nothing {
                return (answer, at + 1);
            }
        }
        (Answer::Nothing, octets.len())
    }

    /// The five counts.
    pub fn counts(&self) -> Counts {
        self.counts
    }

    #[inline(always)]
    fn take(&mut self, octet: u8, output: &mut [u8]) -> Answer {
        if octet == FLAG {
            return self.flag(output);
        }
        match self.phase {
            Phase::Hunting => {
                self.counts.skipped = self.counts.skipped.wrapping_add(1);
                return Answer::Nothing;
            }
            Phase::Reading if octet == ESCAPE => self.phase = Phase::Escape,
            Phase::Reading => self.put(octet),
            Phase::Escape => self.unescape(octet),
            Phase::BadEscape | Phase::TooLong => {}
        }
        self.counts.open = self.counts.open.wrapping_add(1);
        Answer::Nothing
    }

    #[inline]
    fn put(&mut self, octet: u8) {
        if let Some(place) = self.store.get_mut(self.stored) {
            *place = octet;
            self.stored += 1;
            self.phase = Phase::Reading;
        } else {
            self.phase = Phase::TooLong;
        }
    }

    #[inline]
    fn unescape(&mut self, octet: u8) {
        match octet {
            0x5E => self.put(FLAG),
            0x5D => self.put(ESCAPE),
            _ => self.phase = Phase::BadEscape,
        }
    }

    /// Apart from the octets between flags, whose call then saves no registers.
    #[inline(never)]
    fn flag(&mut self, output: &mut [u8]) -> Answer {
        let answer = self.close(output);
        match answer {
            Answer::Nothing => {}
            Answer::Delivered(_) => advance(&mut self.counts.delivered, self.counts.open),
            Answer::Refused(_) => advance(&mut self.counts.refused, self.counts.open),
        }
        advance(&mut self.counts.flags, 1);
        self.counts.open = 0;
        self.store[..self.stored].fill(0);
        self.stored = 0;
        self.phase = Phase::Reading;
        answer
    }

    fn close(&self, output: &mut [u8]) -> Answer {
        match self.phase {
            Phase::Hunting => Answer::Nothing,
            Phase::Reading if self.stored == 0 => Answer::Nothing,
            Phase::Reading => judge(&self.store[..self.stored], output)
                .map_or_else(Answer::Refused, Answer::Delivered),
            Phase::Escape => Answer::Refused(ReceiveRefusal::EscapeBeforeFlag),
            Phase::BadEscape => Answer::Refused(ReceiveRefusal::BadEscape),
            Phase::TooLong => Answer::Refused(ReceiveRefusal::TooLong),
        }
    }
}

/// Refusals 4, 5 and 6 in their order, or the body.
fn judge(unstuffed: &[u8], output: &mut [u8]) -> Result<usize, ReceiveRefusal> {
    let Some((body, sent)) = unstuffed.split_last_chunk::<2>() else {
        return Err(ReceiveRefusal::TooShort);
    };
    if body.is_empty() {
        return Err(ReceiveRefusal::TooShort);
    }
    let check = body
        .iter()
        .fold(0, |check, &octet| next_check(check, octet));
    if *sent != check.to_le_bytes() {
        return Err(ReceiveRefusal::WrongCheck);
    }
    let room = output.get_mut(..body.len()).ok_or(ReceiveRefusal::Room)?;
    room.copy_from_slice(body);
    Ok(body.len())
}

/// A count runs round at 2^32.
fn advance(count: &mut u32, by: u32) {
    *count = count.wrapping_add(by);
}

/// A baseline that answers something else would be no measure.
#[cfg(test)]
mod tests {
    use super::*;
    use compare::generator::Generator;
    use compare::lines::Kind;

    fn assert_same(line: &[u8], generator: &mut Generator) {
        let mut proved = ostrogosz::Receiver::new();
        let mut rust = [Receiver::new(), Receiver::new()];
        for &octet in line {
            let room = generator.below(441);
            let mut outputs = [[0xA5; 440]; 3];
            let answer = proved.receive(octet, &mut outputs[0][..room]);
            let by_octet = rust[0].receive(octet, &mut outputs[1][..room]);
            let by_slice = rust[1].receive_slice(&[octet], &mut outputs[2][..room]);
            assert_eq!((by_octet, by_slice), (answer, (answer, 1)));
            assert_eq!([outputs[0]; 3], outputs);
            for receiver in &rust {
                assert_eq!(receiver.counts, proved.counts());
                assert_eq!(&receiver.store, proved.store());
            }
        }
    }

    #[test]
    fn both_receivers_answer_alike() {
        let mut generator = Generator::new(7);
        for kind in Kind::ALL {
            let line = kind.line(20_000, &mut generator);
            assert_same(&line, &mut generator);
        }
    }
}
