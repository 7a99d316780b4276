//! The receiver by the byte (document 01, The receiver, byte by byte) and its
//! byte account (document 01, The byte account).

use crate::check::check;
use crate::frame::{ESCAPE, ESCAPED_ESCAPE, ESCAPED_FLAG, FLAG};

/// The length of the receive store (document 01, The receiver, byte by byte).
pub const STORE: usize = 438;

/// The octets of the check at the end of every frame.
const CHECK: usize = 2;

/// The fewest unstuffed octets that a frame has: one of body, two of check.
const FEWEST: usize = 1 + CHECK;

/// What a call gives back (document 01, The receiver, byte by byte).
#[derive(Clone, Copy, Debug, PartialEq, Eq)]
pub enum Answer {
    /// No answer: the octet closed no stretch that has an octet in it.
    Nothing,
    /// A body of this length stands at the start of the lent output.
    Delivered(usize),
    /// The refusal of this number, 1 to 6; nothing was written.
    Refused(u8),
}

/// The five counts of line octets, each modulo 2^32 (document 01, The byte
/// account).
#[derive(Clone, Copy, Debug, Default, PartialEq, Eq)]
pub struct Counts {
    /// Flags.
    pub flags: u32,
    /// Line octets between two flags, of stretches that were delivered.
    pub delivered: u32,
    /// Line octets between two flags, of stretches that were refused.
    pub refused: u32,
    /// Line octets before the first flag.
    pub skipped: u32,
    /// Line octets since the last flag.
    pub open: u32,
}

impl Counts {
    /// The octets received, modulo 2^32: the sum of the five (document 01, The
    /// byte account).
    pub fn bytes(&self) -> u32 {
        [self.delivered, self.refused, self.skipped, self.open]
            .into_iter()
            .fold(self.flags, u32::wrapping_add)
    }
}

/// Where the receiver stands in the line.
#[derive(Clone, Copy, Debug, PartialEq, Eq)]
enum State {
    /// No flag was seen yet.
    Hunting,
    /// In a stretch without a fault so far.
    Clean,
    /// As `Clean`, and the last octet was an escape.
    Escaped,
    /// In a stretch whose first fault has this number.
    Faulty(u8),
}

/// The receiver of one line (document 01, The receiver, byte by byte).
#[derive(Clone, Debug, PartialEq, Eq)]
pub struct Receiver {
    store: [u8; STORE],
    stored: usize,
    state: State,
    counts: Counts,
}

impl Default for Receiver {
    fn default() -> Self {
        Self::new()
    }
}

impl Receiver {
    /// A fresh receiver: it hunts, its store is zero and so is every count
    /// (document 01, Demand 3 in exact terms).
    pub fn new() -> Self {
        Self::with_counts(Counts::default())
    }

    /// A receiver that is fresh but for its counts, so that their running
    /// round can be tried (document 01, The byte account).
    ///
    /// A receiver that hunts has no open octet in any history; an open count
    /// given here is gone at the first flag.
    pub fn with_counts(counts: Counts) -> Self {
        Self {
            store: [0; STORE],
            stored: 0,
            state: State::Hunting,
            counts,
        }
    }

    /// Puts other counts in place between two calls, so that the open count
    /// too can be tried near 2^32 (document 01, The byte account).
    ///
    /// No answer depends on a count.
    pub fn set_counts(&mut self, counts: Counts) {
        self.counts = counts;
    }

    /// The five counts (document 01, The byte account).
    pub fn counts(&self) -> Counts {
        self.counts
    }

    /// The store: the unstuffed octets of the open stretch so far, zero behind
    /// them (document 01, The receiver, byte by byte).
    pub fn store(&self) -> &[u8; STORE] {
        &self.store
    }

    /// Takes one octet of the line (document 01, The receiver, byte by byte).
    ///
    /// `out` is written only where the answer is a delivery, and then only as
    /// far as the body reaches.
    pub fn receive(&mut self, byte: u8, out: &mut [u8]) -> Answer {
        if byte == FLAG {
            return self.flag(out);
        }
        if self.state == State::Hunting {
            advance(&mut self.counts.skipped, 1);
        } else {
            advance(&mut self.counts.open, 1);
            self.unstuff(byte);
        }
        Answer::Nothing
    }

    /// A flag closes the stretch before it and opens the next.
    fn flag(&mut self, out: &mut [u8]) -> Answer {
        let answer = self.judge(out.len());
        if let Answer::Delivered(length) = answer {
            out[..length].copy_from_slice(&self.store[..length]);
        }
        self.account(answer);
        self.store = [0; STORE];
        self.stored = 0;
        self.state = State::Clean;
        answer
    }

    /// The answer due at a flag, for this much room.
    fn judge(&self, room: usize) -> Answer {
        match self.state {
            State::Hunting => Answer::Nothing,
            State::Faulty(number) => Answer::Refused(number),
            State::Escaped => Answer::Refused(2),
            // Emptiness can't be read from the open count, which runs round.
            State::Clean if self.stored == 0 => Answer::Nothing,
            State::Clean => judge_unstuffed(&self.store[..self.stored], room),
        }
    }

    /// Counts the flag, and the stretch it closes under the class of its
    /// answer.
    fn account(&mut self, answer: Answer) {
        let stretch = std::mem::take(&mut self.counts.open);
        match answer {
            Answer::Nothing => {}
            Answer::Delivered(_) => advance(&mut self.counts.delivered, stretch),
            Answer::Refused(_) => advance(&mut self.counts.refused, stretch),
        }
        advance(&mut self.counts.flags, 1);
    }

    /// Takes one octet between two flags. Only a stretch without a fault goes
    /// on, so the first fault from the left is the one kept.
    fn unstuff(&mut self, octet: u8) {
        match (self.state, octet) {
            (State::Clean, ESCAPE) => self.state = State::Escaped,
            (State::Clean, plain) => self.keep(plain),
            (State::Escaped, ESCAPED_FLAG) => self.keep(FLAG),
            (State::Escaped, ESCAPED_ESCAPE) => self.keep(ESCAPE),
            (State::Escaped, _) => self.state = State::Faulty(1),
            (State::Hunting | State::Faulty(_), _) => {}
        }
    }

    /// Stores one unstuffed octet; the 439th is a fault.
    fn keep(&mut self, octet: u8) {
        if self.stored < STORE {
            self.store[self.stored] = octet;
            self.stored += 1;
            self.state = State::Clean;
        } else {
            self.state = State::Faulty(3);
        }
    }
}

/// The answer for the unstuffed octets of a stretch without a fault: refusals
/// 4, 5 and 6 in this order, or the delivery (document 01, the refusal table).
fn judge_unstuffed(unstuffed: &[u8], room: usize) -> Answer {
    if unstuffed.len() < FEWEST {
        return Answer::Refused(4);
    }
    let (body, sent) = unstuffed.split_at(unstuffed.len() - CHECK);
    if sent != check(body).to_le_bytes() {
        Answer::Refused(5)
    } else if room < body.len() {
        Answer::Refused(6)
    } else {
        Answer::Delivered(body.len())
    }
}

/// Advances a count, which runs round at 2^32 on purpose.
fn advance(count: &mut u32, by: u32) {
    *count = count.wrapping_add(by);
}
