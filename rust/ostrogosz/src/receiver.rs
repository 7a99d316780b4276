//! The receiver and its byte account.

use core::fmt::{self, Debug, Formatter};
use core::ptr;
use core::sync::atomic::{Ordering, compiler_fence};

use crate::ReceiveRefusal;
use crate::boundary::{
    LINE, ostrogosz_ucp_receive, ostrogosz_ucp_receive_slice, ostrogosz_ucp_start,
};

/// Octets of the receive store: the longest body and its check.
pub const STORE: usize = 438;

/// Places in the line.
const PHASE: usize = 0;
const STORED: usize = 1;
const COUNTS: usize = 2;

/// What a call of the receiver gives back.
#[derive(Clone, Copy, Debug, PartialEq, Eq)]
pub enum Answer {
    /// No answer is due.
    Nothing,
    /// A body of so many octets stands at the start of the output.
    Delivered(usize),
    /// The stretch is refused, with a number from 1 to 6.
    Refused(ReceiveRefusal),
}

impl Answer {
    /// The answer that the proved code gives by numbers.
    #[inline]
    fn of_numbers(kind: u32, value: u32) -> Self {
        match kind {
            0 => Self::Nothing,
            1 => Self::Delivered(value as usize),
            _ => Self::Refused(ReceiveRefusal::of_number(value)),
        }
    }
}

/// Where a line stands.
#[derive(Clone, Copy, Debug, PartialEq, Eq, Hash)]
pub enum Phase {
    /// No flag yet: nothing is stored.
    Hunting,
    /// In a stretch without a fault so far.
    Reading,
    /// The last octet was an escape.
    Escape,
    /// Refusal 1 is due at the flag.
    BadEscape,
    /// Refusal 3 is due at the flag.
    TooLong,
}

/// What a call with a slice of the line gives back.
#[derive(Clone, Copy, Debug, PartialEq, Eq)]
pub struct Taken {
    /// The answer to the last octet taken.
    pub answer: Answer,
    /// How many octets were taken; the caller goes on behind them.
    pub octets: usize,
}

/// The byte account, in line octets; each count runs round at 2^32.
#[derive(Clone, Copy, Debug, Default, PartialEq, Eq)]
pub struct Counts {
    /// Flags.
    pub flags: u32,
    /// Octets between two flags, of stretches that were delivered.
    pub delivered: u32,
    /// Octets between two flags, of stretches that were refused.
    pub refused: u32,
    /// Octets before the first flag.
    pub skipped: u32,
    /// Octets since the last flag.
    pub open: u32,
}

impl Counts {
    /// The octets received, modulo 2^32: the sum of the five.
    ///
    /// ```
    /// let mut receiver = ostrogosz::Receiver::new();
    /// receiver.receive_slice(&[0x11, 0x7E, 0x2C], &mut []);
    /// assert_eq!(receiver.counts().octets(), 3);
    /// ```
    #[must_use]
    pub fn octets(&self) -> u32 {
        self.numbers().into_iter().fold(0, u32::wrapping_add)
    }

    fn numbers(&self) -> [u32; 5] {
        [
            self.flags,
            self.delivered,
            self.refused,
            self.skipped,
            self.open,
        ]
    }
}

/// The receiver of one line.
///
/// It lies in memory as `struct ostrogosz_receiver` of `include/ostrogosz.h`,
/// whose byte map reads a dump. The octets of an open stretch are in its store
/// and nowhere else: it is neither `Clone` nor `Copy`, its `Debug` leaves the
/// store out, and it is cleared when dropped. A move copies the store, so give
/// a receiver its place before the first octet.
#[repr(C)]
pub struct Receiver {
    store: [u8; STORE],
    line: [u32; LINE],
}

impl Default for Receiver {
    fn default() -> Self {
        Self::new()
    }
}

impl Receiver {
    /// A fresh receiver: it hunts, the store is zero and so is every count. A
    /// `static` can hold it, as [`start`](Self::start) leaves it.
    ///
    /// ```
    /// use ostrogosz::{Phase, Receiver};
    ///
    /// let receiver = const { Receiver::new() };
    /// assert_eq!(receiver.phase(), Phase::Hunting);
    /// ```
    #[must_use]
    pub const fn new() -> Self {
        Self {
            store: [0; STORE],
            line: [0; LINE],
        }
    }

    /// Makes the receiver fresh, whatever it held: call it when the line changes
    /// hands, since it clears an open stretch without waiting for a flag.
    ///
    /// ```
    /// use ostrogosz::{Phase, Receiver};
    ///
    /// let mut receiver = Receiver::new();
    /// receiver.receive_slice(&[0x7E, 0x2C, 0x02], &mut []);
    /// receiver.start();
    /// assert_eq!((receiver.phase(), receiver.stored()), (Phase::Hunting, 0));
    /// ```
    pub fn start(&mut self) {
        // SAFETY: both point to fields of their full length, which don't
        // overlap.
        unsafe { ostrogosz_ucp_start(&mut self.store, &mut self.line) }
    }

    /// Takes one octet of the line.
    ///
    /// A stretch with an octet in it gets one answer, at its closing flag: a
    /// refusal from 1 to 6, or its body at the start of `output`. Only the
    /// output lent at the flag counts, and 436 octets always suffice. Every
    /// other answer writes nothing. Clearing a delivered body is the caller's
    /// part.
    ///
    /// ```
    /// use ostrogosz::{Answer, Receiver};
    ///
    /// let mut receiver = Receiver::new();
    /// let mut body = [0; 436];
    /// let line = [0x7E, 0x2C, 0x02, 0x2B, 0xC5, 0xE7, 0x7E];
    /// let answers = line.map(|octet| receiver.receive(octet, &mut body));
    /// assert_eq!(answers[5], Answer::Nothing);
    /// assert_eq!(answers[6], Answer::Delivered(3));
    /// assert_eq!(body[..3], [0x2C, 0x02, 0x2B]);
    /// ```
    #[inline]
    pub fn receive(&mut self, octet: u8, output: &mut [u8]) -> Answer {
        // SAFETY: store and line are fields of their full length, and the
        // output goes with its own; three mutable borrows don't overlap.
        let received = unsafe {
            ostrogosz_ucp_receive(
                &mut self.store,
                &mut self.line,
                octet,
                output.as_mut_ptr(),
                output.len(),
            )
        };
        Answer::of_numbers(received.kind, received.value)
    }

    /// Takes octets up to and with the first that gets an answer, or all of
    /// them, each as [`receive`](Self::receive) does.
    ///
    /// ```
    /// use ostrogosz::{Answer, Receiver, ReceiveRefusal};
    ///
    /// let mut receiver = Receiver::new();
    /// let taken = receiver.receive_slice(&[0x7E, 0x7D, 0x7E, 0x2C], &mut []);
    /// assert_eq!(taken.answer, Answer::Refused(ReceiveRefusal::EscapeBeforeFlag));
    /// assert_eq!(taken.octets, 3);
    /// ```
    #[inline]
    pub fn receive_slice(&mut self, octets: &[u8], output: &mut [u8]) -> Taken {
        // SAFETY: as for `receive`; the octets are a shared borrow, so they
        // overlap none of the three.
        let received = unsafe {
            ostrogosz_ucp_receive_slice(
                &mut self.store,
                &mut self.line,
                octets.as_ptr(),
                octets.len(),
                output.as_mut_ptr(),
                output.len(),
            )
        };
        Taken {
            answer: Answer::of_numbers(received.kind, received.value),
            octets: received.taken,
        }
    }

    /// The answers to a slice of the line, one after the other; octets that get
    /// none are taken in passing. Each delivery stands in `output`, where
    /// [`Answers::body`] shows it, until the next overwrites it.
    ///
    /// ```
    /// use ostrogosz::{Answer, Receiver};
    ///
    /// let line = [0x7E, 0x2C, 0x02, 0x2B, 0xC5, 0xE7, 0x7E, 0x7D, 0x7E];
    /// let mut receiver = Receiver::new();
    /// let mut output = [0; 436];
    /// let mut answers = receiver.answers(&line, &mut output);
    /// assert_eq!(answers.next(), Some(Answer::Delivered(3)));
    /// assert_eq!(answers.body(), [0x2C, 0x02, 0x2B]);
    /// assert!(matches!(answers.next(), Some(Answer::Refused(_))));
    /// assert_eq!(answers.next(), None);
    /// ```
    pub fn answers<'a>(&'a mut self, octets: &'a [u8], output: &'a mut [u8]) -> Answers<'a> {
        Answers {
            receiver: self,
            octets,
            output,
            delivered: 0,
        }
    }

    /// The five counts.
    #[must_use]
    pub fn counts(&self) -> Counts {
        let [_, _, flags, delivered, refused, skipped, open] = self.line;
        Counts {
            flags,
            delivered,
            refused,
            skipped,
            open,
        }
    }

    /// Puts other counts in place, as to go on with the account of an earlier
    /// receiver. No answer depends on a count.
    pub fn set_counts(&mut self, counts: Counts) {
        self.line[COUNTS..].copy_from_slice(&counts.numbers());
    }

    /// The store, for a dump: the unstuffed octets of the open stretch, zero
    /// behind them.
    #[must_use]
    pub fn store(&self) -> &[u8; STORE] {
        &self.store
    }

    /// How many octets of the store are in use.
    #[must_use]
    pub fn stored(&self) -> usize {
        self.line[STORED] as usize
    }

    /// Where the line stands, for a dump.
    #[must_use]
    pub fn phase(&self) -> Phase {
        match self.line[PHASE] {
            0 => Phase::Hunting,
            1 => Phase::Reading,
            2 => Phase::Escape,
            3 => Phase::BadEscape,
            _ => Phase::TooLong,
        }
    }
}

/// The answers to a slice of the line, as [`Receiver::answers`] gives them.
pub struct Answers<'a> {
    receiver: &'a mut Receiver,
    octets: &'a [u8],
    output: &'a mut [u8],
    delivered: usize,
}

impl Answers<'_> {
    /// The body that the last answer delivered; after any other answer, none.
    #[must_use]
    pub fn body(&self) -> &[u8] {
        &self.output[..self.delivered]
    }
}

impl Iterator for Answers<'_> {
    type Item = Answer;

    fn next(&mut self) -> Option<Answer> {
        self.delivered = 0;
        let taken = self.receiver.receive_slice(self.octets, self.output);
        self.octets = &self.octets[taken.octets..];
        match taken.answer {
            Answer::Nothing => return None,
            Answer::Delivered(octets) => self.delivered = octets,
            Answer::Refused(_) => {}
        }
        Some(taken.answer)
    }
}

impl Debug for Receiver {
    fn fmt(&self, to: &mut Formatter<'_>) -> fmt::Result {
        to.debug_struct("Receiver")
            .field("phase", &self.phase())
            .field("stored", &self.stored())
            .field("counts", &self.counts())
            .finish_non_exhaustive()
    }
}

impl Drop for Receiver {
    /// The store may hold private octets. Plain stores to memory that is about
    /// to go would be left out by the compiler.
    fn drop(&mut self) {
        // SAFETY: each points to a field of this receiver.
        unsafe {
            ptr::write_volatile(&mut self.store, [0; STORE]);
            ptr::write_volatile(&mut self.line, [0; LINE]);
        }
        compiler_fence(Ordering::SeqCst);
    }
}
