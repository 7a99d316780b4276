//! One comparison of readers or writers: both sides' rooms, and the counts.

use std::borrow::Borrow;
use std::fmt::Debug;

use crate::generator::Generator;
use crate::rooms::Room;
use crate::tally::Tally;

/// Octets of room past the longest output, to show a write behind it.
const PAST: usize = 4;

/// Both sides' rooms and what was counted, by kind of input and by answer.
#[derive(Debug)]
pub struct Comparison {
    /// Where inputs, rooms and patterns come from.
    pub generator: Generator,
    kinds: Tally,
    answers: Tally,
    ours: Room,
    theirs: Room,
    longest: usize,
}

impl Comparison {
    /// Nothing counted, and rooms for an output of `longest` octets.
    pub fn new(seed: u64, longest: usize) -> Self {
        Self {
            generator: Generator::new(seed),
            kinds: Tally::default(),
            answers: Tally::default(),
            ours: Room::new(longest + PAST),
            theirs: Room::new(longest + PAST),
            longest,
        }
    }

    /// Counts what both sides read from one input.
    pub fn read<T: Debug + PartialEq>(
        &mut self,
        kind: &'static str,
        ours: Result<T, u8>,
        theirs: Result<T, u8>,
        input: &impl Debug,
    ) {
        let same = ours == theirs;
        let difference =
            (!same).then(|| format!("{kind}: ours {ours:?}, second {theirs:?}: {input:02X?}"));
        self.count(kind, answer_name(&theirs), difference);
    }

    /// Writes one input on both sides into rooms that hold the same pattern,
    /// and compares the rooms whole.
    pub fn write(
        &mut self,
        kind: &'static str,
        room: usize,
        ours: impl FnOnce(&mut [u8]) -> Result<usize, u8>,
        theirs: impl FnOnce(&mut [u8]) -> Result<usize, u8>,
        input: &impl Debug,
    ) {
        self.ours.prefill(&mut self.generator);
        self.theirs.copy(&self.ours);
        let ours = ours(self.ours.lend(room));
        let theirs = theirs(self.theirs.lend(room));
        let same = ours == theirs && self.ours == self.theirs;
        let difference = (!same)
            .then(|| format!("{kind}: ours {ours:?}, second {theirs:?}: room {room}, {input:X?}"));
        self.count(kind, answer_name(&theirs), difference);
    }

    /// Rooms at which an output of so many octets has another answer, and
    /// generous ones.
    pub fn edge_rooms(&self, exact: usize) -> [usize; 5] {
        [0, exact - 1, exact, exact + 1, self.longest + PAST]
    }

    /// A room that is an edge in three cases of four.
    pub fn any_room(&mut self, exact: usize) -> usize {
        match self.generator.below(4) {
            0 => self.generator.below(self.longest + PAST + 1),
            _ => {
                let edges = self.edge_rooms(exact);
                self.generator.pick(&edges)
            }
        }
    }

    /// How many inputs got this answer.
    pub fn met(&self, answer: &str) -> u64 {
        self.answers.tried(answer)
    }

    /// Fails where one of these answers was met another number of times, or any
    /// other answer at all.
    pub fn assert_met(&self, answers: &[(&'static str, u64)]) {
        for &(answer, times) in answers {
            assert_eq!(self.met(answer), times, "{answer}");
        }
        let times: u64 = answers.iter().map(|(_, times)| times).sum();
        assert_eq!(self.answers.total(), times, "any answer");
    }

    /// Prints the counts, and fails where an input differed, where fewer than
    /// `least` were tried in all or of one of `kinds`, or where an answer that
    /// is due was never met, for then nothing was shown of it.
    pub fn close(&self, title: &str, kinds: &[&'static str], least: u64, due: &[&'static str]) {
        println!("{title}, by answer\n{}", self.answers);
        self.kinds.close(&format!("{title}, by kind"), least);
        for kind in kinds {
            let tried = self.kinds.tried(kind);
            assert!(tried >= least, "{title}: only {tried} of {kind}");
        }
        for answer in due {
            assert!(self.met(answer) > 0, "{title}: never {answer}");
        }
    }

    fn count(&mut self, kind: &'static str, answer: &'static str, difference: Option<String>) {
        self.answers.count(answer, difference.clone());
        self.kinds.count(kind, difference);
    }
}

/// What the counts call an answer.
pub fn answer_name<T>(answer: &Result<T, u8>) -> &'static str {
    match answer {
        Ok(_) => "accepted",
        Err(7) => "refused with 7",
        Err(8) => "refused with 8",
        Err(10) => "refused with 10",
        Err(11) => "refused with 11",
        Err(12) => "refused with 12",
        Err(13) => "refused with 13",
        Err(20) => "refused with 20",
        Err(21) => "refused with 21",
        Err(22) => "refused with 22",
        Err(23) => "refused with 23",
        Err(24) => "refused with 24",
        Err(25) => "refused with 25",
        Err(_) => "refused with another number",
    }
}

/// The answer of a call that is lent a copy, which it must leave as it was.
pub fn lending<I, T>(input: &I, call: impl FnOnce(&I) -> T) -> T
where
    I: ?Sized + PartialEq + ToOwned,
{
    let lent = input.to_owned();
    let answer = call(lent.borrow());
    assert!(lent.borrow() == input, "the call changed what it was lent");
    answer
}
