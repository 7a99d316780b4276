//! Three receivers of one line, compared after every call.

use ostrogosz::{Answer, Counts, Receiver};
use second::receiver as second;

use crate::generator::Generator;
use crate::rooms::Room;
use crate::tally::Tally;

/// The largest room lent, past the longest body.
pub const LARGEST_ROOM: usize = 440;

/// The proved receiver by the octet and by the slice, and the second program's.
#[derive(Debug)]
pub struct Lockstep {
    /// Where rooms, patterns and pieces come from.
    pub generator: Generator,
    by_octet: Receiver,
    by_slice: Receiver,
    second: second::Receiver,
    octet_room: Room,
    slice_room: Room,
    second_room: Room,
    lines: Tally,
    answers: Tally,
}

impl Lockstep {
    /// Fresh receivers, and nothing counted.
    pub fn new(seed: u64) -> Self {
        Self {
            generator: Generator::new(seed),
            by_octet: Receiver::new(),
            by_slice: Receiver::new(),
            second: second::Receiver::new(),
            octet_room: Room::new(LARGEST_ROOM),
            slice_room: Room::new(LARGEST_ROOM),
            second_room: Room::new(LARGEST_ROOM),
            lines: Tally::default(),
            answers: Tally::default(),
        }
    }

    /// Makes all three fresh.
    pub fn start(&mut self) {
        self.by_octet.start();
        self.by_slice.start();
        self.second = second::Receiver::new();
    }

    /// Puts every count of all three shortly before 2^32.
    pub fn run_counts_round(&mut self) {
        let [flags, delivered, refused, skipped, open] =
            [0; 5].map(|zero: u32| zero.wrapping_sub(self.generator.below(300) as u32));
        let counts = Counts {
            flags,
            delivered,
            refused,
            skipped,
            open,
        };
        self.by_octet.set_counts(counts);
        self.by_slice.set_counts(counts);
        self.second.set_counts(second_counts(counts));
    }

    /// Takes a line on from where the receivers stand, in random pieces and
    /// with a room for each.
    pub fn line(&mut self, kind: &'static str, line: &[u8]) {
        self.take(kind, line, |generator| {
            (any_piece(generator), generator.below(LARGEST_ROOM + 1))
        });
    }

    /// Takes a whole line with one room, each slice as long as the rest.
    pub fn line_in_room(&mut self, kind: &'static str, line: &[u8], room: usize) {
        self.take(kind, line, |_| (line.len(), room));
    }

    /// Takes a line in pieces of a length and with a room. A difference ends
    /// it, and starts all three anew.
    fn take(
        &mut self,
        kind: &'static str,
        line: &[u8],
        piece_and_room: impl Fn(&mut Generator) -> (usize, usize),
    ) {
        let mut taken = 0;
        while taken < line.len() {
            let (length, room) = piece_and_room(&mut self.generator);
            let rest = &line[taken..];
            match self.piece(&rest[..length.min(rest.len())], room) {
                Ok(octets) => taken += octets,
                Err(difference) => return self.differed(kind, taken, &difference),
            }
        }
        self.lines.count_many(kind, line.len() as u64, None);
    }

    /// Prints the counts, and fails where a line differed, fewer than `least`
    /// octets were tried or an answer was never met.
    pub fn close(&self, title: &str, least: u64) {
        println!("{title}, by answer\n{}", self.answers);
        self.lines.close(&format!("{title}, by line"), least);
        for name in ANSWERS {
            assert!(self.answers.tried(name) > 0, "{title}: never {name}");
        }
    }

    fn differed(&mut self, kind: &'static str, taken: usize, difference: &str) {
        self.start();
        let difference = format!("{kind}, octet {taken} or later: {difference}");
        self.lines
            .count_many(kind, taken as u64 + 1, Some(difference));
    }

    /// One call by the slice; what it took goes to the other two by the octet.
    fn piece(&mut self, piece: &[u8], room: usize) -> Result<usize, String> {
        self.slice_room.prefill(&mut self.generator);
        self.octet_room.copy(&self.slice_room);
        self.second_room.copy(&self.slice_room);

        let taken = self
            .by_slice
            .receive_slice(piece, self.slice_room.lend(room));
        let mut answer = second::Answer::Nothing;
        for (at, &octet) in piece.iter().enumerate().take(taken.octets) {
            if answer != second::Answer::Nothing {
                return Err(format!("the slice went past {answer:?} at {at}"));
            }
            answer = self.octet(octet, room)?;
        }
        let stopped = taken.octets < piece.len();
        if stopped && answer == second::Answer::Nothing {
            return Err(format!("the slice stopped at {}", taken.octets));
        }
        self.compare_slice(second_answer(taken.answer), answer)?;
        Ok(taken.octets)
    }

    /// One octet on two sides. Only a flag's room counts, so every other octet
    /// gets a room of its own.
    fn octet(&mut self, octet: u8, room: usize) -> Result<second::Answer, String> {
        let room = match octet {
            0x7E => room,
            _ => self.generator.below(LARGEST_ROOM + 1),
        };
        let ours = self.by_octet.receive(octet, self.octet_room.lend(room));
        let ours = second_answer(ours);
        let theirs = self.second.receive(octet, self.second_room.lend(room));
        self.answers.count(answer_name(theirs), None);
        if ours != theirs {
            return Err(format!("by octet {ours:?}, second {theirs:?}, room {room}"));
        }
        if self.octet_room != self.second_room {
            return Err(format!("outputs by octet, at {theirs:?}, room {room}"));
        }
        self.compare_records("octet", &self.by_octet)?;
        Ok(theirs)
    }

    fn compare_slice(&self, ours: second::Answer, theirs: second::Answer) -> Result<(), String> {
        if ours != theirs {
            return Err(format!("by slice {ours:?}, second {theirs:?}"));
        }
        if self.slice_room != self.second_room {
            return Err(format!("outputs by slice, at {theirs:?}"));
        }
        self.compare_records("slice", &self.by_slice)
    }

    fn compare_records(&self, by: &str, ours: &Receiver) -> Result<(), String> {
        let (counts, theirs) = (second_counts(ours.counts()), self.second.counts());
        if counts != theirs {
            return Err(format!("counts by {by} {counts:?}, second {theirs:?}"));
        }
        if ours.store() != self.second.store() {
            return Err(format!("stores by {by}"));
        }
        Ok(())
    }
}

/// Every answer there is.
const ANSWERS: [&str; 8] = [
    "no answer",
    "delivered",
    "refused with 1",
    "refused with 2",
    "refused with 3",
    "refused with 4",
    "refused with 5",
    "refused with 6",
];

fn answer_name(answer: second::Answer) -> &'static str {
    match answer {
        second::Answer::Nothing => ANSWERS[0],
        second::Answer::Delivered(_) => ANSWERS[1],
        second::Answer::Refused(number) => ANSWERS[1 + usize::from(number)],
    }
}

/// Short pieces mostly, empty ones too.
fn any_piece(generator: &mut Generator) -> usize {
    let longest = generator.pick(&[1, 2, 4, 40, 1000]);
    generator.below(longest + 1)
}

fn second_answer(answer: Answer) -> second::Answer {
    match answer {
        Answer::Nothing => second::Answer::Nothing,
        Answer::Delivered(length) => second::Answer::Delivered(length),
        Answer::Refused(refusal) => second::Answer::Refused(refusal.number()),
    }
}

fn second_counts(counts: Counts) -> second::Counts {
    second::Counts {
        flags: counts.flags,
        delivered: counts.delivered,
        refused: counts.refused,
        skipped: counts.skipped,
        open: counts.open,
    }
}
