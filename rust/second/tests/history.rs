//! The receiver against document 01 read over the whole history: the line is
//! cut at its flags and each stretch judged at once, without a step by the
//! octet.

use second::check::check;
use second::frame::{frame, write_frame};
use second::lister::list;
use second::receiver::{Answer, Counts, Receiver};

/// What the room holds before a call, so that every write shows.
const FILL: u8 = 0xA5;

/// The unstuffed octets of a stretch, or its first fault from the left.
fn unstuffed(stretch: &[u8]) -> Result<Vec<u8>, u8> {
    let mut octets = Vec::new();
    let mut rest = stretch;
    while !rest.is_empty() {
        let (octet, used) = match rest {
            [0x7D] => return Err(2),
            [0x7D, 0x5D, ..] => (0x7D, 2),
            [0x7D, 0x5E, ..] => (0x7E, 2),
            [0x7D, ..] => return Err(1),
            [plain, ..] => (*plain, 1),
            [] => unreachable!("the loop ends at an empty rest"),
        };
        if octets.len() == 438 {
            return Err(3);
        }
        octets.push(octet);
        rest = &rest[used..];
    }
    Ok(octets)
}

/// The body of a stretch that is not empty, or its refusal.
fn judged(stretch: &[u8], room: usize) -> Result<Vec<u8>, u8> {
    let mut octets = unstuffed(stretch)?;
    if octets.len() < 3 {
        return Err(4);
    }
    let high = octets.pop().expect("three octets at least");
    let low = octets.pop().expect("three octets at least");
    if u16::from(high) * 256 + u16::from(low) != check(&octets) {
        return Err(5);
    }
    if room < octets.len() {
        return Err(6);
    }
    Ok(octets)
}

/// The stretches between flags: before the first, between two, after the last.
fn cut(line: &[u8]) -> (&[u8], Vec<&[u8]>, &[u8]) {
    let mut parts: Vec<&[u8]> = line.split(|&octet| octet == 0x7E).collect();
    let first = parts.remove(0);
    match parts.pop() {
        Some(last) => (first, parts, last),
        None => (first, parts, &[]),
    }
}

/// The counts and the bodies or refusals of a line, all rooms alike.
fn account(line: &[u8], room: usize) -> (Counts, Vec<Result<Vec<u8>, u8>>) {
    let (skipped, stretches, open) = cut(line);
    let mut counts = Counts {
        flags: line.iter().filter(|&&octet| octet == 0x7E).count() as u32,
        skipped: skipped.len() as u32,
        open: open.len() as u32,
        ..Counts::default()
    };
    let mut answers = Vec::new();
    for stretch in stretches.into_iter().filter(|stretch| !stretch.is_empty()) {
        let answer = judged(stretch, room);
        let class = match answer {
            Ok(_) => &mut counts.delivered,
            Err(_) => &mut counts.refused,
        };
        *class += stretch.len() as u32;
        answers.push(answer);
    }
    (counts, answers)
}

/// Runs the receiver over a line and compares it with the whole history.
fn compare(line: &[u8], room: usize) {
    let (counts, expected) = account(line, room);
    let mut receiver = Receiver::new();
    let mut answers = Vec::new();
    let mut out = vec![FILL; room];
    for (place, &octet) in line.iter().enumerate() {
        let answer = receiver.receive(octet, &mut out);
        assert_eq!(answer != Answer::Nothing, closes(line, place));
        match answer {
            Answer::Nothing => {}
            Answer::Refused(number) => answers.push(Err(number)),
            Answer::Delivered(length) => {
                answers.push(Ok(out[..length].to_vec()));
                out[..length].fill(FILL);
            }
        }
        assert!(out.iter().all(|&octet| octet == FILL), "{line:02X?}");
        if octet == 0x7E {
            assert_eq!(receiver.store(), &[0; 438], "{line:02X?}");
        }
    }
    assert_eq!(answers, expected, "line {line:02X?}, room {room}");
    assert_eq!(receiver.counts(), counts, "line {line:02X?}, room {room}");
    assert_eq!(receiver.counts().bytes(), line.len() as u32);
}

/// Whether a flag stands at this place and closes a stretch that is not empty.
fn closes(line: &[u8], place: usize) -> bool {
    let before = &line[..place];
    line[place] == 0x7E && before.contains(&0x7E) && !before.ends_with(&[0x7E])
}

/// Octets that look random and are the same at every run.
struct Octets(u32);

impl Octets {
    fn next(&mut self) -> u32 {
        self.0 ^= self.0 << 13;
        self.0 ^= self.0 >> 17;
        self.0 ^= self.0 << 5;
        self.0 >> 7
    }

    fn below(&mut self, bound: usize) -> usize {
        self.next() as usize % bound
    }

    fn some(&mut self, length: usize) -> Vec<u8> {
        (0..length).map(|_| self.next() as u8).collect()
    }

    fn of(&mut self, alphabet: &[u8], length: usize) -> Vec<u8> {
        (0..length)
            .map(|_| alphabet[self.below(alphabet.len())])
            .collect()
    }
}

/// All lines of a length over an alphabet.
fn for_all_lines(alphabet: &[u8], length: usize, mut visit: impl FnMut(&[u8])) {
    let total = alphabet.len().pow(length as u32);
    for number in 0..total {
        let mut rest = number;
        let mut line = Vec::with_capacity(length);
        for _ in 0..length {
            line.push(alphabet[rest % alphabet.len()]);
            rest /= alphabet.len();
        }
        visit(&line);
    }
}

#[test]
fn every_short_line_of_the_octets_that_matter() {
    let alphabet = [0x7E, 0x7D, 0x5D, 0x5E, 0x00];
    for length in 0..=6 {
        for_all_lines(&alphabet, length, |line| {
            for room in [0, 1, 4] {
                compare(line, room);
            }
        });
    }
}

#[test]
fn every_short_stretch_of_the_octets_that_matter() {
    let alphabet = [0x7D, 0x5D, 0x5E, 0x00];
    for length in 0..=7 {
        for_all_lines(&alphabet, length, |stretch| {
            let line = [&[0x7E], stretch, &[0x7E]].concat();
            compare(&line, 436);
        });
    }
}

#[test]
fn lines_of_frames_and_noise() {
    let mut octets = Octets(1);
    for _ in 0..400 {
        let mut line = Vec::new();
        for _ in 0..4 {
            let length = octets.below(440);
            let piece = match octets.below(5) {
                0 => octets.some(length / 8),
                1 => octets.of(&[0x7D, 0x5D, 0x5E, 0x7E, 0x00], length / 8),
                2 => frame(&octets.of(&[0x7D, 0x7E], length)),
                _ => frame(&octets.some(length)),
            };
            line.extend(piece);
        }
        for room in [0, octets.below(436), 436] {
            compare(&line, room);
        }
    }
}

#[test]
fn stretches_about_the_length_of_the_store() {
    let mut octets = Octets(2);
    for length in 430..=437 {
        for tail in 0..=6 {
            for _ in 0..6 {
                let mut line = frame(&octets.of(&[0x7D, 0x7E, 0x01], length));
                line.pop();
                line.extend(octets.of(&[0x7D, 0x5D, 0x00], tail));
                line.push(0x7E);
                compare(&line, 436);
            }
        }
    }
}

#[test]
fn a_delivered_stretch_is_the_frame_of_its_body() {
    let mut octets = Octets(3);
    let mut delivered = 0;
    for _ in 0..20_000 {
        let length = 3 + octets.below(5);
        let stretch = octets.of(&[0x7D, 0x5D, 0x5E, 0x00], length);
        let line = [&[0x7E], &stretch[..], &[0x7E]].concat();
        if let Some(body) = delivered_body(&line) {
            let mut out = [0; 878];
            assert_eq!(write_frame(&body, &mut out), Ok(line.len()));
            assert_eq!(out[..line.len()], line);
            delivered += 1;
        }
    }
    assert!(delivered > 100, "only {delivered} stretches were delivered");
}

/// The body that a fresh receiver delivers at the last octet of a line.
fn delivered_body(line: &[u8]) -> Option<Vec<u8>> {
    let mut receiver = Receiver::new();
    let mut out = [0; 436];
    let mut last = Answer::Nothing;
    for &octet in line {
        last = receiver.receive(octet, &mut out);
    }
    match last {
        Answer::Delivered(length) => Some(out[..length].to_vec()),
        Answer::Nothing | Answer::Refused(_) => None,
    }
}

#[test]
fn lister_prints_the_whole_history() {
    let mut octets = Octets(4);
    for _ in 0..300 {
        let noise = octets.below(12);
        let length = octets.below(440);
        let mut line = octets.of(&[0x7D, 0x5E, 0x7E, 0x00], noise);
        line.extend(frame(&octets.some(length)));
        line.extend(octets.of(&[0x7D, 0x5D, 0x7E, 0x00], noise));
        assert_eq!(list(&line), listed(&line), "{line:02X?}");
    }
}

/// The lister's output from the whole history.
fn listed(line: &[u8]) -> Vec<u8> {
    let (counts, answers) = account(line, 436);
    let mut text = String::new();
    for answer in answers {
        text += &match answer {
            Err(number) => format!("no {number}\n"),
            Ok(body) => {
                let digits: Vec<String> = body.iter().map(|octet| format!("{octet:02x}")).collect();
                format!("ok {} {}\n", body.len(), digits.join(" "))
            }
        };
    }
    text += &format!("bytes {} flags {}", line.len(), counts.flags);
    text += &format!(" delivered {} refused {}", counts.delivered, counts.refused);
    text += &format!(" skipped {} open {}\n", counts.skipped, counts.open);
    text.into_bytes()
}
