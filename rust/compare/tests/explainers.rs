//! The explaining programs, beside what the second program's values say in
//! Rust's own formatting.

use compare::edges::{Edges, Field, EMITTERS};
use compare::explained;
use compare::generator::Generator;
use compare::lines;
use compare::mavlink;
use compare::messages::{with_field, Kind, KINDS};
use compare::programs::output_of;
use compare::squawks;
use compare::tally::Tally;
use second::frame::frame;
use second::messages::Message;

#[test]
fn the_sample_line() {
    let capture = include_bytes!("../../../samples/capture.bin");
    let explained = explained::line(capture);
    assert_eq!(output_of("line_explainer", capture), explained);
}

#[test]
fn no_line() {
    let text = "bytes 0 flags 0 delivered 0 refused 0 skipped 0 open 0\n";
    assert_eq!(output_of("line_explainer", &[]), text.as_bytes());
}

/// Frames with a body each, some of a right message and some of a kind's head
/// with anything behind it.
fn message_line(kind: &Kind, frames: usize, generator: &mut Generator) -> Vec<u8> {
    let mut line = Vec::new();
    for _ in 0..frames {
        let body = match generator.below(4) {
            0 => {
                let length = generator.pick(&[kind.octets, kind.octets, 1, 3, 30]);
                kind.random_body(length, generator)
            }
            _ => kind.right_body(generator),
        };
        lines::share_flag(&mut line, &frame(&body));
    }
    line
}

#[test]
fn messages_of_every_kind() {
    let mut tally = Tally::default();
    let mut generator = Generator::new(31);
    for kind in KINDS {
        let frames = 20_000;
        let line = message_line(kind, frames, &mut generator);
        let differs = output_of("line_explainer", &line) != explained::line(&line);
        let difference = differs.then(|| kind.name.to_owned());
        tally.count_many(kind.name, frames as u64, difference);
    }
    tally.close("line explainer, in frames of messages", 160_000);
}

/// A frame for every number of a field.
fn every_number(kind: &Kind, field: &Field<Message>, generator: &mut Generator) -> Vec<u8> {
    let mut line = Vec::new();
    for number in field.edges.every() {
        let (_, body) = kind.with(field, number, generator);
        lines::share_flag(&mut line, &frame(&body));
    }
    line
}

/// How many lines of an explanation begin so.
fn beginning(explanation: &[u8], words: &str) -> u64 {
    let lines = explanation.split(|&octet| octet == b'\n');
    let found = lines.filter(|line| line.starts_with(words.as_bytes()));
    found.count() as u64
}

/// Every number of a field, in a line for each kind that has it: how many are
/// shown, and how many are refused.
fn explain_every_number(name: &'static str, seed: u64) -> [u64; 2] {
    let mut tally = Tally::default();
    let mut generator = Generator::new(seed);
    let mut explanations = Vec::new();
    for (kind, field) in with_field(name) {
        let line = every_number(kind, field, &mut generator);
        let explanation = explained::line(&line);
        let differs = output_of("line_explainer", &line) != explanation;
        let difference = differs.then(|| format!("{name} in {}", kind.name));
        tally.count_many(kind.name, field.edges.every().len() as u64, difference);
        explanations.extend(explanation);
    }
    tally.close(&format!("line explainer, in {name}s"), 256);
    ["ok ", "no 13 "].map(|words| beginning(&explanations, words))
}

#[test]
fn every_squawk_of_a_line() {
    let answers = explain_every_number("squawk", 39);
    assert_eq!(answers, [squawks::CODES, 65_536 - squawks::CODES]);
}

/// In 10 and 20 every emitter is shown.
#[test]
fn every_emitter_of_a_line() {
    let answers = explain_every_number("emitter", 53);
    assert_eq!(answers, [EMITTERS + 2 * 256, 256 - EMITTERS]);
}

#[test]
fn lines_of_every_kind() {
    let mut tally = Tally::default();
    let mut generator = Generator::new(32);
    for kind in lines::Kind::ALL {
        // About the size of a block, and many blocks.
        for octets in [1, 300, 65_535, 65_536, 65_537, 500_000] {
            let mut line = kind.line(octets, &mut generator);
            line.truncate(octets);
            let differs = output_of("line_explainer", &line) != explained::line(&line);
            let difference = differs.then(|| format!("{octets} {}", kind.name()));
            tally.count_many(kind.name(), octets as u64, difference);
        }
    }
    tally.close("line explainer, in octets", 4_000_000);
}

#[test]
fn no_frame() {
    assert_eq!(output_of("mavlink_explainer", &[]), b"frames 0 bytes 0\n");
}

/// Right frames back to back, of one kind.
fn frames(kind: mavlink::Kind, count: usize, generator: &mut Generator) -> Vec<u8> {
    (0..count)
        .flat_map(|_| kind.right_frame(generator))
        .collect()
}

#[test]
fn frames_of_every_kind() {
    let mut tally = Tally::default();
    let mut generator = Generator::new(33);
    for kind in mavlink::Kind::ALL {
        // Many blocks.
        let count = 40_000;
        let capture = frames(kind, count, &mut generator);
        let differs = output_of("mavlink_explainer", &capture) != explained::mavlink(&capture);
        let difference = differs.then(|| kind.name().to_owned());
        tally.count_many(kind.name(), count as u64, difference);
    }
    tally.close("MAVLink explainer, in frames", 200_000);
}

/// Some right frames, then one that is changed, cut short, or no frame at all,
/// and right ones behind it.
fn damaged_capture(generator: &mut Generator) -> Vec<u8> {
    let kind = generator.pick(&mavlink::Kind::ALL);
    let count = generator.pick(&[0, 1, 2, 3, 30]);
    let mut capture = frames(kind, count, generator);
    let mut frame = match generator.below(3) {
        0 => generator.pick(&mavlink::Kind::ALL).random_frame(generator),
        _ => generator.pick(&mavlink::Kind::ALL).right_frame(generator),
    };
    let at = generator.below(frame.len());
    match generator.below(4) {
        0 => frame[at] ^= 1 << generator.below(8),
        1 => frame.truncate(at),
        2 => drop(frame.remove(at)),
        _ => {}
    }
    capture.extend(frame);
    if generator.below(2) == 0 {
        capture.extend(frames(kind, 2, generator));
    }
    capture
}

#[test]
fn captures_with_a_refused_frame() {
    let mut tally = Tally::default();
    let mut generator = Generator::new(34);
    for _ in 0..3_000 {
        let capture = damaged_capture(&mut generator);
        let differs = output_of("mavlink_explainer", &capture) != explained::mavlink(&capture);
        let difference = differs.then(|| format!("{capture:02x?}"));
        tally.count("captures with a damaged frame", difference);
    }
    tally.close("MAVLink explainer, in captures", 3_000);
}

/// Numbers of a field, each between right frames: nothing is shown behind one
/// that is refused. In how many captures all is shown, and how many are refused.
fn explain_numbers(name: &'static str, numbers: fn(Edges) -> Vec<i64>, seed: u64) -> [u64; 2] {
    let mut tally = Tally::default();
    let mut generator = Generator::new(seed);
    let mut explanations = Vec::new();
    for (kind, field) in mavlink::Kind::with_field(name) {
        for number in numbers(field.edges) {
            let header = mavlink::any_header(&mut generator);
            let mut capture = frames(kind, 2, &mut generator);
            capture.extend(kind.with(field, number, header, &mut generator).1);
            capture.extend(frames(kind, 2, &mut generator));
            let explanation = explained::mavlink(&capture);
            let differs = output_of("mavlink_explainer", &capture) != explanation;
            let difference = differs.then(|| format!("{name} {number}"));
            tally.count(kind.name(), difference);
            explanations.extend(explanation);
        }
    }
    tally.close(&format!("MAVLink explainer, in {name}s"), 200);
    ["frames 5 ", "no 25 "].map(|words| beginning(&explanations, words))
}

#[test]
fn squawks_at_their_edges() {
    let [shown, refused] = explain_numbers("squawk", Edges::values, 40);
    let tried = 2 * Edges::SQUAWK.values().len() as u64;
    assert_eq!(shown + refused, tried);
    assert!(shown > 20 && refused > 100, "{shown} and {refused}");
}

/// In 246 every emitter is shown.
#[test]
fn every_emitter_between_frames() {
    let answers = explain_numbers("emitter", Edges::every, 54);
    assert_eq!(answers, [EMITTERS + 256, 256 - EMITTERS]);
}

/// A frame across every place about the end of a block of 65,536 octets.
#[test]
fn frames_across_blocks() {
    let mut tally = Tally::default();
    let mut generator = Generator::new(35);
    for first in 0..60 {
        // 14 and 9 octets: every number of them from 104 on is a sum.
        let nines = (0..14).find(|nines| (first + 200 - 9 * nines) % 14 == 0);
        let nines = nines.expect("9 and 14 have no factor in common");
        let fourteens = (first + 200 - 9 * nines) / 14;
        let mut capture = frames(mavlink::Kind::Status, nines, &mut generator);
        capture.extend(frames(mavlink::Kind::DataStream, fourteens, &mut generator));
        capture.extend(frames(mavlink::Kind::Dynamic, 1_400, &mut generator));
        let differs = output_of("mavlink_explainer", &capture) != explained::mavlink(&capture);
        let difference = differs.then(|| format!("a shift by {first}"));
        tally.count("captures of more than a block", difference);
    }
    tally.close("MAVLink explainer, by where a block ends", 60);
}
