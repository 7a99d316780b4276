//! MAVLink frames, read and written, against the second program.

use compare::comparison::Comparison;
use compare::edges::{put_one_wild_octets, Field, EMITTERS};
use compare::generator::Generator;
use compare::mavlink::{any_header, seal, Header, Kind, CHECK, HEAD, LONGEST_FRAME};
use compare::mavlink_sides::{read, second_read, second_write, write};
use compare::squawks;
use compare::texts::{texts, TextField};
use second::mavlink::{Frame, Message};

/// Frames of each kind in the two long comparisons.
const FRAMES: u64 = 1_000_000;

/// What a reader answers.
const READ: [&str; 7] = [
    "accepted",
    "refused with 20",
    "refused with 21",
    "refused with 22",
    "refused with 23",
    "refused with 24",
    "refused with 25",
];

/// What a writer answers.
const WRITTEN: [&str; 3] = ["accepted", "refused with 25", "refused with 8"];

/// What the counts call an accepted frame that is written again.
const WRITTEN_BACK: &str = "accepted, written back";

/// Reads one input on both sides; an accepted frame writes back to its octets.
fn try_read(comparison: &mut Comparison, kind: &'static str, input: &[u8]) {
    let theirs = second_read(input);
    if let Ok(reading) = &theirs {
        try_write_back(comparison, &reading.frame, input);
    }
    comparison.read(kind, read(input), theirs, &input);
}

fn try_write_back(comparison: &mut Comparison, frame: &Frame, input: &[u8]) {
    let copy = |output: &mut [u8]| {
        output.copy_from_slice(&input[..frame.used]);
        Ok(frame.used)
    };
    comparison.write(
        WRITTEN_BACK,
        frame.used,
        |output| write(header_of(frame), &frame.message, output),
        copy,
        frame,
    );
}

fn header_of(frame: &Frame) -> Header {
    [frame.sequence, frame.system, frame.component]
}

/// Writes one message on both sides.
fn try_write(
    comparison: &mut Comparison,
    kind: Kind,
    header: Header,
    message: &Message,
    room: usize,
) {
    comparison.write(
        kind.name(),
        room,
        |output| write(header, message, output),
        |output| second_write(header, message, output),
        &(header, message),
    );
}

/// A frame of the kind: at random behind its head, right, or right but for a
/// field or a few octets, mostly with a right check; perhaps cut off, or with
/// octets behind it.
fn any_input(kind: Kind, generator: &mut Generator) -> Vec<u8> {
    let mut input = match generator.below(4) {
        0 => kind.random_frame(generator),
        1 => kind.right_frame(generator),
        _ => damaged_frame(kind, generator),
    };
    match generator.below(8) {
        0 => input.truncate(generator.below(kind.octets())),
        1 | 2 => {
            let behind = generator.below(60);
            input.extend(generator.octets(behind));
        }
        _ => {}
    }
    input
}

fn damaged_frame(kind: Kind, generator: &mut Generator) -> Vec<u8> {
    let mut frame = kind.right_frame(generator);
    if generator.below(4) == 0 {
        put_one_wild_octets(&mut frame, kind.fields(), generator);
    }
    for _ in 0..generator.below(3) {
        let place = generator.below(frame.len());
        frame[place] = generator.number() as u8;
    }
    if generator.below(4) > 0 {
        kind.seal(&mut frame);
    }
    frame
}

#[test]
fn a_million_frames_of_each_kind() {
    let mut comparison = Comparison::new(41, LONGEST_FRAME);
    for kind in Kind::ALL {
        for _ in 0..FRAMES {
            let input = any_input(kind, &mut comparison.generator);
            try_read(&mut comparison, kind.name(), &input);
        }
    }
    let title = "MAVLink, reading at random";
    comparison.close(title, &Kind::names(), FRAMES, &READ);
}

/// Every bit of a frame is flipped, by itself: behind many headers, with the
/// check as it was and with the one that is right then.
#[test]
fn every_flipped_bit() {
    const TURNS: usize = 200;
    let mut comparison = Comparison::new(42, LONGEST_FRAME);
    for kind in Kind::ALL {
        for _ in 0..TURNS {
            let right = kind.right_frame(&mut comparison.generator);
            for bit in 0..8 * right.len() {
                let mut frame = right.clone();
                frame[bit / 8] ^= 1 << (bit % 8);
                try_read(&mut comparison, kind.name(), &frame);
                kind.seal(&mut frame);
                try_read(&mut comparison, kind.name(), &frame);
            }
        }
    }
    let least = 2 * TURNS * 8 * Kind::Status.octets();
    let title = "MAVLink, reading, every flipped bit";
    comparison.close(title, &Kind::names(), least as u64, &READ[2..]);
}

/// Every part of a frame from its start, right and with each fault that a test
/// finds.
#[test]
fn every_truncation() {
    const TURNS: usize = 200;
    let mut comparison = Comparison::new(43, LONGEST_FRAME);
    for kind in Kind::ALL {
        for _ in 0..TURNS {
            for frame in frames_to_cut(kind, &mut comparison.generator) {
                for length in 0..=frame.len() {
                    try_read(&mut comparison, kind.name(), &frame[..length]);
                }
            }
        }
    }
    let least = TURNS * 6 * Kind::Status.octets();
    let title = "MAVLink, reading, every truncation";
    comparison.close(title, &Kind::names(), least as u64, &READ);
}

/// A right frame, with its start, its length octet, its ID and its payload
/// damaged, and one with a payload at random.
fn frames_to_cut(kind: Kind, generator: &mut Generator) -> [Vec<u8>; 6] {
    let right = kind.right_frame(generator);
    let [start, length, id, payload] = [0, 1, 5, HEAD].map(|place| {
        let mut frame = right.clone();
        frame[place] ^= 1 << generator.below(8);
        frame
    });
    let random = kind.random_frame(generator);
    [right, start, length, id, payload, random]
}

/// Every length octet before every ID, so that the refusals 22, 23 and 25 are
/// met behind a right check too: a check is right by the length octet or by the
/// kind, and wrong.
#[test]
fn every_length_octet_and_id() {
    /// Of a known ID.
    const TURNS: usize = 40;
    let mut comparison = Comparison::new(44, LONGEST_FRAME);
    for id in 0..=255 {
        let kind = Kind::of_id(id);
        let name = kind.map_or("unknown", Kind::name);
        let turns = kind.map_or(1, |_| TURNS);
        for length in (0..=255).flat_map(|length| [length].repeat(turns)) {
            for input in inputs_of(id, length, &mut comparison.generator) {
                try_read(&mut comparison, name, &input);
            }
        }
    }
    let title = "MAVLink, reading, every length octet and ID";
    let least = 256 * 6 * TURNS;
    comparison.close(title, &Kind::names(), least as u64, &READ[3..]);
}

/// Inputs with this length octet and ID: one whose check is right where that
/// length puts it, right where the kind's length puts it, wrong, cut off by an
/// octet, of the head alone, and with octets behind it.
fn inputs_of(id: u8, length: u8, generator: &mut Generator) -> [Vec<u8>; 6] {
    let kind = Kind::of_id(id);
    let end = HEAD + usize::from(length) + CHECK;
    let mut input = generator.octets(end.max(LONGEST_FRAME));
    input[..2].copy_from_slice(&[0xFE, length]);
    input[5] = id;
    let extra = kind.map_or(generator.number() as u8, Kind::extra);
    let mut by_kind = input.clone();
    seal(&mut by_kind[..kind.map_or(end, Kind::octets)], extra);
    seal(&mut input[..end], extra);
    let right = input[..end].to_vec();
    let mut wrong = right.clone();
    wrong[end - 1 - generator.below(CHECK)] ^= 1 << generator.below(8);
    let short = right[..end - 1].to_vec();
    let head = right[..HEAD].to_vec();
    [right, by_kind, wrong, short, head, input]
}

/// Octets behind a frame are left, and the next frame is found by what the
/// first used.
#[test]
fn octets_behind_a_frame() {
    let mut comparison = Comparison::new(45, LONGEST_FRAME);
    for kind in Kind::ALL {
        for behind in 0..=300 {
            let next = comparison.generator.pick(&Kind::ALL);
            let mut input = kind.right_frame(&mut comparison.generator);
            input.extend(next.right_frame(&mut comparison.generator));
            input.extend(comparison.generator.octets(behind));
            let used = read(&input).expect("a right frame").frame.used;
            assert_eq!(used, kind.octets());
            try_read(&mut comparison, kind.name(), &input);
            try_read(&mut comparison, next.name(), &input[used..]);
            assert_eq!(
                read(&input[used..]).map(|of| of.frame.used),
                Ok(next.octets())
            );
        }
    }
    let title = "MAVLink, reading with octets behind";
    comparison.close(title, &Kind::names(), 300, &READ[..1]);
}

/// Every octet at every place of a right frame but the check, which is right or
/// as it was.
#[test]
fn every_octet_at_every_place() {
    const TURNS: usize = 10;
    let mut comparison = Comparison::new(46, LONGEST_FRAME);
    for kind in Kind::ALL {
        for place in (0..kind.octets() - CHECK).flat_map(|place| [place; TURNS]) {
            let mut frame = kind.right_frame(&mut comparison.generator);
            for octet in 0..=255 {
                frame[place] = octet;
                try_read(&mut comparison, kind.name(), &frame);
                kind.seal(&mut frame);
                try_read(&mut comparison, kind.name(), &frame);
            }
        }
    }
    let least = 2 * TURNS * 256 * (HEAD + 1);
    let title = "MAVLink, reading, every octet at every place";
    comparison.close(title, &Kind::names(), least as u64, &READ[2..]);
}

/// Every number of a field in this many messages of each kind that has it.
fn try_every_number(comparison: &mut Comparison, name: &'static str, turns: usize) {
    for (kind, field) in Kind::with_field(name) {
        for number in field.edges.every().repeat(turns) {
            try_number(comparison, kind, field, number);
        }
    }
}

/// One number of a field in a message that is right else, and with each other
/// field out of range beside it; also read behind a wrong check.
fn try_number(comparison: &mut Comparison, kind: Kind, field: &Field<Message>, number: i64) {
    let header = any_header(&mut comparison.generator);
    let alone = kind.with(field, number, header, &mut comparison.generator);
    let beside = kind.beside(field, &alone);
    let mut wrong_check = alone.1.clone();
    wrong_check[kind.octets() - 1] ^= 1;
    try_read(comparison, kind.name(), &wrong_check);
    for (message, frame) in [alone].into_iter().chain(beside) {
        try_each_way(comparison, kind, header, &message, &frame);
    }
}

/// Reads a frame, and writes its message into room that is exact and one short.
fn try_each_way(
    comparison: &mut Comparison,
    kind: Kind,
    header: Header,
    message: &Message,
    frame: &[u8],
) {
    try_read(comparison, kind.name(), frame);
    for room in [kind.octets(), kind.octets() - 1] {
        try_write(comparison, kind, header, message, room);
    }
}

#[test]
fn every_squawk_in_both_directions() {
    let mut comparison = Comparison::new(47, LONGEST_FRAME);
    try_every_number(&mut comparison, "squawk", 1);
    let kinds = [Kind::Dynamic, Kind::Traffic].map(Kind::name);
    let title = "MAVLink, every squawk, read and written";
    comparison.close(title, &kinds, 4 * 65_536, &[]);
    // In 246 also 65535.
    let taken = squawks::CODES + squawks::CODES + 1;
    let refused = 2 * 65_536 - taken;
    comparison.assert_met(&[
        // Each that is taken is read, written back and written.
        ("accepted", 3 * taken),
        ("refused with 8", taken),
        ("refused with 24", 2 * 65_536),
        // In 202 also each beside a fix out of range.
        ("refused with 25", 3 * (refused + 65_536)),
    ]);
}

/// In 246 every emitter is carried.
#[test]
fn every_emitter_in_both_directions() {
    const TURNS: u64 = 20;
    const ALL: u64 = 256 * TURNS;
    const TAKEN: u64 = EMITTERS * TURNS;
    let mut comparison = Comparison::new(52, LONGEST_FRAME);
    try_every_number(&mut comparison, "emitter", TURNS as usize);
    let kinds = [Kind::Static, Kind::Traffic].map(Kind::name);
    let title = "MAVLink, every emitter, read and written";
    comparison.close(title, &kinds, 4 * ALL, &[]);
    // Beside a capability, a size and two offsets in 201, and a squawk in 246.
    let beside = 4 * ALL + ALL;
    comparison.assert_met(&[
        // Each that is taken is read, written back and written.
        ("accepted", 3 * (TAKEN + ALL)),
        ("refused with 8", TAKEN + ALL),
        ("refused with 24", 2 * ALL),
        ("refused with 25", 3 * (ALL - TAKEN + beside)),
    ]);
}

/// The kinds that have a text.
fn with_text() -> impl Iterator<Item = (Kind, &'static TextField<Message>)> {
    let kinds = Kind::ALL.into_iter();
    kinds.filter_map(|kind| Some((kind, kind.text()?)))
}

#[test]
fn texts_in_both_directions() {
    let mut comparison = Comparison::new(48, LONGEST_FRAME);
    for (kind, field) in with_text() {
        for text in texts(&mut comparison.generator) {
            let header = any_header(&mut comparison.generator);
            let mut message = kind.message(&mut comparison.generator);
            let mut frame = compare::mavlink::frame_of(header, &message);
            frame[field.place..field.place + text.len()].copy_from_slice(&text);
            kind.seal(&mut frame);
            try_read(&mut comparison, kind.name(), &frame);

            (field.put)(&mut message, text);
            for room in [kind.octets(), kind.octets() - 1] {
                try_write(&mut comparison, kind, header, &message, room);
            }
        }
    }
    let kinds: Vec<_> = with_text().map(|(kind, _)| kind.name()).collect();
    let title = "MAVLink, texts, read and written";
    comparison.close(title, &kinds, 70_000, &WRITTEN);
}

#[test]
fn a_million_messages_of_each_kind() {
    let mut comparison = Comparison::new(49, LONGEST_FRAME);
    for kind in Kind::ALL {
        for turn in 0..FRAMES {
            let header = any_header(&mut comparison.generator);
            let message = match turn % 2 {
                0 => kind.message(&mut comparison.generator),
                _ => kind.wild_message(&mut comparison.generator),
            };
            let room = comparison.any_room(kind.octets());
            try_write(&mut comparison, kind, header, &message, room);
        }
    }
    let title = "MAVLink, writing at random";
    comparison.close(title, &Kind::names(), FRAMES, &WRITTEN);
}

/// Every field at every edge of its range and its type, in a message that is
/// right else, written into every edge room; what is accepted is read too.
#[test]
fn every_field_at_its_edges() {
    let mut comparison = Comparison::new(50, LONGEST_FRAME);
    for kind in Kind::ALL {
        for field in kind.fields() {
            for value in field.edges.values().repeat(4) {
                let mut message = kind.message(&mut comparison.generator);
                (field.put)(&mut message, value);
                try_everywhere(&mut comparison, kind, &message);
            }
        }
    }
    let title = "MAVLink, every field at its edges";
    comparison.close(title, &Kind::names(), 500, &WRITTEN);
}

fn try_everywhere(comparison: &mut Comparison, kind: Kind, message: &Message) {
    let header = any_header(&mut comparison.generator);
    for room in comparison.edge_rooms(kind.octets()) {
        try_write(comparison, kind, header, message, room);
    }
    let mut frame = [0; LONGEST_FRAME];
    if let Ok(length) = second_write(header, message, &mut frame) {
        try_read(comparison, kind.name(), &frame[..length]);
    }
}
