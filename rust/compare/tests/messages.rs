//! The messages of the UCP line, read, written and sent, against the second
//! program.

use compare::bodies::Kind as Body;
use compare::both_sides::{read, send, write};
use compare::comparison::Comparison;
use compare::edges::{beside, put_one_wild_octets, Field, EMITTERS};
use compare::messages::{kind, names, with_field, Kind, KINDS, UPLINK};
use compare::squawks;
use compare::texts::{texts, TextField};
use second::messages::{Message, Uplink};

/// Bodies of each kind in the two long comparisons.
const BODIES: u64 = 1_000_000;

/// The longest body tried, past the longest of a kind.
const LONGEST_BODY: usize = 440;

/// Octets of a sender's buffer.
const BUFFER: usize = 878;

/// What a reader answers.
const READ: [&str; 5] = [
    "accepted",
    "refused with 10",
    "refused with 11",
    "refused with 12",
    "refused with 13",
];

/// What a writer answers, and a sender but for the last.
const WRITTEN: [&str; 3] = ["accepted", "refused with 13", "refused with 8"];

/// Reads one body on both sides.
fn try_read(comparison: &mut Comparison, kind: &'static str, body: &[u8]) {
    comparison.read(kind, read(body), second::messages::read(body), &body);
}

/// Writes one message on both sides.
fn try_write(comparison: &mut Comparison, kind: &Kind, message: &Message, room: usize) {
    comparison.write(
        kind.name,
        room,
        |output| write(message, output),
        |output| second::messages::write(message, output),
        message,
    );
}

/// Sends one message on both sides: the second program writes the body and then
/// its frame.
fn try_send(comparison: &mut Comparison, kind: &Kind, message: &Message) {
    let second_send = |buffer: &mut [u8]| {
        let mut body = [0; 436];
        let length = second::messages::write(message, &mut body)?;
        second::frame::write_frame(&body[..length], buffer)
    };
    comparison.write(
        kind.name,
        BUFFER,
        |buffer| send(message, buffer),
        second_send,
        message,
    );
}

/// A body of the kind: at random behind its head, right, or right but for a
/// field or a few octets and perhaps its length.
fn any_body(kind: &Kind, comparison: &mut Comparison) -> Vec<u8> {
    let generator = &mut comparison.generator;
    match generator.below(4) {
        0 => kind.random_body(kind.octets, generator),
        1 => kind.right_body(generator),
        _ => {
            let mut body = kind.right_body(generator);
            if generator.below(4) == 0 {
                put_one_wild_octets(&mut body, kind.fields, generator);
            }
            for _ in 0..generator.below(3) {
                let place = generator.below(body.len());
                body[place] = generator.number() as u8;
            }
            let length = body.len() + generator.pick(&[0, 0, 0, 0, 0, 0, 0, 1]);
            body.resize(length - generator.pick(&[0, 0, 0, 0, 0, 0, 0, 1]), 0);
            body
        }
    }
}

#[test]
fn a_million_bodies_of_each_kind() {
    let mut comparison = Comparison::new(21, 0);
    for kind in KINDS {
        for _ in 0..BODIES {
            let body = any_body(kind, &mut comparison);
            try_read(&mut comparison, kind.name, &body);
        }
    }
    comparison.close("reading at random", &names(|_| true), BODIES, &READ);
}

/// Every length about those of the kinds.
fn lengths() -> impl Iterator<Item = usize> {
    (0..=40).chain(433..=LONGEST_BODY)
}

#[test]
fn every_id_at_every_length() {
    let mut comparison = Comparison::new(22, 0);
    for id in 0..=255 {
        let kind = KINDS.into_iter().find(|kind| kind.head[0] == id);
        for length in lengths().flat_map(|length| [length; 20]) {
            let mut body = match kind {
                Some(kind) => kind.random_body(length, &mut comparison.generator),
                None => comparison.generator.octets(length),
            };
            if let Some(first) = body.first_mut() {
                *first = id;
            }
            try_read(
                &mut comparison,
                kind.map_or("unknown", |kind| kind.name),
                &body,
            );
        }
    }
    let due = ["accepted", "refused with 10", "refused with 11"];
    comparison.close("reading, every ID and length", &names(|_| true), 900, &due);
}

/// Every octet in place of each octet of the head, before contents that are
/// right or not, at lengths that are right or not.
#[test]
fn every_octet_in_the_head() {
    let mut comparison = Comparison::new(23, 0);
    for kind in KINDS.into_iter().filter(|kind| kind.head.len() > 1) {
        for place in 0..kind.head.len() {
            for octet in 0..=255 {
                let right = kind.right_body(&mut comparison.generator);
                let random = kind.random_body(kind.octets, &mut comparison.generator);
                for mut body in [right, random] {
                    body[place] = octet;
                    body.push(0);
                    for length in [place + 1, body.len() - 2, body.len() - 1, body.len()] {
                        try_read(&mut comparison, kind.name, &body[..length]);
                    }
                }
            }
        }
    }
    let kinds = names(|kind| kind.head.len() > 1);
    comparison.close("reading, every octet in the head", &kinds, 4000, &READ);
}

/// Every octet at every place of a right body.
#[test]
fn every_octet_at_every_place() {
    let mut comparison = Comparison::new(24, 0);
    for kind in KINDS {
        let turns = if kind.is_uplink() { 1 } else { 20 };
        for place in (0..kind.octets).flat_map(|place| [place].repeat(turns)) {
            let mut body = kind.right_body(&mut comparison.generator);
            for octet in 0..=255 {
                body[place] = octet;
                try_read(&mut comparison, kind.name, &body);
            }
        }
    }
    let title = "reading, every octet at every place";
    comparison.close(title, &names(|_| true), 256 * 60, &READ);
}

/// Every pair of neighbouring octets of the kinds that have ranges: so every
/// squawk, and every two characters beside each other.
#[test]
fn every_pair_of_octets() {
    let mut comparison = Comparison::new(25, 0);
    for kind in KINDS.into_iter().filter(|kind| kind.ranged) {
        for place in 0..kind.octets - 1 {
            let mut body = kind.right_body(&mut comparison.generator);
            for pair in 0..=u16::MAX {
                body[place..place + 2].copy_from_slice(&pair.to_le_bytes());
                try_read(&mut comparison, kind.name, &body);
            }
        }
    }
    let title = "reading, every pair of octets";
    comparison.close(title, &names(|kind| kind.ranged), BODIES, &READ);
}

/// Every number of a field in this many messages of each kind that has it.
fn try_every_number(comparison: &mut Comparison, name: &'static str, turns: usize) {
    for (kind, field) in with_field(name) {
        for number in field.edges.every().repeat(turns) {
            try_number(comparison, kind, field, number);
        }
    }
}

/// One number of a field in a message that is right else, and with each other
/// field out of range beside it; also read behind every fault that is found
/// before.
fn try_number(comparison: &mut Comparison, kind: &Kind, field: &Field<Message>, number: i64) {
    let alone = kind.with(field, number, &mut comparison.generator);
    let beside = beside(kind.fields, field, &alone);
    try_faults_before(comparison, kind, &alone.1);
    for (message, body) in [alone].into_iter().chain(beside) {
        try_each_way(comparison, kind, &message, &body);
    }
}

/// Reads a body with an octet missing, and with each octet of its head behind
/// the ID wrong.
fn try_faults_before(comparison: &mut Comparison, kind: &Kind, body: &[u8]) {
    try_read(comparison, kind.name, &body[..body.len() - 1]);
    for place in 1..kind.head.len() {
        let mut wrong = body.to_vec();
        wrong[place] ^= 1;
        try_read(comparison, kind.name, &wrong);
    }
}

/// Reads a body, writes its message into room that is exact and one short, and
/// sends it.
fn try_each_way(comparison: &mut Comparison, kind: &Kind, message: &Message, body: &[u8]) {
    try_read(comparison, kind.name, body);
    for room in [kind.octets, kind.octets - 1] {
        try_write(comparison, kind, message, room);
    }
    try_send(comparison, kind, message);
}

#[test]
fn every_squawk_in_both_directions() {
    let mut comparison = Comparison::new(36, BUFFER);
    try_every_number(&mut comparison, "squawk", 1);
    let title = "every squawk, read, written and sent";
    comparison.close(title, &[kind(45).name], 6 * 65_536, &[]);
    comparison.assert_met(&[
        // Each code is read, written and sent.
        ("accepted", 3 * squawks::CODES),
        ("refused with 8", squawks::CODES),
        ("refused with 11", 65_536),
        ("refused with 12", 65_536),
        ("refused with 13", 4 * (65_536 - squawks::CODES)),
    ]);
}

/// In 10 and 20 every emitter is carried.
#[test]
fn every_emitter_in_both_directions() {
    const TURNS: u64 = 20;
    const ALL: u64 = 256 * TURNS;
    const TAKEN: u64 = EMITTERS * TURNS;
    let mut comparison = Comparison::new(51, BUFFER);
    try_every_number(&mut comparison, "emitter", TURNS as usize);
    let kinds = [10, 20, 117].map(|id| kind(id).name);
    let title = "every emitter, read, written and sent";
    comparison.close(title, &kinds, 5 * ALL, &[]);
    comparison.assert_met(&[
        // Each that is taken is read, written and sent.
        ("accepted", 3 * (TAKEN + 2 * ALL)),
        ("refused with 8", TAKEN + 2 * ALL),
        ("refused with 11", 3 * ALL),
        // Signature and subtype of 117.
        ("refused with 12", 2 * ALL),
        // In 117 also each beside a size out of range.
        ("refused with 13", 4 * (ALL - TAKEN + ALL)),
    ]);
}

/// The kinds that have a text.
fn with_text() -> impl Iterator<Item = (&'static Kind, &'static TextField<Message>)> {
    let kinds = KINDS.into_iter();
    kinds.filter_map(|kind| Some((kind, kind.text?)))
}

#[test]
fn texts_in_both_directions() {
    let mut comparison = Comparison::new(26, LONGEST_BODY);
    for (kind, field) in with_text() {
        for text in texts(&mut comparison.generator) {
            let mut message = kind.message(&mut comparison.generator);
            let mut body = compare::messages::body_of(&message);
            body[field.place..field.place + text.len()].copy_from_slice(&text);
            try_read(&mut comparison, kind.name, &body);

            (field.put)(&mut message, text);
            try_write(&mut comparison, kind, &message, kind.octets);
            try_write(&mut comparison, kind, &message, kind.octets - 1);
        }
    }
    let kinds: Vec<_> = with_text().map(|(kind, _)| kind.name).collect();
    comparison.close("texts, read and written", &kinds, 70_000, &WRITTEN);
}

#[test]
fn a_million_messages_of_each_kind() {
    let mut short = Comparison::new(27, 40);
    let mut long = Comparison::new(28, LONGEST_BODY);
    for kind in KINDS {
        let comparison = if kind.is_uplink() {
            &mut long
        } else {
            &mut short
        };
        for turn in 0..BODIES {
            let message = match turn % 2 {
                0 => kind.message(&mut comparison.generator),
                _ => kind.wild_message(&mut comparison.generator),
            };
            let room = comparison.any_room(kind.octets);
            try_write(comparison, kind, &message, room);
        }
    }
    let (uplink, others) = (names(Kind::is_uplink), names(|kind| !kind.is_uplink()));
    short.close("writing at random", &others, BODIES, &WRITTEN);
    long.close("writing at random, uplink", &uplink, BODIES, &WRITTEN);
}

/// Every field at every edge of its range, its bits and its type, in a message
/// that is right else, written into every edge room and sent.
#[test]
fn every_field_at_its_edges() {
    let mut comparison = Comparison::new(29, BUFFER);
    for kind in KINDS {
        for field in kind.fields {
            for value in field.edges.values().repeat(4) {
                let mut message = kind.message(&mut comparison.generator);
                (field.put)(&mut message, value);
                try_everywhere(&mut comparison, kind, &message);
            }
        }
    }
    for length in 0..=LONGEST_BODY {
        let octets = comparison.generator.octets(length);
        try_everywhere(&mut comparison, &UPLINK, &uplink(octets));
    }
    let title = "writing and sending, every field at its edges";
    comparison.close(title, &names(|_| true), 500, &WRITTEN);
}

fn try_everywhere(comparison: &mut Comparison, kind: &Kind, message: &Message) {
    for room in comparison.edge_rooms(kind.octets) {
        try_write(comparison, kind, message, room);
    }
    try_send(comparison, kind, message);
}

fn uplink(octets: Vec<u8>) -> Message {
    Message::Uplink(Uplink { octets })
}

#[test]
fn sending_at_random() {
    const MESSAGES: u64 = 50_000;
    let mut comparison = Comparison::new(30, BUFFER);
    for kind in KINDS {
        for turn in 0..MESSAGES {
            let message = match (turn % 4, kind.is_uplink()) {
                (0, _) => kind.wild_message(&mut comparison.generator),
                (1, true) => uplink(Body::EscapeHeavy.body(435, &mut comparison.generator)),
                _ => kind.message(&mut comparison.generator),
            };
            try_send(&mut comparison, kind, &message);
        }
    }
    let due = &WRITTEN[..2];
    comparison.close("sending at random", &names(|_| true), MESSAGES, due);
}
