//! Check and frame writer against the second program.

use compare::bodies::{longest_frame, Kind};
use compare::comparison::{lending, Comparison};
use compare::generator::Generator;
use compare::tally::Tally;
use second::frame::frame;

/// The longest body tried, past the longest accepted.
const LONGEST_BODY: usize = 440;

/// The largest room tried, past the longest frame.
const LARGEST_ROOM: usize = 880;

/// Lengths at which an answer changes.
const EDGE_LENGTHS: [usize; 6] = [0, 1, 2, 435, 436, 437];

/// What the writer answers.
const WRITTEN: [&str; 3] = ["accepted", "refused with 7", "refused with 8"];

/// Writes one body on both sides.
fn try_body(comparison: &mut Comparison, kind: Kind, body: &[u8], room: usize) {
    let ours = |output: &mut [u8]| {
        let written = lending(body, |body| ostrogosz::write_frame(body, output));
        written.map_err(|refusal| refusal.number())
    };
    let theirs = |output: &mut [u8]| second::frame::write_frame(body, output);
    comparison.write(kind.name(), room, ours, theirs, &body);
}

/// Rooms at which an answer changes for this body.
fn edge_rooms(body: &[u8]) -> Vec<usize> {
    let exact = frame(body).len();
    let mut rooms = vec![0, 877, 878, 879, 880];
    rooms.extend([exact - 1, exact, exact + 1]);
    rooms.retain(|&room| room <= LARGEST_ROOM);
    rooms
}

/// A length that is an edge in one case of eight.
fn any_length(generator: &mut Generator) -> usize {
    match generator.below(8) {
        0 => generator.pick(&EDGE_LENGTHS),
        _ => generator.below(LONGEST_BODY + 1),
    }
}

/// A room that is an edge in half of the cases.
fn any_room(body: &[u8], generator: &mut Generator) -> usize {
    match generator.below(2) {
        0 => generator.pick(&edge_rooms(body)),
        _ => generator.below(LARGEST_ROOM + 1),
    }
}

#[test]
fn every_length_in_every_room() {
    let mut comparison = Comparison::new(1, LARGEST_ROOM);
    for length in 0..=LONGEST_BODY {
        for room in 0..=LARGEST_ROOM {
            let kind = Kind::ALL[(length + room) % Kind::ALL.len()];
            let body = kind.body(length, &mut comparison.generator);
            try_body(&mut comparison, kind, &body, room);
        }
    }
    let title = "writer, every length in every room";
    comparison.close(title, &[], 441 * 881, &WRITTEN);
}

#[test]
fn every_length_and_kind_at_the_edges() {
    let mut comparison = Comparison::new(2, LARGEST_ROOM);
    for length in 0..=LONGEST_BODY {
        for kind in Kind::ALL {
            let body = kind.body(length, &mut comparison.generator);
            for room in edge_rooms(&body) {
                try_body(&mut comparison, kind, &body, room);
            }
        }
    }
    for room in edge_rooms(&longest_frame()) {
        try_body(&mut comparison, Kind::EscapeHeavy, &longest_frame(), room);
    }
    comparison.close("writer, edges", &[], 441 * 5 * 7, &WRITTEN);
}

#[test]
fn a_million_bodies() {
    const BODIES: u64 = 1_000_000;
    let mut comparison = Comparison::new(3, LARGEST_ROOM);
    for _ in 0..BODIES {
        let kind = comparison.generator.pick(&Kind::ALL);
        let length = any_length(&mut comparison.generator);
        let body = kind.body(length, &mut comparison.generator);
        let room = any_room(&body, &mut comparison.generator);
        try_body(&mut comparison, kind, &body, room);
    }
    let title = "writer, bodies and rooms at random";
    comparison.close(title, &[], BODIES, &WRITTEN);
}

#[test]
fn checks() {
    let mut generator = Generator::new(4);
    let mut tally = Tally::default();
    for turn in 0..1000 {
        for length in 0..=LONGEST_BODY {
            let kind = Kind::ALL[turn % Kind::ALL.len()];
            let body = kind.body(length, &mut generator);
            let (ours, theirs) = (ostrogosz::frame_check(&body), second::check::check(&body));
            let difference =
                (ours != theirs).then(|| format!("{ours:04X}, {theirs:04X}: body {body:02X?}"));
            tally.count(kind.name(), difference);
        }
    }
    tally.close("check", 441_000);
}

/// The check has no limit of length.
#[test]
fn checks_of_long_bodies() {
    let mut generator = Generator::new(5);
    for length in [437, 438, 1000, 4096, 65_535, 65_536, 1_000_003] {
        let body = generator.octets(length);
        assert_eq!(ostrogosz::frame_check(&body), second::check::check(&body));
    }
}
