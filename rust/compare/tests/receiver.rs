//! The receiver, by the octet and by the slice, against the second program.

use compare::bodies::give_check;
use compare::lines::{checked, seal, Kind};
use compare::lockstep::Lockstep;
use second::frame::{frame, stuffed, ESCAPE, FLAG};

/// Octets of each kind of line in each of the two long comparisons.
const OCTETS: usize = 2_000_000;

/// Octets of one line: long enough for stretches of every kind.
const LINE: usize = 5_000;

#[test]
fn lines_of_every_kind() {
    let mut lockstep = Lockstep::new(1);
    for kind in Kind::ALL {
        for _ in 0..OCTETS / LINE {
            let line = kind.line(LINE, &mut lockstep.generator);
            lockstep.start();
            lockstep.line(kind.name(), &line);
        }
    }
    lockstep.close("receiver, fresh for each line", least_octets());
}

/// One receiver for all lines, whose counts are set back to run round often.
#[test]
fn counts_that_run_round() {
    let mut lockstep = Lockstep::new(2);
    for turn in 0..Kind::ALL.len() * OCTETS / LINE {
        let kind = Kind::ALL[turn % Kind::ALL.len()];
        let line = kind.line(LINE, &mut lockstep.generator);
        for part in line.chunks(LINE / 10) {
            lockstep.run_counts_round();
            lockstep.line(kind.name(), part);
        }
    }
    lockstep.close("receiver, counts about 2^32", least_octets());
}

fn least_octets() -> u64 {
    (Kind::ALL.len() * OCTETS) as u64
}

/// Before the first flag nothing is stored, and a flag ends the hunt.
#[test]
fn hunting() {
    let mut lockstep = Lockstep::new(3);
    for length in 0..500 {
        let mut line = lockstep.generator.octets(length);
        line.retain(|&octet| octet != FLAG);
        // One stretch for each answer; half of the rooms hold 200 octets.
        line.extend(frame(&[0x2C; 200]));
        line.extend([ESCAPE, FLAG, FLAG, 0x01, 0x01, FLAG]);
        line.extend([0x01, 0x02, 0x03, FLAG, 0x00, ESCAPE, 0x00, FLAG]);
        line.extend([0; 439]);
        line.push(FLAG);
        lockstep.start();
        if length % 2 == 1 {
            lockstep.run_counts_round();
        }
        lockstep.line("octets of lines that begin in noise", &line);
    }
    lockstep.close("receiver, hunting", 500 * 450);
}

/// What is put at a place of a stretch, before the octet that stands there.
const FAULTS: [&[u8]; 5] = [
    &[],
    &[ESCAPE, 0x00],
    &[ESCAPE, 0x5C],
    &[ESCAPE, 0x5F],
    &[ESCAPE, ESCAPE],
];

/// What is put at the end of a stretch.
const ENDS: [&[u8]; 4] = [&[], &[ESCAPE], &[ESCAPE, 0x00], &[0; 9]];

/// Every fault at every place about the edges: stretches of a few octets and
/// of about 438, an escaped octet at each place, a fault there and one behind.
#[test]
fn faults_at_the_edges() {
    let mut lockstep = Lockstep::new(4);
    for length in (0..=5).chain(434..=441) {
        for place in edge_places(length) {
            for standing in [0x00, FLAG, ESCAPE] {
                let octets = with_octet_at(length, place, standing, &mut lockstep);
                try_faults(&octets, place, &mut lockstep);
            }
        }
    }
    lockstep.close("receiver, faults at the edges", 15_000_000);
}

/// The first and the last places, and the one behind the last.
fn edge_places(length: usize) -> Vec<usize> {
    (0..=length)
        .filter(|&place| place < 3 || place + 5 > length)
        .collect()
}

/// Unstuffed octets with a right check and this octet at this place.
fn with_octet_at(length: usize, place: usize, octet: u8, lockstep: &mut Lockstep) -> Vec<u8> {
    let mut octets = checked(length, &mut lockstep.generator);
    if place >= length {
        return octets;
    }
    octets[place] = octet;
    if length > 2 {
        let (body, sent) = octets.split_at_mut(length - 2);
        // The check can't be chosen but by the body.
        if place >= length - 2 {
            give_check(body, u16::from_le_bytes([sent[0], sent[1]]));
        }
        seal(&mut octets);
    }
    octets
}

fn try_faults(octets: &[u8], place: usize, lockstep: &mut Lockstep) {
    for fault in FAULTS {
        for end in ENDS {
            let (before, behind) = octets.split_at(place);
            let stretch = [&stuffed(before), fault, &stuffed(behind), end].concat();
            try_rooms(&stretch, octets.len(), lockstep);
        }
    }
}

/// The stretch as it is and with its last octet changed, in rooms about its
/// body, before a frame that must be delivered whatever came before.
fn try_rooms(stretch: &[u8], length: usize, lockstep: &mut Lockstep) {
    for changed in [0, 1] {
        let mut line = vec![FLAG];
        line.extend(stretch);
        if let [_, .., last] = &mut line[..] {
            *last ^= changed;
        }
        line.extend([FLAG, 0x2C, 0x02, 0x2B, 0xC5, 0xE7, FLAG]);
        let body = length.saturating_sub(2);
        for room in [0, body.saturating_sub(1), body, body + 1, 436] {
            lockstep.start();
            lockstep.line_in_room("octets of stretches at the edges", &line, room);
        }
    }
}
