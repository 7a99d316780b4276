//! The receiver on the frames of document 01 and at the edges of its rules.

use second::frame::{frame, stuffed, LONGEST_BODY};
use second::receiver::{Answer, Counts, Receiver, STORE};

use Answer::{Delivered, Nothing, Refused};

/// What the room holds before a call, so that every write shows.
const FILL: u8 = 0xA5;

/// Feeds a line with the same room for every call, and gives the last call's
/// answer with what was lent to it.
fn feed(receiver: &mut Receiver, line: &[u8], room: usize) -> (Answer, Vec<u8>) {
    let mut last = (Nothing, vec![FILL; room]);
    for &octet in line {
        let mut out = vec![FILL; room];
        let answer = receiver.receive(octet, &mut out);
        last = (answer, out);
    }
    last
}

/// Every answer but `Nothing` that a fresh receiver gives for a line.
fn answers(line: &[u8]) -> Vec<Answer> {
    let mut receiver = Receiver::new();
    let mut out = [FILL; LONGEST_BODY];
    line.iter()
        .map(|&octet| receiver.receive(octet, &mut out))
        .filter(|&answer| answer != Nothing)
        .collect()
}

/// The answer at the closing flag of one stretch, and the counts after it.
fn stretch(octets: &[u8]) -> (Answer, Counts) {
    let mut receiver = Receiver::new();
    feed(&mut receiver, &[0x7E], LONGEST_BODY);
    feed(&mut receiver, octets, LONGEST_BODY);
    let (answer, _) = feed(&mut receiver, &[0x7E], LONGEST_BODY);
    (answer, receiver.counts())
}

/// Some octets and then others.
fn joined(first: &[u8], then: &[u8]) -> Vec<u8> {
    [first, then].concat()
}

#[test]
fn frames_of_the_papers_are_delivered() {
    let cases: [(&[u8], &[u8]); 7] = [
        (
            &[0x7E, 0x2C, 0x02, 0x2B, 0xC5, 0xE7, 0x7E],
            &[0x2C, 0x02, 0x2B],
        ),
        (&[0x7E, 0x2C, 0x01, 0x01, 0x2C, 0x7E], &[0x2C, 0x01]),
        (&[0x7E, 0x00, 0x00, 0x00, 0x7E], &[0x00]),
        (
            &[0x7E, 0x7D, 0x5D, 0x7D, 0x5E, 0x7D, 0x5E, 0x7D, 0x5D, 0x7E],
            &[0x7D, 0x7E],
        ),
        // Two flipped bits, one of them in the check.
        (
            &[0x7E, 0x2C, 0x02, 0x2A, 0xC4, 0xE7, 0x7E],
            &[0x2C, 0x02, 0x2A],
        ),
        // Four flipped bits over 17 places of the body.
        (
            &[0x7E, 0x2D, 0x12, 0x0A, 0xC5, 0xE7, 0x7E],
            &[0x2D, 0x12, 0x0A],
        ),
        (
            &[
                0x7E, 0x00, 0x81, 0x41, 0xDB, 0xD0, 0x08, 0x02, 0xB3, 0x8B, 0x7E,
            ],
            &[0x00, 0x81, 0x41, 0xDB, 0xD0, 0x08, 0x02],
        ),
    ];
    for (line, body) in cases {
        let (answer, out) = feed(&mut Receiver::new(), line, 16);
        assert_eq!(answer, Delivered(body.len()), "line {line:02X?}");
        assert_eq!(&out[..body.len()], body);
        assert!(out[body.len()..].iter().all(|&octet| octet == FILL));
    }
}

#[test]
fn frames_of_the_papers_are_refused() {
    let cases: [(&[u8], u8); 4] = [
        (&[0x7E, 0x2C, 0x02, 0x2B, 0xC4, 0xE7, 0x7E], 5),
        (&[0x7E, 0x7D, 0x00, 0x7E], 1),
        (&[0x7E, 0x7D, 0x7E], 2),
        (&[0x7E, 0x01, 0x01, 0x7E], 4),
    ];
    for (line, number) in cases {
        let (answer, out) = feed(&mut Receiver::new(), line, 16);
        assert_eq!(answer, Refused(number), "line {line:02X?}");
        assert_eq!(out, [FILL; 16]);
    }
}

#[test]
fn empty_stretches_give_no_answer() {
    assert_eq!(answers(&[0x7E, 0x7E]), []);
    assert_eq!(answers(&[0x7E; 9]), []);
}

#[test]
fn longest_frame_is_delivered_and_one_octet_more_is_3() {
    let body = [0x2C; LONGEST_BODY];
    let (answer, out) = feed(&mut Receiver::new(), &frame(&body), LONGEST_BODY);
    assert_eq!(answer, Delivered(436));
    assert_eq!(out, body);

    let longer = [0x2C; LONGEST_BODY + 1];
    let (answer, out) = feed(&mut Receiver::new(), &frame(&longer), 1000);
    assert_eq!(answer, Refused(3));
    assert_eq!(out, [FILL; 1000]);
}

#[test]
fn unstuffed_octets_are_counted_and_not_line_octets() {
    // 872 octets of the body on the line, 436 in the store.
    let body = [0x7E; LONGEST_BODY];
    assert_eq!(answers(&frame(&body)), [Delivered(436)]);
    assert_eq!(answers(&frame(&[0x7D; 437])), [Refused(3)]);
}

#[test]
fn output_of_436_octets_is_never_6() {
    for length in 1..=LONGEST_BODY {
        let line = frame(&vec![0x35; length]);
        assert_eq!(answers(&line), [Delivered(length)]);
    }
}

#[test]
fn belief_a_closing_flag_is_used_up() {
    let line = [
        0x7E, 0x2C, 0x01, 0x01, 0x2C, 0x7E, 0x2C, 0x01, 0x01, 0x2C, 0x7E,
    ];
    assert_eq!(answers(&line), [Delivered(2), Delivered(2)]);
}

#[test]
fn belief_the_check_guards_the_length() {
    let line = [0x7E, 0x00, 0x2C, 0x01, 0x01, 0x2C, 0x7E];
    assert_eq!(answers(&line), [Delivered(3)]);
}

#[test]
fn belief_unstuffing_accepts_what_follows_7d() {
    // Were the octet behind 7D taken xor 20, each of these would be delivered.
    for octet in (0..=u8::MAX).filter(|octet| ![0x5D, 0x5E, 0x7E].contains(octet)) {
        let (answer, _) = stretch(&[0x7D, octet, octet ^ 0x20, 0x00]);
        assert_eq!(answer, Refused(1), "7D {octet:02X}");
    }
    assert_eq!(stretch(&[0x7D, 0x5D, 0x7D, 0x5D, 0x00]).0, Delivered(1));
    assert_eq!(stretch(&[0x7D, 0x5E, 0x7D, 0x5E, 0x00]).0, Delivered(1));
}

#[test]
fn nothing_is_stored_or_answered_before_the_first_flag() {
    let mut receiver = Receiver::new();
    for octet in [0x2C, 0x01, 0x01, 0x2C, 0x7D, 0x00, 0x7D] {
        assert_eq!(receiver.receive(octet, &mut [FILL; 8]), Nothing);
        assert_eq!(receiver.store(), &[0; STORE]);
    }
    assert_eq!(receiver.receive(0x7E, &mut [FILL; 8]), Nothing);
    let expected = Counts {
        flags: 1,
        skipped: 7,
        ..Counts::default()
    };
    assert_eq!(receiver.counts(), expected);
}

#[test]
fn faults_at_a_full_store() {
    let full = [0x2C; STORE];
    let cases: [(&[u8], u8); 9] = [
        (&[0x2C], 3),
        (&[0x7D, 0x5D], 3),
        (&[0x7D, 0x5E], 3),
        (&[0x7D, 0x00], 1),
        (&[0x7D, 0x7D], 1),
        (&[0x7D], 2),
        (&[0x2C, 0x7D, 0x00], 3),
        (&[0x2C, 0x7D], 3),
        (&[0x7D, 0x00, 0x2C], 1),
    ];
    for (tail, number) in cases {
        let line = joined(&full, tail);
        let (answer, counts) = stretch(&line);
        assert_eq!(answer, Refused(number), "438 octets, then {tail:02X?}");
        assert_eq!(counts.refused, line.len() as u32);
    }
    assert_eq!(stretch(&full).0, Refused(5));
}

#[test]
fn first_fault_from_the_left_is_kept() {
    assert_eq!(stretch(&[0x7D, 0x00, 0x7D]).0, Refused(1));
    assert_eq!(stretch(&joined(&[0x7D, 0x00], &[0; 900])).0, Refused(1));
    assert_eq!(stretch(&joined(&[0; 439], &[0x7D, 0x00])).0, Refused(3));
    // A good frame behind the fault belongs to the same stretch.
    let tail = [0x7D, 0x7D, 0x2C, 0x01, 0x01, 0x2C];
    assert_eq!(stretch(&tail).0, Refused(1));
}

#[test]
fn refusal_2_comes_before_4_and_5() {
    assert_eq!(stretch(&[0x7D]).0, Refused(2));
    assert_eq!(stretch(&[0x01, 0x7D]).0, Refused(2));
    assert_eq!(stretch(&[0x2C, 0x01, 0x01, 0x2C, 0x7D]).0, Refused(2));
    assert_eq!(stretch(&[0x2C, 0x01, 0xFF, 0xFF, 0x7D]).0, Refused(2));
}

#[test]
fn refusal_4_counts_unstuffed_octets() {
    assert_eq!(stretch(&[0x00]).0, Refused(4));
    assert_eq!(stretch(&[0x00, 0x00]).0, Refused(4));
    assert_eq!(stretch(&[0x7D, 0x5E, 0x7D, 0x5D]).0, Refused(4));
    assert_eq!(stretch(&[0x00, 0x00, 0x00]).0, Delivered(1));
}

#[test]
fn refusal_4_and_5_come_before_6() {
    let cases: [(&[u8], u8); 3] = [
        (&[0x7E, 0x01, 0x01, 0x7E], 4),
        (&[0x7E, 0x2C, 0x02, 0x2B, 0xC4, 0xE7, 0x7E], 5),
        (&[0x7E, 0x2C, 0x02, 0x2B, 0xC5, 0xE7, 0x7E], 6),
    ];
    for (line, number) in cases {
        let (answer, _) = feed(&mut Receiver::new(), line, 0);
        assert_eq!(answer, Refused(number));
    }
}

#[test]
fn room_is_that_of_the_closing_flag() {
    let mut receiver = Receiver::new();
    let line = [0x7E, 0x2C, 0x02, 0x2B, 0xC5, 0xE7];
    feed(&mut receiver, &line, 0);
    let (answer, out) = feed(&mut receiver, &[0x7E], 3);
    assert_eq!(answer, Delivered(3));
    assert_eq!(out, [0x2C, 0x02, 0x2B]);

    feed(&mut receiver, &line[1..], 100);
    let (answer, out) = feed(&mut receiver, &[0x7E], 2);
    assert_eq!(answer, Refused(6));
    assert_eq!(out, [FILL; 2]);

    // The refused frame is lost.
    let (answer, out) = feed(&mut receiver, &[0x7E], 100);
    assert_eq!((answer, out), (Nothing, vec![FILL; 100]));
    let expected = Counts {
        flags: 4,
        delivered: 5,
        refused: 5,
        ..Counts::default()
    };
    assert_eq!(receiver.counts(), expected);
}

#[test]
fn calls_without_an_answer_write_nothing() {
    let mut receiver = Receiver::new();
    for octet in [0x01, 0x7E, 0x7E, 0x2C, 0x7D, 0x5E, 0x7D, 0x00, 0x01] {
        let mut out = [FILL; 8];
        assert_eq!(receiver.receive(octet, &mut out), Nothing);
        assert_eq!(out, [FILL; 8]);
    }
}

#[test]
fn store_holds_the_unstuffed_octets_and_zero_behind_them() {
    let mut receiver = Receiver::new();
    let line = [0x7E, 0x2C, 0x7D, 0x5E, 0x7D, 0x5D, 0x01, 0x7D, 0x00, 0x02];
    let stored = [0, 1, 1, 2, 2, 3, 4, 4, 4, 4];
    for (&octet, length) in line.iter().zip(stored) {
        receiver.receive(octet, &mut []);
        let mut expected = [0; STORE];
        expected[..length].copy_from_slice(&[0x2C, 0x7E, 0x7D, 0x01][..length]);
        assert_eq!(receiver.store(), &expected);
    }
    receiver.receive(0x7E, &mut []);
    assert_eq!(receiver.store(), &[0; STORE]);
}

#[test]
fn a_flag_leaves_one_record_whatever_came_before() {
    let mut opened = Receiver::new();
    opened.receive(0x7E, &mut []);
    opened.set_counts(Counts::default());

    let lines: [&[u8]; 8] = [
        &[0x7E],
        &[0x01, 0x7D],
        &[0x7E, 0x7D],
        &[0x7E, 0x7D, 0x00],
        &[0x7E, 0x01, 0x01],
        &[0x7E, 0x2C, 0x01, 0x01, 0x2C],
        &[0x7E, 0x2C, 0x01, 0x01, 0x2D],
        &joined(&[0x7E], &[0x55; 500]),
    ];
    for line in lines {
        for room in [0, 2, LONGEST_BODY] {
            let mut receiver = Receiver::new();
            feed(&mut receiver, line, room);
            feed(&mut receiver, &[0x7E], room);
            receiver.set_counts(Counts::default());
            assert_eq!(receiver, opened, "line {line:02X?}, room {room}");
        }
    }
}

#[test]
fn neither_escape_nor_fault_outlives_its_flag() {
    // A pending escape would make 7E of the 5E.
    let body = [0x5E, 0x01];
    let frame = frame(&body);
    for before in [&[0x7E, 0x7D][..], &[0x7E, 0x7D, 0x7D], &[0x7D]] {
        let mut receiver = Receiver::new();
        feed(&mut receiver, before, 8);
        let (answer, out) = feed(&mut receiver, &frame, 2);
        assert_eq!(answer, Delivered(2));
        assert_eq!(out, body);
    }
}

#[test]
fn the_other_bodys_check_is_5_after_any_line_and_for_any_room() {
    // 2C 02 2B with the check of 2C 02 2A.
    let wrong = joined(
        &joined(&[0x7E], &stuffed(&[0x2C, 0x02, 0x2B, 0xC4, 0xE7])),
        &[0x7E],
    );
    let befores: [&[u8]; 6] = [
        &[],
        &[0x7D],
        &[0x7E],
        &[0x7E, 0x7D],
        &[0x7E, 0x7D, 0x01],
        &joined(&[0x7E], &[0x11; 600]),
    ];
    for before in befores {
        for room in [0, 2, 3, LONGEST_BODY] {
            let line = joined(before, &wrong);
            let (answer, out) = feed(&mut Receiver::new(), &line, room);
            assert_eq!(answer, Refused(5));
            assert_eq!(out, vec![FILL; room]);
        }
    }
}

#[test]
fn counts_take_line_octets_with_escapes_and_ignored_octets() {
    let mut receiver = Receiver::new();
    feed(&mut receiver, &[0x01, 0x02], 8);
    feed(&mut receiver, &frame(&[0x7D, 0x7E]), 8);
    feed(&mut receiver, &[0x7D, 0x00, 0x01, 0x7D, 0x5E, 0x7E], 8);
    feed(&mut receiver, &[0x7E, 0x7E], 8);
    feed(&mut receiver, &[0x7D, 0x5E, 0x7D], 8);
    let expected = Counts {
        flags: 5,
        delivered: 8,
        refused: 5,
        skipped: 2,
        open: 3,
    };
    assert_eq!(receiver.counts(), expected);
    assert_eq!(receiver.counts().bytes(), 23);
}

#[test]
fn every_count_runs_round() {
    let mut receiver = Receiver::with_counts(Counts {
        flags: u32::MAX,
        delivered: u32::MAX - 1,
        refused: u32::MAX,
        skipped: u32::MAX,
        open: 0,
    });
    let line = [
        0x55, 0x55, 0x7E, 0x2C, 0x01, 0x01, 0x2C, 0x7E, 0x01, 0x01, 0x01, 0x7E,
    ];
    feed(&mut receiver, &line, 2);
    let expected = Counts {
        flags: 2,
        delivered: 2,
        refused: 2,
        skipped: 1,
        open: 0,
    };
    assert_eq!(receiver.counts(), expected);
    assert_eq!(receiver.counts().bytes(), 7);
}

#[test]
fn open_count_that_runs_round_hides_no_stretch() {
    for (tail, expected) in [(0x2C, Delivered(2)), (0x2D, Refused(5))] {
        let mut receiver = Receiver::new();
        feed(&mut receiver, &[0x7E, 0x2C, 0x01, 0x01], 2);
        receiver.set_counts(Counts {
            open: u32::MAX,
            ..Counts::default()
        });
        feed(&mut receiver, &[tail], 2);
        assert_eq!(receiver.counts(), Counts::default());
        let (answer, _) = feed(&mut receiver, &[0x7E], 2);
        assert_eq!(answer, expected);
    }
}

#[test]
fn sum_of_counts_runs_round() {
    let counts = Counts {
        flags: u32::MAX,
        delivered: u32::MAX,
        refused: u32::MAX,
        skipped: u32::MAX,
        open: u32::MAX,
    };
    assert_eq!(counts.bytes(), u32::MAX - 4);
}
