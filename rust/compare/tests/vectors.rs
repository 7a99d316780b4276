//! The published vectors: the heartbeat printed in the GDL90 public ICD Rev A
//! and the bodies of document 01, Frames to try.

use compare::bodies::longest_frame;
use ostrogosz::{
    frame_check, write_frame, Answer, Counts, FrameRefusal, ReceiveRefusal, Receiver, Refusal,
    LONGEST_BODY, LONGEST_FRAME,
};

/// Bodies and their frames.
const FRAMES: [(&[u8], &[u8]); 5] = [
    (
        &[0x00, 0x81, 0x41, 0xDB, 0xD0, 0x08, 0x02],
        &[
            0x7E, 0x00, 0x81, 0x41, 0xDB, 0xD0, 0x08, 0x02, 0xB3, 0x8B, 0x7E,
        ],
    ),
    (
        &[0x2C, 0x02, 0x2B],
        &[0x7E, 0x2C, 0x02, 0x2B, 0xC5, 0xE7, 0x7E],
    ),
    (&[0x2C, 0x01], &[0x7E, 0x2C, 0x01, 0x01, 0x2C, 0x7E]),
    (&[0x00], &[0x7E, 0x00, 0x00, 0x00, 0x7E]),
    (
        &[0x7D, 0x7E],
        &[0x7E, 0x7D, 0x5D, 0x7D, 0x5E, 0x7D, 0x5E, 0x7D, 0x5D, 0x7E],
    ),
];

/// What the output holds before a call.
const HELD: u8 = 0xA5;

#[test]
fn frames_are_the_published_ones() {
    for (body, frame) in FRAMES {
        let mut output = [HELD; 16];
        assert_eq!(write_frame(body, &mut output), Ok(frame.len()));
        assert_eq!(&output[..frame.len()], frame);
        assert!(output[frame.len()..].iter().all(|&octet| octet == HELD));
    }
}

#[test]
fn checks_are_the_published_ones() {
    assert_eq!(frame_check(FRAMES[0].0), 0x8BB3);
    assert_eq!(frame_check(&[0x2C, 0x02, 0x2B]), 0xE7C5);
    assert_eq!(frame_check(&[0x2D, 0x12, 0x0A]), 0xE7C5);
    assert_eq!(frame_check(&[0x2C, 0x01]), 0x2C01);
    assert_eq!(frame_check(&[0x00, 0x2C, 0x01]), 0x2C01);
    assert_eq!(frame_check(&[0x7D, 0x7E]), 0x7D7E);
    assert_eq!(frame_check(&[0x00]), 0);
    assert_eq!(frame_check(&[]), 0);
}

#[test]
fn the_longest_frame_fits_its_room_exactly() {
    let mut output = [HELD; LONGEST_FRAME];
    let body = longest_frame();
    assert_eq!(body.len(), LONGEST_BODY);
    assert_eq!(write_frame(&body, &mut output), Ok(LONGEST_FRAME));
    let short = &mut output[1..];
    assert_eq!(write_frame(&body, short), Err(FrameRefusal::OutputLength));
}

#[test]
fn refusals_have_the_numbers_of_the_table_and_write_nothing() {
    let long = [0; LONGEST_BODY + 1];
    let calls: [(&[u8], usize, u8); 5] = [
        (&[], 878, 7),
        (&long, 878, 7),
        // 7 is tested before 8.
        (&[], 0, 7),
        (&[0x2C, 0x01], 5, 8),
        (&[0x2C, 0x01], 0, 8),
    ];
    for (body, room, number) in calls {
        let mut output = [HELD; 878];
        let refusal = write_frame(body, &mut output[..room]).unwrap_err();
        assert_eq!(refusal.number(), number);
        assert_eq!(output, [HELD; 878]);
    }
}

/// What a fresh receiver answers at the last octet of a line, by octet and by
/// slice; it answers nothing before.
fn last_answer(line: &[u8], output: &mut [u8]) -> Answer {
    let mut by_octet = Receiver::new();
    let (last, before) = line.split_last().unwrap();
    for &octet in before {
        assert_eq!(by_octet.receive(octet, output), Answer::Nothing);
    }
    let answer = by_octet.receive(*last, output);

    let mut by_slice = Receiver::new();
    let taken = by_slice.receive_slice(line, output);
    assert_eq!((taken.answer, taken.octets), (answer, line.len()));
    answer
}

#[test]
fn the_published_frames_are_delivered() {
    for (body, frame) in FRAMES {
        let mut output = [HELD; 16];
        let answer = last_answer(frame, &mut output);
        assert_eq!(answer, Answer::Delivered(body.len()));
        assert_eq!(&output[..body.len()], body);
        assert!(output[body.len()..].iter().all(|&octet| octet == HELD));
    }
    // Two flipped bits, one of them in the check, may share it.
    let line = [0x7E, 0x2C, 0x02, 0x2A, 0xC4, 0xE7, 0x7E];
    assert_eq!(last_answer(&line, &mut [0; 436]), Answer::Delivered(3));
}

#[test]
fn the_published_refusals_are_given_and_write_nothing() {
    let lines: [(&[u8], ReceiveRefusal); 4] = [
        (&[0x7E, 0x7D, 0x00, 0x7E], ReceiveRefusal::BadEscape),
        (&[0x7E, 0x7D, 0x7E], ReceiveRefusal::EscapeBeforeFlag),
        (&[0x7E, 0x01, 0x01, 0x7E], ReceiveRefusal::TooShort),
        (
            &[0x7E, 0x2C, 0x02, 0x2B, 0xC4, 0xE7, 0x7E],
            ReceiveRefusal::WrongCheck,
        ),
    ];
    for (line, refusal) in lines {
        let mut output = [HELD; 436];
        assert_eq!(last_answer(line, &mut output), Answer::Refused(refusal));
        assert_eq!(output, [HELD; 436]);
    }
    assert_eq!(last_answer(&[0x7E, 0x7E], &mut []), Answer::Nothing);
}

#[test]
fn the_longest_stretch_is_delivered_and_one_octet_more_is_refused() {
    let body = [0; LONGEST_BODY];
    let mut line = [HELD; LONGEST_FRAME];
    let length = write_frame(&body, &mut line).unwrap();
    let answer = last_answer(&line[..length], &mut [HELD; 436]);
    assert_eq!(answer, Answer::Delivered(436));
    let answer = last_answer(&line[..length], &mut [HELD; 435]);
    assert_eq!(answer, Answer::Refused(ReceiveRefusal::Room));

    let mut longer = line[..length].to_vec();
    longer.insert(1, 0);
    let answer = last_answer(&longer, &mut [HELD; 440]);
    assert_eq!(answer, Answer::Refused(ReceiveRefusal::TooLong));
}

/// The line that document 01 has its lister print.
#[test]
fn the_listed_line_is_counted_as_published() {
    let line = [
        0x7E, 0x2C, 0x01, 0x01, 0x2C, 0x7E, 0x2C, 0x02, 0x2B, 0xC5, 0xE7, 0x7E, 0x7D, 0x7E,
    ];
    let mut receiver = Receiver::new();
    let mut answers = Vec::new();
    let mut taken = 0;
    while taken < line.len() {
        let step = receiver.receive_slice(&line[taken..], &mut [0; 436]);
        answers.push(step.answer);
        taken += step.octets;
    }
    let refused = Answer::Refused(ReceiveRefusal::EscapeBeforeFlag);
    let due = [Answer::Delivered(2), Answer::Delivered(3), refused];
    assert_eq!(answers, due);
    let counts = Counts {
        flags: 4,
        delivered: 9,
        refused: 1,
        skipped: 0,
        open: 0,
    };
    assert_eq!(receiver.counts(), counts);
    assert_eq!(counts.octets(), 14);
}

#[test]
fn refusals_say_their_number() {
    let said = Refusal::BodyLength.to_string();
    assert_eq!(said, "refusal 7: a body has 1 to 436 octets");
    let said = Refusal::OutputLength.to_string();
    assert_eq!(said, "refusal 8: the output is shorter than what it gets");
}
