//! The check and the frame writer on the vectors of document 01 and of the
//! GDL90 public document.

use second::check::check;
use second::frame::{frame, stuffed, write_frame, ESCAPE, FLAG};

/// The longest frame that can be written (document 01, Check and stuffing).
const LONGEST_FRAME: usize = 878;

/// What the room holds before a call, so that every write shows.
const FILL: u8 = 0xA5;

/// Bodies and their frames: document 01, Frames to try, and the heartbeat
/// printed as an example in the GDL90 public ICD Rev A.
const FRAMES: [(&[u8], &[u8]); 5] = [
    (
        &[0x2C, 0x02, 0x2B],
        &[0x7E, 0x2C, 0x02, 0x2B, 0xC5, 0xE7, 0x7E],
    ),
    (&[0x2C, 0x01], &[0x7E, 0x2C, 0x01, 0x01, 0x2C, 0x7E]),
    (&[0x00], &[0x7E, 0x00, 0x00, 0x00, 0x7E]),
    (
        &[0x7D, 0x7E],
        &[0x7E, 0x7D, 0x5D, 0x7D, 0x5E, 0x7D, 0x5E, 0x7D, 0x5D, 0x7E],
    ),
    (
        &[0x00, 0x81, 0x41, 0xDB, 0xD0, 0x08, 0x02],
        &[
            0x7E, 0x00, 0x81, 0x41, 0xDB, 0xD0, 0x08, 0x02, 0xB3, 0x8B, 0x7E,
        ],
    ),
];

/// A body whose every octet is escaped, those of its check too: 7E with 7D at
/// two places, found by search, has check 7E7E.
fn longest_frame_body() -> [u8; 436] {
    let mut body = [FLAG; 436];
    body[90] = ESCAPE;
    body[240] = ESCAPE;
    body
}

/// The remainder by schoolbook division on a row of bits: the divisor is laid
/// under each leading 1 in turn, and the last 16 bits stay.
fn schoolbook_remainder(body: &[u8]) -> u16 {
    let text: String = body.iter().map(|octet| format!("{octet:08b}")).collect();
    let mut row: Vec<u8> = text.bytes().map(|digit| digit - b'0').collect();
    let last = row.len().saturating_sub(16);
    for lead in 0..last {
        if row[lead] == 1 {
            for term in [0, 4, 11, 16] {
                row[lead + term] ^= 1;
            }
        }
    }
    row[last..]
        .iter()
        .fold(0, |value, &bit| value << 1 | u16::from(bit))
}

/// Octets that look random and are the same at every run.
fn octets(seed: u32, length: usize) -> Vec<u8> {
    let mut state = seed.wrapping_mul(2_654_435_761) | 1;
    let mut next = || {
        state ^= state << 13;
        state ^= state >> 17;
        state ^= state << 5;
        (state >> 11) as u8
    };
    (0..length).map(|_| next()).collect()
}

#[test]
fn frames_are_those_of_the_papers() {
    for (body, line) in FRAMES {
        assert_eq!(frame(body), line, "body {body:02X?}");
    }
}

#[test]
fn writer_writes_the_frames_of_the_papers_and_no_octet_more() {
    for (body, line) in FRAMES {
        let mut out = [FILL; 16];
        assert_eq!(write_frame(body, &mut out), Ok(line.len()));
        assert_eq!(&out[..line.len()], line);
        assert!(out[line.len()..].iter().all(|&octet| octet == FILL));
    }
}

#[test]
fn checks_are_those_of_the_papers() {
    assert_eq!(check(&[0x2C, 0x02, 0x2B]), 0xE7C5);
    assert_eq!(check(&[0x2C, 0x01]), 0x2C01);
    assert_eq!(check(&[0x00]), 0x0000);
    assert_eq!(check(&[0x7D, 0x7E]), 0x7D7E);
    assert_eq!(
        check(&[0x00, 0x81, 0x41, 0xDB, 0xD0, 0x08, 0x02]),
        0x8BB3,
        "heartbeat of the GDL90 public document"
    );
    assert_eq!(check(&[]), 0, "it starts at 0");
}

#[test]
fn check_of_up_to_two_octets_is_the_body_itself() {
    // A polynomial below x^16 is its own remainder.
    for value in 0..=u16::MAX {
        assert_eq!(check(&value.to_be_bytes()), value);
    }
    for value in 0..=u8::MAX {
        assert_eq!(check(&[value]), u16::from(value));
    }
}

#[test]
fn check_of_x_to_the_16_is_the_rest_of_the_divisor() {
    assert_eq!(check(&[0x01, 0x00, 0x00]), 0x1021);
    assert_eq!(check(&[0x01, 0x10, 0x21]), 0);
}

#[test]
fn check_is_the_schoolbook_remainder() {
    for length in 0..=440 {
        let body = octets(length as u32 + 1, length);
        assert_eq!(check(&body), schoolbook_remainder(&body), "{length} octets");
    }
}

#[test]
fn four_bits_over_17_places_share_a_check() {
    assert_eq!(check(&[0x2C, 0x02, 0x2B]), 0xE7C5);
    assert_eq!(check(&[0x2D, 0x12, 0x0A]), 0xE7C5);

    let difference = 0x2C_022Bu32 ^ 0x2D_120A;
    assert_eq!(difference.count_ones(), 4);
    let places = 32 - difference.leading_zeros() - difference.trailing_zeros();
    assert_eq!(places, 17);
}

#[test]
fn belief_two_flipped_bits_are_always_caught() {
    // 7E 2C 02 2A C4 E7 7E is a right frame, two bits from that of 2C 02 2B.
    assert_eq!(
        frame(&[0x2C, 0x02, 0x2A]),
        [0x7E, 0x2C, 0x02, 0x2A, 0xC4, 0xE7, 0x7E]
    );
    // 7E 2C 02 2B C4 E7 7E is not.
    assert_ne!(check(&[0x2C, 0x02, 0x2B]), 0xE7C4);
}

#[test]
fn belief_the_check_guards_the_length() {
    assert_eq!(check(&[0x2C, 0x01]), check(&[0x00, 0x2C, 0x01]));
}

#[test]
fn belief_16_zero_bits_follow_the_body() {
    assert_eq!(check(&[0x2C, 0x01]), 0x2C01);
    assert_ne!(check(&[0x2C, 0x01, 0x00, 0x00]), 0x2C01);
}

#[test]
fn only_flag_and_escape_are_stuffed() {
    for octet in 0..=u8::MAX {
        let expected = match octet {
            0x7E => vec![0x7D, 0x5E],
            0x7D => vec![0x7D, 0x5D],
            plain => vec![plain],
        };
        assert_eq!(stuffed(&[octet]), expected);
    }
    assert_eq!(
        stuffed(&[0x7D, 0x5E, 0x7E, 0x5D]),
        [0x7D, 0x5D, 0x5E, 0x7D, 0x5E, 0x5D]
    );
    assert!(stuffed(&[]).is_empty());
}

#[test]
fn check_is_stuffed_with_the_body() {
    // The check of one octet is that octet and 00, so only the check's low
    // octet and the body itself need an escape here.
    assert_eq!(frame(&[0x7E]), [0x7E, 0x7D, 0x5E, 0x7D, 0x5E, 0x00, 0x7E]);
}

#[test]
fn frames_of_bodies_out_of_range_have_the_same_shape() {
    assert_eq!(frame(&[]), [0x7E, 0x00, 0x00, 0x7E]);
    assert_eq!(frame(&[0; 437]).len(), 441);
}

#[test]
fn longest_frame_has_878_octets() {
    let body = longest_frame_body();
    assert_eq!(check(&body), 0x7E7E);
    assert_eq!(frame(&body).len(), LONGEST_FRAME);

    let mut exact = [FILL; LONGEST_FRAME];
    assert_eq!(write_frame(&body, &mut exact), Ok(LONGEST_FRAME));
    assert_eq!(exact[..], frame(&body));

    let mut short = [FILL; LONGEST_FRAME - 1];
    assert_eq!(write_frame(&body, &mut short), Err(8));
    assert_eq!(short, [FILL; LONGEST_FRAME - 1]);
}

#[test]
fn writer_refuses_7_by_length_alone() {
    for length in [0, 437, 438, 1000] {
        let mut out = [FILL; 1100];
        assert_eq!(write_frame(&vec![0x2C; length], &mut out), Err(7));
        assert_eq!(out, [FILL; 1100]);
    }
    for length in 1..=436 {
        let mut out = [FILL; LONGEST_FRAME];
        let body = octets(length as u32, length);
        assert_eq!(write_frame(&body, &mut out), Ok(frame(&body).len()));
    }
}

#[test]
fn writer_tests_7_before_8() {
    assert_eq!(write_frame(&[], &mut []), Err(7));
    assert_eq!(write_frame(&[0; 437], &mut []), Err(7));
    assert_eq!(write_frame(&[0; 436], &mut []), Err(8));
}

#[test]
fn writer_measures_room_by_this_very_frame() {
    for (body, line) in FRAMES {
        for room in 0..line.len() {
            let mut out = vec![FILL; room];
            assert_eq!(write_frame(body, &mut out), Err(8));
            assert!(out.iter().all(|&octet| octet == FILL));
        }
        let mut out = vec![FILL; line.len()];
        assert_eq!(write_frame(body, &mut out), Ok(line.len()));
        assert_eq!(out, line);
    }
}
