//! Published MAVLink frames: the two packets of source document 001, the
//! published value of its check, what document 01 says of a status, and the
//! squawks and emitters of documents 01 and 02.

use ostrogosz::mavlink::{
    read_frame, write_frame, Dynamic, Frame, Header, Message, Static, Status, Traffic,
    LONGEST_FRAME,
};
use ostrogosz::{MavlinkReadRefusal, MavlinkWriteRefusal};

/// What the output holds before a call.
const HELD: u8 = 0xA5;

const STATIC: [u8; 27] = [
    0xFE, 0x13, 0x2F, 0x00, 0x00, 0xC9, 0x34, 0x12, 0xA0, 0x25, 0x00, 0x00, 0x50, 0x49, 0x4E, 0x47,
    0x32, 0x30, 0x32, 0x30, 0x00, 0x12, 0x01, 0x04, 0x01, 0x11, 0xFA,
];

const DYNAMIC: [u8; 50] = [
    0xFE, 0x2A, 0x59, 0x00, 0x00, 0xCA, 0x95, 0x74, 0x85, 0x45, 0x23, 0x13, 0x1F, 0x16, 0x53, 0xD9,
    0x45, 0xC8, 0x00, 0x00, 0x00, 0x00, 0xDD, 0xBB, 0x05, 0x00, 0x27, 0x32, 0x01, 0x00, 0x6E, 0x00,
    0x0F, 0x27, 0x00, 0x00, 0xD4, 0xFE, 0x82, 0x00, 0x08, 0x00, 0xB0, 0x04, 0x03, 0x05, 0x00, 0x00,
    0x0D, 0x57,
];

/// A header that gives this sequence and else zeros, as both packets do.
fn sequence(sequence: u8) -> Header {
    Header {
        sequence,
        ..Header::default()
    }
}

/// Reads the frame, with octets behind it too, writes it back into room that is
/// exact, and finds nothing changed behind it.
fn assert_both_ways(octets: &[u8], frame: Frame) {
    assert_eq!(read_frame(octets), Ok(frame));
    assert_eq!(read_frame(&[octets, &[0xFE; 3]].concat()), Ok(frame));
    let mut output = [HELD; LONGEST_FRAME + 4];
    let room = &mut output[..octets.len()];
    let written = write_frame(&frame.message, frame.header, room);
    assert_eq!(written, Ok(octets.len()));
    assert_eq!(&output[..octets.len()], octets);
    assert!(output[octets.len()..].iter().all(|&octet| octet == HELD));
}

/// Its text says alwEncode 0; its octets decide.
#[test]
fn the_published_static_packet() {
    assert_both_ways(&STATIC, static_data(0x12));
}

/// What the static packet says, but for the emitter.
fn static_data(emitter: u8) -> Frame {
    let message = Message::Static(Static {
        icao: 0xA0_12_34,
        integrity: 0x25,
        stall_speed: 0,
        callsign: *b"PING2020",
        capability: 0,
        emitter,
        alw_encode: 1,
        gps_lat_offs: 4,
        gps_lon_offs: 1,
    });
    Frame {
        header: sequence(0x2F),
        message,
        used: 27,
    }
}

/// Its text says control 06; its octets decide.
#[test]
fn the_published_dynamic_packet() {
    assert_both_ways(&DYNAMIC, dynamic(1200));
}

/// What the dynamic packet says, but for the squawk.
fn dynamic(squawk: u16) -> Frame {
    let message = Message::Dynamic(Dynamic {
        utc_time: 1_166_374_037,
        latitude: 371_135_267,
        longitude: -934_946_477,
        alt_pres: 0,
        alt_gnss: 375_773,
        acc_horiz: 78_375,
        acc_vert: 110,
        acc_vel: 9999,
        vel_vert: 0,
        ns_vog: -300,
        ew_vog: 130,
        state: 8,
        squawk,
        fix_type: 3,
        num_sats: 5,
        em_status: 0,
        control: 0,
    });
    Frame {
        header: sequence(0x59),
        message,
        used: 50,
    }
}

/// The library exports no check of its own; the second program's, to which the
/// comparisons hold it, gives the value that is published for nine digits.
#[test]
fn the_published_check() {
    assert_eq!(second::mavlink::x25(b"123456789"), 0x6F91);
    assert_eq!(second::mavlink::x25(&[]), 0xFFFF);
    for (frame, extra) in [(&STATIC[..], 126), (&DYNAMIC[..], 7)] {
        let (checked, sent) = frame[1..].split_at(frame.len() - 3);
        let check = second::mavlink::x25(&[checked, &[extra]].concat());
        assert_eq!(check.to_le_bytes(), sent);
    }
}

/// Failures are bits 1 to 4; bit 0, which says OK, and bits 5 to 7 are none.
#[test]
fn failures_of_a_status() {
    let cases = [
        (0x00, 0, None),
        (0x01, 0, None),
        (0x02, 1, Some(1)),
        (0x04, 1, Some(2)),
        (0x08, 1, Some(3)),
        (0x10, 1, Some(4)),
        (0x18, 2, Some(3)),
        (0x1E, 4, Some(1)),
        (0xE1, 0, None),
        (0xFF, 4, Some(1)),
    ];
    for (status, failures, lowest_failure) in cases {
        let message = Message::Status(Status { status });
        let header = sequence(status);
        let mut octets = [HELD; 9];
        assert_eq!(write_frame(&message, header, &mut octets), Ok(9));
        let frame = Frame {
            header,
            message,
            used: 9,
        };
        assert_both_ways(&octets, frame);
        let counted = Status { status }.failures();
        assert_eq!((counted.count, counted.lowest), (failures, lowest_failure));
    }
}

#[test]
fn refusals_come_in_the_order_of_the_table() {
    // Every fault at once, and then one fault fewer each.
    let refusals: [(&[u8], u8); 7] = [
        (&[], 20),
        (&[0xFD, 0x02, 0x00, 0x00, 0x00], 21),
        (&[0xFE, 0x02, 0x00, 0x00, 0x00], 20),
        (&[0xFE, 0x02, 0x00, 0x00, 0x00, 0xCC], 22),
        (&[0xFE, 0x02, 0x00, 0x00, 0x00, 0xCA], 23),
        (&[0xFE, 0x2A, 0x00, 0x00, 0x00, 0xCA], 20),
        (&DYNAMIC[..49], 20),
    ];
    for (input, number) in refusals {
        let refusal = read_frame(input).expect_err("a fault");
        assert_eq!(refusal.number(), number, "{input:02X?}");
    }
    // A squawk of 7778 behind a wrong check, and behind a right one.
    let mut input = DYNAMIC;
    input[42..44].copy_from_slice(&7778_u16.to_le_bytes());
    assert_eq!(read_frame(&input), Err(MavlinkReadRefusal::MavlinkCheck));
    compare::mavlink::Kind::Dynamic.seal(&mut input);
    assert_eq!(read_frame(&input), Err(MavlinkReadRefusal::MavlinkField));
}

#[test]
fn squawk_7777_is_accepted_and_7778_refused_before_the_room() {
    let with = |squawk| {
        Message::Dynamic(Dynamic {
            squawk,
            ..Dynamic::default()
        })
    };
    let mut output = [HELD; LONGEST_FRAME];
    let header = Header::default();
    let refused = write_frame(&with(7778), header, &mut output[..0]);
    assert_eq!(refused, Err(MavlinkWriteRefusal::MavlinkField));
    let short = write_frame(&with(7777), header, &mut output[..49]);
    assert_eq!(short, Err(MavlinkWriteRefusal::OutputLength));
    assert_eq!(output, [HELD; LONGEST_FRAME]);
    let written = write_frame(&with(7777), header, &mut output);
    assert_eq!(written, Ok(LONGEST_FRAME));
    assert_eq!(
        read_frame(&output).map(|frame| frame.message),
        Ok(with(7777))
    );
}

/// A squawk, its two octets, and the check behind it in the dynamic packet and
/// in a traffic report that has zeros else.
type Squawk = (u16, [u8; 2], [u8; 2], [u8; 2]);

/// 7 is 0007.
const CODES: [Squawk; 6] = [
    (7, [0x07, 0x00], [0xEE, 0xD0], [0xA5, 0xFC]),
    (777, [0x09, 0x03], [0xB2, 0x5A], [0x04, 0x96]),
    (1200, [0xB0, 0x04], [0x0D, 0x57], [0x93, 0x2F]),
    (1277, [0xFD, 0x04], [0x44, 0xBE], [0xC0, 0x85]),
    (7770, [0x5A, 0x1E], [0x7C, 0xF7], [0xCB, 0xC3]),
    (7777, [0x61, 0x1E], [0xB4, 0x57], [0xFA, 0xA5]),
];

const NO_CODES: [Squawk; 8] = [
    (8, [0x08, 0x00], [0x1A, 0xC9], [0x10, 0x5D]),
    (80, [0x50, 0x00], [0x39, 0x65], [0x34, 0x35]),
    (800, [0x20, 0x03], [0x08, 0x78], [0x85, 0xC2]),
    (1280, [0x00, 0x05], [0x71, 0x03], [0x31, 0x81]),
    (7778, [0x62, 0x1E], [0xDA, 0xFF], [0x84, 0x7D]),
    (8000, [0x40, 0x1F], [0xC9, 0xAF], [0xE3, 0xDE]),
    (10_000, [0x10, 0x27], [0x8E, 0x3B], [0xBE, 0x7B]),
    (65_534, [0xFE, 0xFF], [0xAC, 0xFB], [0x3A, 0x87]),
];

/// No squawk, in a traffic report alone.
const NONE: Squawk = (65_535, [0xFF, 0xFF], [0x79, 0x64], [0x10, 0xCF]);

/// The dynamic packet with this squawk, and what it says.
fn dynamic_with((squawk, octets, check, _): Squawk) -> (Vec<u8>, Frame) {
    let packet = [&DYNAMIC[..42], &octets, &DYNAMIC[44..48], &check].concat();
    (packet, dynamic(squawk))
}

/// A traffic report with this squawk, and what it says.
fn traffic_with((squawk, octets, _, check): Squawk) -> (Vec<u8>, Frame) {
    let head = [0xFE, 0x26, 0x00, 0x00, 0x00, 0xF6];
    let packet = [&head[..], &[0; 24], &octets, &[0; 12], &check].concat();
    let message = Message::Traffic(Traffic {
        squawk,
        ..Traffic::default()
    });
    let frame = Frame {
        header: sequence(0),
        message,
        used: 46,
    };
    (packet, frame)
}

#[test]
fn squawks_by_hand() {
    for code in CODES {
        for (packet, frame) in [dynamic_with(code), traffic_with(code)] {
            assert_both_ways(&packet, frame);
        }
    }
    for code in NO_CODES {
        for (packet, frame) in [dynamic_with(code), traffic_with(code)] {
            assert_refused(&packet, frame);
        }
    }
    let (packet, frame) = traffic_with(NONE);
    assert_both_ways(&packet, frame);
    let (packet, frame) = dynamic_with(NONE);
    assert_refused(&packet, frame);
}

/// The static packet with this emitter and check.
fn static_with(emitter: u8, check: [u8; 2]) -> Vec<u8> {
    [&STATIC[..21], &[emitter], &STATIC[22..25], &check].concat()
}

/// Of obstacles too: a point 19, a cluster 20, a line 21.
#[test]
fn emitters_by_hand() {
    let taken = [
        (0, [0xD9, 0x58]),
        (19, [0x55, 0xF1]),
        (20, [0x89, 0xC1]),
        (21, [0xCD, 0xCA]),
    ];
    for (emitter, check) in taken {
        assert_both_ways(&static_with(emitter, check), static_data(emitter));
    }
    let refused = [
        (22, [0x01, 0xD7]),
        (39, [0x94, 0x08]),
        (128, [0x8C, 0xD2]),
        (255, [0x83, 0xAD]),
    ];
    for (emitter, check) in refused {
        assert_refused(&static_with(emitter, check), static_data(emitter));
    }
}

/// Neither reads the packet, nor writes the message with whatever room, and
/// finds nothing changed; a wrong check is found before the field.
fn assert_refused(packet: &[u8], frame: Frame) {
    let refusal = Err(MavlinkReadRefusal::MavlinkField);
    assert_eq!(read_frame(packet), refusal, "{packet:02X?}");
    let mut wrong = packet.to_vec();
    wrong[packet.len() - 1] ^= 1;
    let refusal = Err(MavlinkReadRefusal::MavlinkCheck);
    assert_eq!(read_frame(&wrong), refusal, "{packet:02X?}");
    let mut output = [HELD; LONGEST_FRAME];
    for room in [0, packet.len()] {
        let written = write_frame(&frame.message, frame.header, &mut output[..room]);
        let refusal = Err(MavlinkWriteRefusal::MavlinkField);
        assert_eq!(written, refusal, "{:?}", frame.message);
    }
    assert_eq!(output, [HELD; LONGEST_FRAME]);
}
