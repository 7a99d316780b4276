//! Published messages: the traffic report and the heartbeat printed in the
//! GDL90 public ICD Rev A, and the squawks and emitters of documents 01 and 02.

use ostrogosz::messages::{
    read_message, send_message, write_message, Control, Heartbeat, Initialization, Message, Report,
};
use ostrogosz::{ReadRefusal, SendRefusal, WriteRefusal, LONGEST_BODY, LONGEST_FRAME};

/// What the output holds before a call.
const HELD: u8 = 0xA5;

/// The ICD's traffic report: N825V at 5000 feet, 123 knots, climbing 64 feet
/// per minute.
const TRAFFIC: [u8; 28] = [
    0x14, 0x00, 0xAB, 0x45, 0x49, 0x1F, 0xEF, 0x15, 0xA8, 0x89, 0x78, 0x0F, 0x09, 0xA9, 0x07, 0xB0,
    0x01, 0x20, 0x01, 0x4E, 0x38, 0x32, 0x35, 0x56, 0x20, 0x20, 0x20, 0x00,
];

const REPORT: Report = Report {
    alert: 0,
    address_type: 0,
    address: 0xAB_45_49,
    latitude: 0x1F_EF_15,
    longitude: 0xA8_89_78 - 0x1_00_00_00,
    altitude: 240,
    miscellaneous: 9,
    nic: 10,
    nacp: 9,
    speed: 123,
    vertical_rate: 1,
    track: 0x20,
    emitter: 1,
    callsign: *b"N825V   ",
    emergency: 0,
    spare: 0,
};

/// Reads the body, writes it back into room that is exact, and finds nothing
/// changed behind it.
fn assert_both_ways(body: &[u8], message: Message<'_>) {
    assert_eq!(read_message(body), Ok(message));
    let mut output = [HELD; LONGEST_BODY + 4];
    let room = &mut output[..body.len()];
    assert_eq!(write_message(&message, room), Ok(body.len()));
    assert_eq!(&output[..body.len()], body);
    assert!(output[body.len()..].iter().all(|&octet| octet == HELD));
}

#[test]
fn the_published_traffic_report() {
    assert_both_ways(&TRAFFIC, Message::Traffic(REPORT));
    // The same octets under the other ID are the own ship's.
    let mut ownship = TRAFFIC;
    ownship[0] = 10;
    assert_both_ways(&ownship, Message::Ownship(REPORT));
}

#[test]
fn the_published_heartbeat() {
    let heartbeat = Message::Heartbeat(Heartbeat {
        status_1: 0x81,
        status_2: 0x41,
        time_stamp: 0xD0DB,
        counts: 0x0802,
    });
    let frame = [
        0x7E, 0x00, 0x81, 0x41, 0xDB, 0xD0, 0x08, 0x02, 0xB3, 0x8B, 0x7E,
    ];
    assert_both_ways(&frame[1..8], heartbeat);
    let mut buffer = [HELD; LONGEST_FRAME];
    assert_eq!(send_message(&heartbeat, &mut buffer), Ok(frame.len()));
    assert_eq!(buffer[..frame.len()], frame);
    assert!(buffer[frame.len()..].iter().all(|&octet| octet == HELD));
}

fn control(squawk: u16) -> Message<'static> {
    Message::Control(Control {
        squawk,
        identity: *b"N825V   ",
        ..Control::default()
    })
}

#[test]
fn squawk_7777_is_accepted_and_7778_refused() {
    let mut body = [HELD; 18];
    assert_eq!(write_message(&control(7777), &mut body), Ok(18));
    assert_both_ways(&body, control(7777));

    let accepted = body;
    assert_eq!(
        write_message(&control(7778), &mut body),
        Err(WriteRefusal::Field)
    );
    assert_eq!(body, accepted);
    body[7..9].copy_from_slice(&7778_u16.to_le_bytes());
    assert_eq!(read_message(&body), Err(ReadRefusal::Field));
}

/// Whole bodies; 7 is 0007.
#[test]
fn squawks_by_hand() {
    let codes: [(u16, &[u8; 18]); 6] = [
        (7, b"\x2D\x01\0\0\0\0\0\x07\x00\0N825V   "),
        (777, b"\x2D\x01\0\0\0\0\0\x09\x03\0N825V   "),
        (1200, b"\x2D\x01\0\0\0\0\0\xB0\x04\0N825V   "),
        (1277, b"\x2D\x01\0\0\0\0\0\xFD\x04\0N825V   "),
        (7770, b"\x2D\x01\0\0\0\0\0\x5A\x1E\0N825V   "),
        (7777, b"\x2D\x01\0\0\0\0\0\x61\x1E\0N825V   "),
    ];
    for (squawk, body) in codes {
        assert_both_ways(body, control(squawk));
    }
    let no_codes: [(u16, &[u8; 18]); 9] = [
        (8, b"\x2D\x01\0\0\0\0\0\x08\x00\0N825V   "),
        (80, b"\x2D\x01\0\0\0\0\0\x50\x00\0N825V   "),
        (800, b"\x2D\x01\0\0\0\0\0\x20\x03\0N825V   "),
        (1280, b"\x2D\x01\0\0\0\0\0\x00\x05\0N825V   "),
        (7778, b"\x2D\x01\0\0\0\0\0\x62\x1E\0N825V   "),
        (8000, b"\x2D\x01\0\0\0\0\0\x40\x1F\0N825V   "),
        (10_000, b"\x2D\x01\0\0\0\0\0\x10\x27\0N825V   "),
        (65_534, b"\x2D\x01\0\0\0\0\0\xFE\xFF\0N825V   "),
        (65_535, b"\x2D\x01\0\0\0\0\0\xFF\xFF\0N825V   "),
    ];
    for (squawk, body) in no_codes {
        assert_refused(body, control(squawk));
    }
}

fn initialization(emitter: u8) -> Message<'static> {
    Message::Initialization(Initialization {
        emitter,
        callsign: *b"CRANE 7 ",
        ..Initialization::default()
    })
}

/// Whole bodies, of obstacles too: a point 19, a cluster 20, a line 21.
#[test]
fn emitters_by_hand() {
    let taken: [(u8, &[u8; 19]); 4] = [
        (0, b"\x75\x41\x01\0\0\0\0\x00CRANE 7 \0\0\0"),
        (19, b"\x75\x41\x01\0\0\0\0\x13CRANE 7 \0\0\0"),
        (20, b"\x75\x41\x01\0\0\0\0\x14CRANE 7 \0\0\0"),
        (21, b"\x75\x41\x01\0\0\0\0\x15CRANE 7 \0\0\0"),
    ];
    for (emitter, body) in taken {
        assert_both_ways(body, initialization(emitter));
    }
    let refused: [(u8, &[u8; 19]); 4] = [
        (22, b"\x75\x41\x01\0\0\0\0\x16CRANE 7 \0\0\0"),
        (39, b"\x75\x41\x01\0\0\0\0\x27CRANE 7 \0\0\0"),
        (128, b"\x75\x41\x01\0\0\0\0\x80CRANE 7 \0\0\0"),
        (255, b"\x75\x41\x01\0\0\0\0\xFFCRANE 7 \0\0\0"),
    ];
    for (emitter, body) in refused {
        assert_refused(body, initialization(emitter));
    }
}

/// Neither reads the body nor writes or sends the message, with whatever room,
/// and finds nothing changed.
fn assert_refused(body: &[u8], message: Message<'_>) {
    assert_eq!(read_message(body), Err(ReadRefusal::Field), "{body:02X?}");
    let mut output = [HELD; LONGEST_FRAME];
    for room in [0, body.len()] {
        let written = write_message(&message, &mut output[..room]);
        assert_eq!(written, Err(WriteRefusal::Field), "{message:?}");
    }
    let sent = send_message(&message, &mut output);
    assert_eq!(sent, Err(SendRefusal::Field), "{message:?}");
    assert_eq!(output, [HELD; LONGEST_FRAME]);
}

/// Every frame of a message fits the buffer, the longest too: an uplink all
/// escaped but for its ID.
#[test]
fn the_longest_frame_of_a_message_fits() {
    let payload = [0x7E; 435];
    let mut buffer = [HELD; LONGEST_FRAME];
    let length = send_message(&Message::Uplink(&payload), &mut buffer);
    assert!((875..=877).contains(&length.expect("room")), "{length:?}");
    let short = send_message(&Message::Uplink(&payload[1..]), &mut buffer);
    assert_eq!(short, Err(SendRefusal::Field));
}

#[test]
fn refusals_come_in_the_order_of_the_table() {
    let refusals: [(&[u8], u8); 6] = [
        (&[], 10),
        // A wrong ID, length, version and squawk; then one fault fewer each.
        (b"\x2E\x02\0\0\0\0\0\xFF\xFF\0        \0", 10),
        (b"\x2D\x02\0\0\0\0\0\xFF\xFF\0        \0", 11),
        (b"\x2D\x02\0\0\0\0\0\xFF\xFF\0        ", 12),
        (b"\x2D\x01\0\0\0\0\0\xFF\xFF\0        ", 13),
        (b"\x2D\x01\0\0\0\0\0\x61\x1E\0 A      ", 13),
    ];
    for (body, number) in refusals {
        let refusal = read_message(body).expect_err("a fault");
        assert_eq!(refusal.number(), number, "{body:02X?}");
    }
    // 13 is tested before 8.
    assert_eq!(
        write_message(&control(7778), &mut []),
        Err(WriteRefusal::Field)
    );
    let short = write_message(&control(7777), &mut [0; 17]);
    assert_eq!(short, Err(WriteRefusal::OutputLength));
}
