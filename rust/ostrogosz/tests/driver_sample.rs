//! What stands in `samples/driver.bin`, on which both example drivers are run,
//! and in the answers that are due.

use ostrogosz::messages::{
    Control, GeometricAltitude, Heartbeat, Initialization, Message, Request, send_message,
    write_message,
};
use ostrogosz::{LONGEST_FRAME, write_frame};

const CAPTURE: &[u8] = include_bytes!("../../../samples/driver.bin");
const ANSWERS: &[u8] = include_bytes!("../../../samples/driver.answers");

/// The traffic report that the GDL90 public ICD prints.
const TRAFFIC: [u8; 28] = [
    0x14, 0x00, 0xAB, 0x45, 0x49, 0x1F, 0xEF, 0x15, 0xA8, 0x89, 0x78, 0x0F, 0x09, 0xA9, 0x07, 0xB0,
    0x01, 0x20, 0x01, 0x4E, 0x38, 0x32, 0x35, 0x56, 0x20, 0x20, 0x20, 0x00,
];

const FIRST: Control = Control {
    es_enabled: true,
    mode_s: true,
    mode_c: false,
    mode_a: true,
    ident: false,
    air_ground: 2,
    baro_checked: true,
    altitude: 1_524_000,
    squawk: 1200,
    emergency: 0,
    identity: *b"N825V   ",
};

/// Its altitude is all escaped.
const SECOND: Control = Control {
    altitude: 0x7E7D_7D7E,
    squawk: 7,
    identity: *b"PRIVATE ",
    ..FIRST
};

/// The frame of a body, right or not.
fn frame(body: &[u8]) -> Vec<u8> {
    let mut output = [0; LONGEST_FRAME];
    let length = write_frame(body, &mut output).expect("a body of a frame");
    output[..length].to_vec()
}

/// The frame of a message.
fn sent(message: Message<'_>) -> Vec<u8> {
    let mut buffer = [0; LONGEST_FRAME];
    let length = send_message(&message, &mut buffer).expect("a message in range");
    buffer[..length].to_vec()
}

fn request(requested_id: u8) -> Vec<u8> {
    sent(Message::Request(Request { requested_id }))
}

/// The frame of the first Control with one octet changed.
fn changed_control(place: usize, octet: u8) -> Vec<u8> {
    let mut body = [0; 18];
    write_message(&Message::Control(FIRST), &mut body).expect("a message in range");
    body[place] = octet;
    frame(&body)
}

fn heartbeat() -> Message<'static> {
    Message::Heartbeat(Heartbeat {
        status_1: 0x81,
        status_2: 0x41,
        time_stamp: 0xD0DB,
        counts: 0x0802,
    })
}

/// Messages of every kind that the drivers tell apart, refused ones, and an
/// open stretch at the end.
fn capture() -> Vec<u8> {
    let mut ownship = TRAFFIC;
    ownship[0] = 10;
    let initialization = Initialization {
        callsign: *b"N825V   ",
        ..Initialization::default()
    };
    [
        // Before the first flag, skipped.
        vec![0x00, 0x11, 0x22],
        request(45),
        sent(heartbeat()),
        frame(&TRAFFIC),
        frame(&ownship),
        sent(Message::Control(FIRST)),
        request(45),
        // A wrong version is no Control: the first one stays.
        changed_control(1, 2),
        request(45),
        // A bad escape, and an escape before the flag.
        vec![0x7E, 0x7D, 0x00, 0x7E, 0x7D, 0x7E],
        sent(Message::Control(SECOND)),
        request(45),
        request(20),
        // Too short, and a wrong check.
        vec![0x01, 0x01, 0x7E, 0x2C, 0x02, 0x2B, 0xC4, 0xE7, 0x7E],
        // An unknown ID, a wrong length and squawk 7856.
        frame(&[0xFF]),
        frame(&[44, 2]),
        changed_control(8, 0x1E),
        sent(Message::GeometricAltitude(GeometricAltitude::default())),
        sent(Message::Initialization(initialization)),
        // Open.
        vec![0x2C, 0x02, 0x2B],
    ]
    .concat()
}

#[test]
fn the_capture_is_what_the_library_writes() {
    assert_eq!(CAPTURE, capture());
}

#[test]
fn the_answers_are_the_controls_last_heard() {
    let answers = [FIRST, FIRST, SECOND].map(|control| sent(Message::Control(control)));
    assert_eq!(ANSWERS, answers.concat());
}
