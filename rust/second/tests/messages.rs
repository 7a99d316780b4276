//! The message kinds of the UCP line, on vectors worked out by hand, at the
//! edges of their ranges and on many random values.

mod codes;

use codes::{by_hand, code, codes};
use second::messages::{
    altitude_feet, degrees, geometric_altitude_feet, read, vertical_rate_feet_per_minute, write,
    Control, GeometricAltitude, Heartbeat, Initialization, Message, Report, Request, Uplink,
    UPLINK_OCTETS,
};

/// What the room holds before a call, so that every write shows.
const FILL: u8 = 0xA5;

/// IDs and their lengths (document 01, Message kinds on the UCP line).
const LENGTHS: [(u8, usize); 8] = [
    (0, 7),
    (7, 436),
    (10, 28),
    (11, 5),
    (20, 28),
    (44, 3),
    (45, 18),
    (117, 19),
];

/// A field's name, and an edit of the field that must be refused.
type Edit<T> = (&'static str, fn(&mut T));

/// Numbers that look random and are the same at every run.
struct Random(u64);

impl Random {
    fn next(&mut self) -> u32 {
        self.0 ^= self.0 << 13;
        self.0 ^= self.0 >> 7;
        self.0 ^= self.0 << 17;
        (self.0 >> 24) as u32
    }

    /// A number below an end.
    fn below(&mut self, end: u32) -> u32 {
        self.next() % end
    }

    /// An octet below an end of at most 256.
    fn octet(&mut self, end: u32) -> u8 {
        self.below(end) as u8
    }

    fn octets(&mut self, length: usize) -> Vec<u8> {
        (0..length).map(|_| self.octet(256)).collect()
    }

    fn array<const N: usize>(&mut self) -> [u8; N] {
        std::array::from_fn(|_| self.octet(256))
    }

    /// A signed number of this many bits.
    fn signed(&mut self, width: u32) -> i32 {
        self.next() as i32 >> (32 - width)
    }

    /// Eight of A-Z, 0-9 and space.
    fn callsign(&mut self) -> [u8; 8] {
        let letters = b"ABCDEFGHIJKLMNOPQRSTUVWXYZ0123456789 ";
        std::array::from_fn(|_| letters[self.below(37) as usize])
    }

    /// As a callsign, with spaces only at the end.
    fn flight_identity(&mut self) -> [u8; 8] {
        let length = self.below(9) as usize;
        let mut text = self.callsign();
        for (place, octet) in text.iter_mut().enumerate() {
            if place >= length {
                *octet = b' ';
            } else if *octet == b' ' {
                *octet = b'Q';
            }
        }
        text
    }

    fn report(&mut self) -> Report {
        Report {
            alert: self.octet(16),
            address_type: self.octet(16),
            address: self.below(1 << 24),
            latitude: self.signed(24),
            longitude: self.signed(24),
            altitude: self.below(1 << 12) as u16,
            miscellaneous: self.octet(16),
            nic: self.octet(16),
            nacp: self.octet(16),
            speed: self.below(1 << 12) as u16,
            vertical_rate: self.signed(12) as i16,
            track: self.octet(256),
            emitter: self.octet(256),
            callsign: self.array(),
            emergency: self.octet(16),
            spare: self.octet(16),
        }
    }

    fn control(&mut self) -> Control {
        Control {
            transmit_enabled: self.octet(2),
            mode_s_enabled: self.octet(2),
            mode_c_enabled: self.octet(2),
            mode_a_enabled: self.octet(2),
            ident: self.octet(2),
            air_ground: self.octet(4),
            barometer_checked: self.octet(2),
            pressure_altitude: self.next() as i32,
            squawk: code(std::array::from_fn(|_| self.below(8))),
            emergency: self.octet(256),
            flight_identity: self.flight_identity(),
        }
    }

    fn initialization(&mut self) -> Initialization {
        Initialization {
            version: self.octet(256),
            address: self.below(1 << 24),
            emitter: self.octet(22),
            callsign: self.callsign(),
            stall_speed: self.octet(256),
            size: self.octet(16),
            lateral: self.octet(8),
            longitudinal: self.octet(32),
        }
    }

    /// A message in range, of the kind with this ID.
    fn message(&mut self, id: u8) -> Message {
        match id {
            0 => Message::Heartbeat(Heartbeat {
                octets: self.array(),
            }),
            7 => Message::Uplink(Uplink {
                octets: self.octets(UPLINK_OCTETS),
            }),
            10 => Message::Ownship(self.report()),
            11 => Message::GeometricAltitude(GeometricAltitude {
                altitude: self.signed(16) as i16,
                metrics: self.below(1 << 16) as u16,
            }),
            20 => Message::Traffic(self.report()),
            44 => Message::Request(Request {
                requested: self.octet(256),
            }),
            45 => Message::Control(self.control()),
            117 => Message::Initialization(self.initialization()),
            _ => unreachable!("no kind has ID {id}"),
        }
    }
}

/// The traffic report printed as an example in the GDL90 public ICD Rev A.
const PUBLISHED: [u8; 28] = [
    0x14, 0x00, 0xAB, 0x45, 0x49, 0x1F, 0xEF, 0x15, 0xA8, 0x89, 0x78, 0x0F, 0x09, 0xA9, 0x07, 0xB0,
    0x01, 0x20, 0x01, 0x4E, 0x38, 0x32, 0x35, 0x56, 0x20, 0x20, 0x20, 0x00,
];

/// Its fields.
fn published() -> Report {
    Report {
        alert: 0,
        address_type: 0,
        address: 0xAB_4549,
        latitude: 0x1F_EF15,
        longitude: 0xA8_8978 - 0x100_0000,
        altitude: 0x0F0,
        miscellaneous: 9,
        nic: 10,
        nacp: 9,
        speed: 123,
        vertical_rate: 1,
        track: 0x20,
        emitter: 1,
        callsign: *b"N825V   ",
        emergency: 0,
        spare: 0,
    }
}

/// A control message by the table of document 003, section 6.2.5.1.
const CONTROL: [u8; 18] = [
    0x2D, 0x01, 0xAD, 0x78, 0x56, 0x34, 0xF2, 0xB0, 0x04, 0x09, b'U', b'A', b'1', b'2', b'3', b' ',
    b' ', b' ',
];

/// Its fields.
fn control() -> Control {
    Control {
        transmit_enabled: 1,
        mode_s_enabled: 0,
        mode_c_enabled: 1,
        mode_a_enabled: 0,
        ident: 1,
        air_ground: 0b10,
        barometer_checked: 1,
        pressure_altitude: 0xF234_5678_u32 as i32,
        squawk: 1200,
        emergency: 9,
        flight_identity: *b"UA123   ",
    }
}

/// An initialization by the table of document 000, Initialization Message.
const INITIALIZATION: [u8; 19] = [
    0x75, 0x41, 0x01, 0x33, 0x56, 0x34, 0x12, 0x0E, b'P', b' ', b'N', b'G', b'2', b'0', b'Z', b'9',
    0x2D, 0x0F, 0xB2,
];

/// Its fields.
fn initialization() -> Initialization {
    Initialization {
        version: 0x33,
        address: 0x12_3456,
        emitter: 14,
        callsign: *b"P NG20Z9",
        stall_speed: 45,
        size: 15,
        lateral: 0b101,
        longitudinal: 0b1_0010,
    }
}

/// A report whose neighbouring fields differ, negative ones among them.
const OWNSHIP: [u8; 28] = [
    0x0A, 0x12, 0x34, 0x56, 0x78, 0x80, 0x00, 0x01, 0x7F, 0xFF, 0xFE, 0xAB, 0xCD, 0xEF, 0x13, 0x5F,
    0xFE, 0x9A, 0xBC, 0x00, 0xFF, 0x7E, 0x7D, 0x20, 0x61, 0x41, 0x0A, 0xC3,
];

/// Its fields.
fn ownship() -> Report {
    Report {
        alert: 1,
        address_type: 2,
        address: 0x34_5678,
        latitude: -8_388_607,
        longitude: 8_388_606,
        altitude: 0xABC,
        miscellaneous: 0xD,
        nic: 0xE,
        nacp: 0xF,
        speed: 0x135,
        vertical_rate: -2,
        track: 0x9A,
        emitter: 0xBC,
        callsign: [0x00, 0xFF, 0x7E, 0x7D, 0x20, 0x61, 0x41, 0x0A],
        emergency: 0xC,
        spare: 3,
    }
}

/// Bodies and their messages, each kind once.
fn vectors() -> Vec<(Vec<u8>, Message)> {
    let uplink: Vec<u8> = (0..435).map(|place| (place * 7 % 256) as u8).collect();
    vec![
        (
            vec![0x00, 0x81, 0x41, 0xDB, 0xD0, 0x08, 0x02],
            Message::Heartbeat(Heartbeat {
                octets: [0x81, 0x41, 0xDB, 0xD0, 0x08, 0x02],
            }),
        ),
        (
            [&[0x07], &uplink[..]].concat(),
            Message::Uplink(Uplink { octets: uplink }),
        ),
        (OWNSHIP.to_vec(), Message::Ownship(ownship())),
        (
            vec![0x0B, 0xFF, 0x38, 0x80, 0x0A],
            Message::GeometricAltitude(GeometricAltitude {
                altitude: -200,
                metrics: 0x800A,
            }),
        ),
        (PUBLISHED.to_vec(), Message::Traffic(published())),
        (
            vec![0x2C, 0x02, 0x2B],
            Message::Request(Request { requested: 0x2B }),
        ),
        (CONTROL.to_vec(), Message::Control(control())),
        (
            INITIALIZATION.to_vec(),
            Message::Initialization(initialization()),
        ),
    ]
}

/// What a message is written to, in room that is longer by three octets.
fn written(message: &Message) -> Vec<u8> {
    let mut output = [FILL; 436 + 3];
    let length = write(message, &mut output).expect("a message in range");
    assert_eq!(output[length..], vec![FILL; output.len() - length]);
    output[..length].to_vec()
}

/// Asserts that writing answers 13, for room and for none, and writes nothing.
fn assert_13(message: &Message, place: &str) {
    let mut output = [FILL; 440];
    assert_eq!(write(message, &mut output), Err(13), "{place}");
    assert_eq!(output, [FILL; 440], "{place}");
    assert_eq!(write(message, &mut []), Err(13), "{place}");
}

/// Asserts that a body is refused with 13, and with 12 behind a wrong version or
/// signature, or carries this message both ways.
fn assert_body(body: &[u8], message: &Message, right: bool) {
    if right {
        assert_eq!(read(body).as_ref(), Ok(message), "body {body:02X?}");
        assert_eq!(written(message), body);
    } else {
        assert_eq!(read(&changed(body, 1, 2)), Err(12), "body {body:02X?}");
        assert_eq!(read(body), Err(13), "body {body:02X?}");
        assert_13(message, "a field outside its range");
    }
}

/// A body with one octet changed.
fn changed(body: &[u8], place: usize, octet: u8) -> Vec<u8> {
    let mut body = body.to_vec();
    body[place] = octet;
    body
}

#[test]
fn layouts_are_those_of_the_papers() {
    for (body, message) in vectors() {
        assert_eq!(read(&body), Ok(message.clone()), "body {body:02X?}");
        assert_eq!(written(&message), body);
    }
}

#[test]
fn published_report_has_its_published_meaning() {
    let report = match read(&PUBLISHED) {
        Ok(Message::Traffic(report)) => report,
        other => panic!("a traffic report, not {other:?}"),
    };
    assert_eq!(report.address, 0xAB_4549);
    assert_eq!(altitude_feet(report.altitude), Some(5000));
    assert_eq!(report.speed, 123);
    assert_eq!(
        vertical_rate_feet_per_minute(report.vertical_rate),
        Some(64)
    );
    assert_eq!(&report.callsign, b"N825V   ");
    assert_eq!(format!("{:.3}", degrees(report.latitude)), "44.907");
    assert_eq!(format!("{:.3}", degrees(report.longitude)), "-122.995");
}

#[test]
fn altitudes_mean_feet_or_no_data() {
    assert_eq!(altitude_feet(0), Some(-1000));
    assert_eq!(altitude_feet(40), Some(0));
    assert_eq!(altitude_feet(0xFFE), Some(101_350));
    assert_eq!(altitude_feet(0xFFF), None);

    assert_eq!(geometric_altitude_feet(-200), -1000);
    assert_eq!(geometric_altitude_feet(i16::MAX), 163_835);
    assert_eq!(geometric_altitude_feet(i16::MIN), -163_840);
}

#[test]
fn vertical_rates_mean_feet_per_minute_or_no_data() {
    assert_eq!(vertical_rate_feet_per_minute(0), Some(0));
    assert_eq!(vertical_rate_feet_per_minute(-1), Some(-64));
    assert_eq!(vertical_rate_feet_per_minute(2047), Some(131_008));
    assert_eq!(vertical_rate_feet_per_minute(-2047), Some(-131_008));
    assert_eq!(vertical_rate_feet_per_minute(-2048), None);
}

#[test]
fn no_data_is_read_from_fff_and_800() {
    let body = changed(&changed(&PUBLISHED, 11, 0xFF), 12, 0xF9);
    let body = changed(&changed(&body, 15, 0xB8), 16, 0x00);
    match read(&body) {
        Ok(Message::Traffic(report)) => {
            assert_eq!(altitude_feet(report.altitude), None);
            assert_eq!(vertical_rate_feet_per_minute(report.vertical_rate), None);
            assert_eq!(report.speed, 123);
        }
        other => panic!("a traffic report, not {other:?}"),
    }
}

#[test]
fn degrees_are_exact() {
    assert_eq!(degrees(0), 0.0);
    assert_eq!(degrees(1 << 22), 90.0);
    assert_eq!(degrees(-(1 << 23)), -180.0);
    assert_eq!(degrees(1) * 8_388_608.0, 180.0);
    assert_eq!(degrees(8_388_607) + degrees(1), 180.0);
}

#[test]
fn unknown_ids_and_the_empty_body_are_10() {
    assert_eq!(read(&[]), Err(10));
    for id in 0..=u8::MAX {
        let known = LENGTHS.iter().any(|&(known, _)| known == id);
        for length in [1, 2, 3, 5, 7, 18, 19, 28, 436, 500] {
            let answer = read(&changed(&vec![0; length], 0, id));
            assert_eq!(answer == Err(10), !known, "ID {id}, {length} octets");
        }
    }
}

#[test]
fn lengths_are_those_of_the_kinds() {
    for (id, right) in LENGTHS {
        for length in 1..=500 {
            let answer = read(&changed(&vec![0xFF; length], 0, id));
            assert_eq!(
                answer == Err(11),
                length != right,
                "ID {id}, {length} octets"
            );
        }
    }
}

#[test]
fn version_signature_and_subtype_are_12() {
    for octet in 0..=u8::MAX {
        let request = read(&[0x2C, octet, 0x2B]);
        assert_eq!(request == Err(12), octet != 2);
        let control = read(&changed(&CONTROL, 1, octet));
        assert_eq!(control == Err(12), octet != 1);
        let signature = read(&changed(&INITIALIZATION, 1, octet));
        assert_eq!(signature == Err(12), octet != 65);
        let subtype = read(&changed(&INITIALIZATION, 2, octet));
        assert_eq!(subtype == Err(12), octet != 1);
        assert!(read(&changed(&INITIALIZATION, 3, octet)).is_ok());
    }
}

#[test]
fn refusals_come_in_their_order() {
    // Unknown, too short.
    assert_eq!(read(&[0x2E]), Err(10));
    // Version 1 of the request has two octets.
    assert_eq!(read(&[0x2C, 0x01]), Err(11));
    // Too long, wrong version, squawk 1280.
    let control = changed(&changed_squawk(1280), 1, 2);
    assert_eq!(read(&[&control[..], &[0x20]].concat()), Err(11));
    assert_eq!(read(&control), Err(12));
    assert_eq!(read(&changed(&control, 1, 1)), Err(13));
    // Wrong signature, emitter out of range.
    let initialization = changed(&changed(&INITIALIZATION, 1, 64), 7, 22);
    assert_eq!(read(&initialization[..18]), Err(11));
    assert_eq!(read(&initialization), Err(12));
    assert_eq!(read(&changed(&initialization, 1, 65)), Err(13));
}

#[test]
fn squawks_are_four_octal_digits() {
    let codes = codes();
    assert_eq!(codes.len(), 4096);
    for squawk in 0..=u16::MAX {
        assert_squawk(squawk, codes.contains(&squawk));
    }
}

#[test]
fn squawks_by_hand() {
    for (squawk, right) in by_hand() {
        assert_squawk(squawk, right);
    }
    // It stands for no squawk in 246 alone.
    assert_squawk(65_535, false);
}

/// The control message with another squawk.
fn changed_squawk(squawk: u16) -> Vec<u8> {
    let [low, high] = squawk.to_le_bytes();
    changed(&changed(&CONTROL, 7, low), 8, high)
}

/// Asserts how a squawk is read and written.
fn assert_squawk(squawk: u16, right: bool) {
    let message = Message::Control(Control {
        squawk,
        ..control()
    });
    assert_body(&changed_squawk(squawk), &message, right);
}

#[test]
fn flight_identities_have_spaces_only_at_the_end() {
    let texts: [(&[u8; 8], bool); 12] = [
        (b"        ", true),
        (b"Z       ", true),
        (b"ABCDEFG ", true),
        (b"ABCDEFGH", true),
        (b"01289AMZ", true),
        (b" ABCDEFG", false),
        (b"       A", false),
        (b"A B     ", false),
        (b"ABCDEF G", false),
        (b"abc     ", false),
        (b"ABC\0\0\0\0\0", false),
        (b"AB-C    ", false),
    ];
    for (text, right) in texts {
        assert_identity(text, right);
    }
}

#[test]
fn flight_identities_are_of_letters_and_digits() {
    for octet in 0..=u8::MAX {
        let right = octet.is_ascii_uppercase() || octet.is_ascii_digit();
        for place in 0..8 {
            let mut text = *b"ABCDEFGH";
            text[place] = octet;
            assert_identity(&text, right || (octet == b' ' && place == 7));
        }
    }
}

/// Asserts how a flight identity is read and written.
fn assert_identity(text: &[u8; 8], right: bool) {
    let body = [&CONTROL[..10], text].concat();
    let message = Message::Control(Control {
        flight_identity: *text,
        ..control()
    });
    assert_body(&body, &message, right);
}

#[test]
fn emitters_of_117_run_from_0_to_21() {
    for emitter in 0..=u8::MAX {
        let message = Message::Initialization(Initialization {
            emitter,
            ..initialization()
        });
        let body = changed(&INITIALIZATION, 7, emitter);
        assert_body(&body, &message, emitter <= 21);
    }
}

#[test]
fn emitters_of_10_and_20_are_carried() {
    for emitter in 0..=u8::MAX {
        let report = Report {
            emitter,
            ..published()
        };
        let body = changed(&PUBLISHED, 18, emitter);
        assert_body(&body, &Message::Traffic(report.clone()), true);
        assert_body(&changed(&body, 0, 10), &Message::Ownship(report), true);
    }
}

#[test]
fn emitter_size_and_callsign_of_117_have_ranges() {
    for octet in 0..=u8::MAX {
        assert_octet(7, octet, octet <= 21);
        assert_octet(17, octet, octet <= 15);
        let right = octet.is_ascii_uppercase() || octet.is_ascii_digit() || octet == b' ';
        for place in 8..16 {
            assert_octet(place, octet, right);
        }
        for carried in [3, 4, 5, 6, 16, 18] {
            assert_octet(carried, octet, true);
        }
    }
}

/// Asserts how an initialization with one octet changed is read, and that it
/// is written back if accepted.
fn assert_octet(place: usize, octet: u8, right: bool) {
    let body = changed(&INITIALIZATION, place, octet);
    match read(&body) {
        Ok(message) => {
            assert!(right, "octet {place} is {octet}");
            assert_eq!(written(&message), body);
        }
        Err(number) => {
            assert!(!right, "octet {place} is {octet}");
            assert_eq!(number, 13);
        }
    }
}

#[test]
fn writer_refuses_what_117_refuses() {
    let cases: [Edit<Initialization>; 8] = [
        ("emitter", |it| it.emitter = 22),
        ("emitter", |it| it.emitter = 255),
        ("size", |it| it.size = 16),
        ("callsign", |it| it.callsign[0] = b'a'),
        ("callsign", |it| it.callsign[7] = 0),
        ("address", |it| it.address = 1 << 24),
        ("lateral", |it| it.lateral = 8),
        ("longitudinal", |it| it.longitudinal = 32),
    ];
    for (name, edit) in cases {
        let mut edited = initialization();
        edit(&mut edited);
        assert_13(&Message::Initialization(edited), name);
    }
}

#[test]
fn writer_refuses_flags_of_45_wider_than_their_bits() {
    let cases: [Edit<Control>; 8] = [
        ("transmit", |it| it.transmit_enabled = 2),
        ("mode S", |it| it.mode_s_enabled = 2),
        ("mode C", |it| it.mode_c_enabled = 255),
        ("mode A", |it| it.mode_a_enabled = 2),
        ("ident", |it| it.ident = 2),
        ("air-ground", |it| it.air_ground = 4),
        ("barometer", |it| it.barometer_checked = 2),
        ("squawk", |it| it.squawk = 7778),
    ];
    for (name, edit) in cases {
        let mut edited = control();
        edit(&mut edited);
        assert_13(&Message::Control(edited), name);
    }
}

#[test]
fn flags_of_45_lie_in_their_bits() {
    for octet in 0..=u8::MAX {
        let bit = |place: u8| octet >> place & 1;
        let message = Message::Control(Control {
            transmit_enabled: bit(7),
            mode_s_enabled: bit(6),
            mode_c_enabled: bit(5),
            mode_a_enabled: bit(4),
            ident: bit(3),
            air_ground: bit(2) * 2 + bit(1),
            barometer_checked: bit(0),
            ..control()
        });
        let body = changed(&CONTROL, 2, octet);
        assert_eq!(read(&body), Ok(message.clone()));
        assert_eq!(written(&message), body);
    }
}

#[test]
fn writer_refuses_report_fields_wider_than_their_bits() {
    let cases: [Edit<Report>; 18] = [
        ("alert", |it| it.alert = 16),
        ("address type", |it| it.address_type = 16),
        ("address", |it| it.address = 1 << 24),
        ("address", |it| it.address = u32::MAX),
        ("latitude", |it| it.latitude = 1 << 23),
        ("latitude", |it| it.latitude = -(1 << 23) - 1),
        ("longitude", |it| it.longitude = 1 << 23),
        ("longitude", |it| it.longitude = i32::MIN),
        ("altitude", |it| it.altitude = 0x1000),
        ("miscellaneous", |it| it.miscellaneous = 16),
        ("NIC", |it| it.nic = 16),
        ("NACp", |it| it.nacp = 255),
        ("speed", |it| it.speed = 0x1000),
        ("vertical rate", |it| it.vertical_rate = 2048),
        ("vertical rate", |it| it.vertical_rate = -2049),
        ("vertical rate", |it| it.vertical_rate = i16::MAX),
        ("emergency", |it| it.emergency = 16),
        ("spare", |it| it.spare = 16),
    ];
    for (name, edit) in cases {
        let mut edited = ownship();
        edit(&mut edited);
        assert_13(&Message::Ownship(edited.clone()), name);
        assert_13(&Message::Traffic(edited), name);
    }
}

#[test]
fn writer_takes_report_fields_as_wide_as_their_bits() {
    let highest = Report {
        alert: 15,
        address_type: 15,
        address: 0xFF_FFFF,
        latitude: -1,
        longitude: -1,
        altitude: 0xFFF,
        miscellaneous: 15,
        nic: 15,
        nacp: 15,
        speed: 0xFFF,
        vertical_rate: -1,
        track: 255,
        emitter: 255,
        callsign: [255; 8],
        emergency: 15,
        spare: 15,
    };
    assert_eq!(written(&Message::Ownship(highest.clone()))[1..], [0xFF; 27]);

    let lowest = Report {
        latitude: -(1 << 23),
        longitude: (1 << 23) - 1,
        vertical_rate: -2048,
        ..highest
    };
    let body = written(&Message::Traffic(lowest));
    assert_eq!(body[5..11], [0x80, 0x00, 0x00, 0x7F, 0xFF, 0xFF]);
    assert_eq!(body[14..17], [0xFF, 0xF8, 0x00]);
}

#[test]
fn writer_refuses_an_uplink_of_another_length() {
    for length in [0, 1, 434, 436, 1000] {
        let octets = vec![0; length];
        assert_13(&Message::Uplink(Uplink { octets }), "uplink");
    }
}

#[test]
fn room_is_measured_by_the_body() {
    for (body, message) in vectors() {
        for room in 0..body.len() {
            let mut output = vec![FILL; room];
            assert_eq!(write(&message, &mut output), Err(8));
            assert_eq!(output, vec![FILL; room]);
        }
        let mut output = vec![FILL; body.len()];
        assert_eq!(write(&message, &mut output), Ok(body.len()));
        assert_eq!(output, body);
    }
}

#[test]
fn written_messages_read_back_equal() {
    let mut random = Random(0x5EED_0001);
    for (id, length) in LENGTHS {
        let rounds = if id == 7 { 500 } else { 50_000 };
        for _ in 0..rounds {
            let message = random.message(id);
            let body = written(&message);
            assert_eq!((body[0], body.len()), (id, length));
            assert_eq!(read(&body), Ok(message));
        }
    }
}

#[test]
fn accepted_bodies_write_back_to_the_same_octets() {
    let mut random = Random(0x5EED_0002);
    for (id, length) in LENGTHS {
        let rounds = if id == 7 { 500 } else { 50_000 };
        for _ in 0..rounds {
            let body = changed(&random.octets(length), 0, id);
            match read(&body) {
                Ok(message) => assert_eq!(written(&message), body),
                Err(number) => assert!(id == 44 || id == 45 || id == 117, "{number}"),
            }
        }
    }
}

#[test]
fn bodies_one_octet_from_accepted_write_back_or_are_refused_12_or_13() {
    let mut random = Random(0x5EED_0003);
    let mut refused = [0; 2];
    for round in 0..200_000 {
        let id = if round % 2 == 0 { 45 } else { 117 };
        let body = written(&random.message(id));
        let place = 1 + random.below(body.len() as u32 - 1) as usize;
        let body = changed(&body, place, random.octet(256));
        match read(&body) {
            Ok(message) => assert_eq!(written(&message), body),
            Err(number) => refused[usize::from(number) - 12] += 1,
        }
    }
    assert!(refused.into_iter().all(|count| count > 1000), "{refused:?}");
}

/// The report of a body read off its hexadecimal digits, of which no field
/// takes a part.
fn report_by_digits(body: &[u8]) -> Report {
    let digits: String = body.iter().map(|octet| format!("{octet:02x}")).collect();
    let number = |from: usize, to: usize| i32::from_str_radix(&digits[from..to], 16).unwrap();
    let signed = |from: usize, to: usize| match &digits[from..from + 1] {
        "0" | "1" | "2" | "3" | "4" | "5" | "6" | "7" => number(from, to),
        _ => number(from, to) - 16i32.pow((to - from) as u32),
    };
    Report {
        alert: number(2, 3) as u8,
        address_type: number(3, 4) as u8,
        address: number(4, 10) as u32,
        latitude: signed(10, 16),
        longitude: signed(16, 22),
        altitude: number(22, 25) as u16,
        miscellaneous: number(25, 26) as u8,
        nic: number(26, 27) as u8,
        nacp: number(27, 28) as u8,
        speed: number(28, 31) as u16,
        vertical_rate: signed(31, 34) as i16,
        track: number(34, 36) as u8,
        emitter: number(36, 38) as u8,
        callsign: body[19..27].try_into().unwrap(),
        emergency: number(54, 55) as u8,
        spare: number(55, 56) as u8,
    }
}

#[test]
fn reports_are_read_as_their_digits_say() {
    let mut random = Random(0x5EED_0004);
    for _ in 0..50_000 {
        let body = changed(&random.octets(28), 0, 10);
        let report = report_by_digits(&body);
        assert_eq!(read(&body), Ok(Message::Ownship(report.clone())));
        let body = changed(&body, 0, 20);
        assert_eq!(read(&body), Ok(Message::Traffic(report)));
    }
}
