//! MAVLink frames: document 001's packets, vectors worked out by hand, every
//! refusal and many random values.

mod codes;

use codes::{by_hand, code, codes};
use second::mavlink::{
    read, write, x25, Dynamic, Frame, Message, RequestDataStream, Static, Status, Traffic, START,
};

/// What the room holds before a call, so that every write shows.
const FILL: u8 = 0xA5;

/// ID, length and extra octet of each kind (document 01, MAVLink kinds).
const KINDS: [(u8, u8, u8); 5] = [
    (66, 6, 148),
    (201, 19, 126),
    (202, 42, 7),
    (203, 1, 85),
    (246, 38, 184),
];

/// The example packet of document 001, Static Message.
const STATIC_PACKET: &str = "fe132f0000c93412a025000050494e4732303230001201040111fa";

/// The example packet of document 001, Dynamic / Ownship Message.
const DYNAMIC_PACKET: &str = concat!(
    "fe2a590000ca9574854523131f1653d945c800000000ddbb050027320100",
    "6e000f270000d4fe82000800b004030500000d57",
);

/// An octet's place in 201, its highest value in range, and how it is set.
type Ranged = (usize, u8, fn(&mut Static, u8));

/// Numbers that look random and are the same at every run.
struct Random(u64);

impl Random {
    fn next(&mut self) -> u32 {
        self.0 ^= self.0 << 13;
        self.0 ^= self.0 >> 7;
        self.0 ^= self.0 << 17;
        (self.0 >> 24) as u32
    }

    /// A number below an end.
    fn below(&mut self, end: u32) -> u32 {
        self.next() % end
    }

    /// An octet below an end of at most 256.
    fn octet(&mut self, end: u32) -> u8 {
        self.below(end) as u8
    }

    fn octets(&mut self, length: usize) -> Vec<u8> {
        (0..length).map(|_| self.octet(256)).collect()
    }

    /// Eight of A-Z, 0-9 and space.
    fn callsign(&mut self) -> [u8; 8] {
        let letters = b"ABCDEFGHIJKLMNOPQRSTUVWXYZ0123456789 ";
        std::array::from_fn(|_| letters[self.below(37) as usize])
    }

    /// Four octal digits, sent as a decimal number.
    fn code(&mut self) -> u16 {
        code(std::array::from_fn(|_| self.below(8)))
    }

    fn request(&mut self) -> RequestDataStream {
        RequestDataStream {
            rate: self.next() as u16,
            target_system: self.octet(256),
            target_component: self.octet(256),
            stream: self.octet(256),
            start_stop: self.octet(256),
        }
    }

    fn fixed(&mut self) -> Static {
        Static {
            address: self.below(1 << 24),
            integrity: self.octet(256),
            stall_speed: self.next() as u16,
            callsign: self.callsign(),
            capability: 0,
            emitter: self.octet(22),
            size: self.octet(16),
            lateral: self.octet(8),
            longitudinal: self.octet(32),
        }
    }

    fn dynamic(&mut self) -> Dynamic {
        Dynamic {
            utc_time: self.next(),
            latitude: self.next() as i32,
            longitude: self.next() as i32,
            pressure_altitude: self.next() as i32,
            gnss_altitude: self.next() as i32,
            horizontal_accuracy: self.next(),
            vertical_accuracy: self.next() as u16,
            velocity_accuracy: self.next() as u16,
            vertical_velocity: self.next() as i16,
            north_velocity: self.next() as i16,
            east_velocity: self.next() as i16,
            state: self.next() as u16,
            squawk: self.code(),
            fix: self.octet(6),
            satellites: self.octet(256),
            emergency: self.octet(256),
            control: self.octet(256),
        }
    }

    fn traffic(&mut self) -> Traffic {
        Traffic {
            address: self.next(),
            latitude: self.next() as i32,
            longitude: self.next() as i32,
            altitude: self.next() as i32,
            heading: self.next() as u16,
            horizontal_velocity: self.next() as u16,
            vertical_velocity: self.next() as i16,
            valid: self.next() as u16,
            squawk: match self.below(8) {
                0 => 65_535,
                _ => self.code(),
            },
            altitude_type: self.octet(256),
            callsign: std::array::from_fn(|_| self.octet(256)),
            emitter: self.octet(256),
            since_last: self.octet(256),
        }
    }

    /// A message in range, of the kind with this ID.
    fn message(&mut self, id: u8) -> Message {
        match id {
            66 => Message::RequestDataStream(self.request()),
            201 => Message::Static(self.fixed()),
            202 => Message::Dynamic(self.dynamic()),
            203 => Message::Status(Status {
                status: self.octet(256),
            }),
            246 => Message::Traffic(self.traffic()),
            _ => unreachable!("no kind has ID {id}"),
        }
    }
}

/// The octets of hexadecimal digits.
fn octets(digits: &str) -> Vec<u8> {
    (0..digits.len())
        .step_by(2)
        .map(|place| u8::from_str_radix(&digits[place..place + 2], 16).expect("two digits"))
        .collect()
}

/// The message of document 001's static packet.
fn static_message() -> Static {
    Static {
        address: 0xA0_1234,
        integrity: 0x25,
        stall_speed: 0,
        callsign: *b"PING2020",
        capability: 0,
        emitter: 0x12,
        size: 1,
        lateral: 4,
        longitudinal: 1,
    }
}

/// The message of document 001's dynamic packet.
fn dynamic_message() -> Dynamic {
    Dynamic {
        utc_time: 1_166_374_037,
        latitude: 371_135_267,
        longitude: -934_946_477,
        pressure_altitude: 0,
        gnss_altitude: 375_773,
        horizontal_accuracy: 78_375,
        vertical_accuracy: 110,
        velocity_accuracy: 9999,
        vertical_velocity: 0,
        north_velocity: -300,
        east_velocity: 130,
        state: 8,
        squawk: 1200,
        fix: 3,
        satellites: 5,
        emergency: 0,
        control: 0,
    }
}

/// A traffic report whose payload octets count up from 80, but for the squawk.
fn traffic_message() -> Traffic {
    Traffic {
        address: 0x8382_8180,
        latitude: 0x8786_8584_u32 as i32,
        longitude: 0x8B8A_8988_u32 as i32,
        altitude: 0x8F8E_8D8C_u32 as i32,
        heading: 0x9190,
        horizontal_velocity: 0x9392,
        vertical_velocity: 0x9594_u16 as i16,
        valid: 0x9796,
        squawk: 0x1234,
        altitude_type: 0x9A,
        callsign: [0x9B, 0x9C, 0x9D, 0x9E, 0x9F, 0xA0, 0xA1, 0xA2, 0xA3],
        emitter: 0xA4,
        since_last: 0xA5,
    }
}

/// The payload of that traffic report.
fn traffic_payload() -> Vec<u8> {
    let mut payload: Vec<u8> = (0x80..0xA6).collect();
    payload[24..26].copy_from_slice(&[0x34, 0x12]);
    payload
}

/// One step of document 001, CRC Code, by its own way over whole octets.
fn crc_accumulate(data: u8, sum: u16) -> u16 {
    let mixed = data ^ (sum & 0xFF) as u8;
    let mixed = u16::from(mixed ^ mixed << 4);
    sum >> 8 ^ mixed << 8 ^ mixed << 3 ^ mixed >> 4
}

/// A frame around a payload of any length and ID, with a right check.
fn framed(header: [u8; 3], id: u8, payload: &[u8]) -> Vec<u8> {
    let extra = KINDS.iter().find(|kind| kind.0 == id);
    let extra = extra.map_or(0, |kind| kind.2);
    let [sequence, system, component] = header;
    let mut frame = vec![START, payload.len() as u8, sequence, system, component, id];
    frame.extend(payload);
    let sum = frame[1..]
        .iter()
        .fold(0xFFFF, |sum, &octet| crc_accumulate(octet, sum));
    frame.extend(crc_accumulate(extra, sum).to_le_bytes());
    frame
}

/// A payload or frame with one octet changed.
fn changed(payload: &[u8], place: usize, octet: u8) -> Vec<u8> {
    let mut payload = payload.to_vec();
    payload[place] = octet;
    payload
}

/// The payload of one of document 001's packets.
fn payload(packet: &str) -> Vec<u8> {
    let packet = octets(packet);
    packet[6..packet.len() - 2].to_vec()
}

/// What a message is written to, in room that is longer.
fn written(header: [u8; 3], message: &Message) -> Vec<u8> {
    let [sequence, system, component] = header;
    let mut output = [FILL; 60];
    let length = write(sequence, system, component, message, &mut output).expect("in range");
    assert_eq!(output[length..], vec![FILL; output.len() - length]);
    output[..length].to_vec()
}

/// Asserts that writing answers 25, for room and for none, and writes nothing.
fn assert_25(message: &Message, place: &str) {
    let mut output = [FILL; 60];
    assert_eq!(write(1, 2, 3, message, &mut output), Err(25), "{place}");
    assert_eq!(output, [FILL; 60], "{place}");
    assert_eq!(write(1, 2, 3, message, &mut []), Err(25), "{place}");
}

/// Asserts that a payload is refused with 25, and with 24 behind a wrong check,
/// or carries this message both ways.
fn assert_payload(id: u8, payload: &[u8], message: &Message, right: bool) {
    let header = [0x11, 0x22, 0x33];
    let frame = framed(header, id, payload);
    if right {
        let read = read(&frame).map(|frame| frame.message);
        assert_eq!(read.as_ref(), Ok(message), "payload {payload:02X?}");
        assert_eq!(written(header, message), frame);
    } else {
        assert_eq!(read(&frame), Err(25), "payload {payload:02X?}");
        assert_25(message, "a field outside its range");
        let last = frame.len() - 1;
        let wrong = changed(&frame, last, !frame[last]);
        assert_eq!(read(&wrong), Err(24), "payload {payload:02X?}");
    }
}

#[test]
fn x25_has_its_published_check_value() {
    assert_eq!(x25(b"123456789"), 0x6F91);
    assert_eq!(x25(&[]), 0xFFFF, "it starts at FFFF");
}

#[test]
fn x25_is_that_of_document_001() {
    let mut random = Random(0x5EED_0011);
    for length in 0..2000 {
        let bytes = random.octets(length % 300);
        let sum = bytes
            .iter()
            .fold(0xFFFF, |sum, &octet| crc_accumulate(octet, sum));
        assert_eq!(x25(&bytes), sum, "{} octets", bytes.len());
    }
    for pair in 0..=u16::MAX {
        let [first, second] = pair.to_be_bytes();
        let sum = crc_accumulate(second, crc_accumulate(first, 0xFFFF));
        assert_eq!(x25(&[first, second]), sum);
    }
}

#[test]
fn static_packet_of_the_papers() {
    let packet = octets(STATIC_PACKET);
    let message = Message::Static(static_message());
    let frame = Frame {
        used: 27,
        sequence: 0x2F,
        system: 0,
        component: 0,
        message: message.clone(),
    };
    assert_eq!(read(&packet), Ok(frame));
    assert_eq!(written([0x2F, 0, 0], &message), packet);
}

#[test]
fn dynamic_packet_of_the_papers() {
    let packet = octets(DYNAMIC_PACKET);
    let message = Message::Dynamic(dynamic_message());
    let frame = Frame {
        used: 50,
        sequence: 0x59,
        system: 0,
        component: 0,
        message: message.clone(),
    };
    assert_eq!(read(&packet), Ok(frame));
    assert_eq!(written([0x59, 0, 0], &message), packet);
}

#[test]
fn layouts_are_those_of_the_papers() {
    let request = Message::RequestDataStream(RequestDataStream {
        rate: 0x0201,
        target_system: 3,
        target_component: 4,
        stream: 5,
        start_stop: 6,
    });
    assert_payload(66, &[1, 2, 3, 4, 5, 6], &request, true);

    let fixed = Message::Static(Static {
        address: 0xC3_B2A1,
        integrity: 0xD4,
        stall_speed: 0xF6E5,
        callsign: *b" AZ 09 Q",
        capability: 0,
        emitter: 21,
        size: 15,
        lateral: 7,
        longitudinal: 31,
    });
    let payload = [
        0xA1, 0xB2, 0xC3, 0xD4, 0xE5, 0xF6, b' ', b'A', b'Z', b' ', b'0', b'9', b' ', b'Q', 0x00,
        0x15, 0x0F, 0x07, 0x1F,
    ];
    assert_payload(201, &payload, &fixed, true);

    let status = Message::Status(Status { status: 0xE1 });
    assert_payload(203, &[0xE1], &status, true);

    let traffic = Message::Traffic(traffic_message());
    assert_payload(246, &traffic_payload(), &traffic, true);
}

#[test]
fn layout_of_202_counts_up() {
    let mut payload: Vec<u8> = (0x80..0xAA).collect();
    payload[36..39].copy_from_slice(&[0x34, 0x12, 0x05]);
    let dynamic = Message::Dynamic(Dynamic {
        utc_time: 0x8382_8180,
        latitude: 0x8786_8584_u32 as i32,
        longitude: 0x8B8A_8988_u32 as i32,
        pressure_altitude: 0x8F8E_8D8C_u32 as i32,
        gnss_altitude: 0x9392_9190_u32 as i32,
        horizontal_accuracy: 0x9796_9594,
        vertical_accuracy: 0x9998,
        velocity_accuracy: 0x9B9A,
        vertical_velocity: 0x9D9C_u16 as i16,
        north_velocity: 0x9F9E_u16 as i16,
        east_velocity: 0xA1A0_u16 as i16,
        state: 0xA3A2,
        squawk: 0x1234,
        fix: 5,
        satellites: 0xA7,
        emergency: 0xA8,
        control: 0xA9,
    });
    assert_payload(202, &payload, &dynamic, true);
}

#[test]
fn header_is_given_and_taken() {
    let frame = framed([0xDE, 0xAD, 0x5E], 203, &[0x01]);
    let answer = read(&frame).expect("a right frame");
    assert_eq!(
        (answer.sequence, answer.system, answer.component),
        (0xDE, 0xAD, 0x5E)
    );
    assert_eq!(written([0xDE, 0xAD, 0x5E], &answer.message), frame);
}

#[test]
fn too_few_octets_are_20_and_a_wrong_start_is_21() {
    assert_eq!(read(&[]), Err(20));
    for start in 0..=u8::MAX {
        let number = if start == 0xFE { 20 } else { 21 };
        assert_eq!(read(&[start]), Err(number), "start {start:02X}");
        assert_eq!(read(&[start, 1, 0, 0, 0]), Err(number));
    }
}

#[test]
fn every_truncation_is_20() {
    for packet in [STATIC_PACKET, DYNAMIC_PACKET] {
        let packet = octets(packet);
        for length in 0..packet.len() {
            assert_eq!(read(&packet[..length]), Err(20), "{length} octets");
        }
    }
}

#[test]
fn octets_behind_a_frame_are_left() {
    let first = octets(STATIC_PACKET);
    let second = octets(DYNAMIC_PACKET);
    let both = [&first[..], &second[..], &[0x55]].concat();

    let frame = read(&both).expect("the static packet");
    assert_eq!(frame.used, 27);
    assert_eq!(read(&first), Ok(frame.clone()));

    let rest = &both[frame.used..];
    let frame = read(rest).expect("the dynamic packet");
    assert_eq!(frame.used, 50);
    assert_eq!(read(&second), Ok(frame.clone()));
    assert_eq!(rest[frame.used..], [0x55]);
}

#[test]
fn unknown_ids_are_22() {
    for id in 0..=u8::MAX {
        let known = KINDS.iter().find(|kind| kind.0 == id);
        for length in 0..=50 {
            let answer = read(&framed([0; 3], id, &vec![0; length]));
            let expected = match known {
                None => Some(22),
                Some(kind) if usize::from(kind.1) != length => Some(23),
                // No callsign has the octet 00.
                Some((201, ..)) => Some(25),
                Some(_) => None,
            };
            assert_eq!(answer.err(), expected, "ID {id}, {length} octets");
        }
    }
}

#[test]
fn id_and_length_are_tested_before_the_octets_are_counted() {
    for (id, right, _) in KINDS {
        for length in 0..=u8::MAX {
            let answer = read(&[START, length, 0, 0, 0, id]);
            let expected = if length == right { 20 } else { 23 };
            assert_eq!(answer, Err(expected), "ID {id}, length {length}");
        }
    }
    assert_eq!(read(&[START, 19, 0, 0, 0, 200]), Err(22));
    assert_eq!(read(&[START, 0, 0, 0, 0, 0]), Err(22));
}

#[test]
fn refusals_come_in_their_order() {
    // A field outside its range, and every fault before it in turn.
    let payload = changed(&payload(STATIC_PACKET), 15, 22);
    let mut frame = framed([0; 3], 201, &payload);
    assert_eq!(read(&frame), Err(25));
    frame[25] ^= 1;
    assert_eq!(read(&frame), Err(24));
    frame.pop();
    assert_eq!(read(&frame), Err(20));
    frame[1] = 18;
    assert_eq!(read(&frame), Err(23));
    frame[5] = 200;
    assert_eq!(read(&frame), Err(22));
    frame.truncate(5);
    assert_eq!(read(&frame), Err(20));
    frame[0] = 0xFD;
    assert_eq!(read(&frame), Err(21));
    frame.clear();
    assert_eq!(read(&frame), Err(20));
}

#[test]
fn every_flipped_bit_behind_the_start_is_refused() {
    for packet in [STATIC_PACKET, DYNAMIC_PACKET] {
        let packet = octets(packet);
        for bit in 8..packet.len() * 8 {
            let (place, mask) = (bit / 8, 1 << (bit % 8));
            let expected = match place {
                1 => 23,
                // 201 and 203 differ in one bit, 202 and 203 too.
                5 if packet[5] ^ mask == 203 => 23,
                5 => 22,
                _ => 24,
            };
            let flipped = changed(&packet, place, packet[place] ^ mask);
            assert_eq!(read(&flipped), Err(expected), "bit {bit}");
        }
    }
}

#[test]
fn check_takes_in_the_extra_octet_of_its_kind() {
    for (id, length, extra) in KINDS {
        for other in 0..=u8::MAX {
            let mut frame = vec![START, length, 7, 8, 9, id];
            frame.extend(vec![0; usize::from(length)]);
            // Zeros are in range but for this callsign.
            if id == 201 {
                frame[12..20].copy_from_slice(b"AAAAAAAA");
            }
            let check = x25(&[&frame[1..], &[other]].concat());
            frame.extend(check.to_le_bytes());
            assert_eq!(read(&frame).is_ok(), other == extra, "ID {id}, {other}");
        }
    }
}

#[test]
fn squawks_of_202_and_246_are_four_octal_digits() {
    let codes = codes();
    assert_eq!(codes.len(), 4096);
    for squawk in 0..=u16::MAX {
        let right = codes.contains(&squawk);
        assert_dynamic_squawk(squawk, right);
        assert_traffic_squawk(squawk, right || squawk == 65_535);
    }
}

#[test]
fn squawks_of_202_and_246_by_hand() {
    for (squawk, right) in by_hand() {
        assert_dynamic_squawk(squawk, right);
        assert_traffic_squawk(squawk, right);
    }
    assert_dynamic_squawk(65_535, false);
    assert_traffic_squawk(65_535, true);
}

/// Asserts how 202 has a squawk.
fn assert_dynamic_squawk(squawk: u16, right: bool) {
    let [low, high] = squawk.to_le_bytes();
    let payload = changed(&changed(&payload(DYNAMIC_PACKET), 36, low), 37, high);
    let message = Message::Dynamic(Dynamic {
        squawk,
        ..dynamic_message()
    });
    assert_payload(202, &payload, &message, right);
}

/// Asserts how 246 has a squawk.
fn assert_traffic_squawk(squawk: u16, right: bool) {
    let [low, high] = squawk.to_le_bytes();
    let payload = changed(&changed(&traffic_payload(), 24, low), 25, high);
    let message = Message::Traffic(Traffic {
        squawk,
        ..traffic_message()
    });
    assert_payload(246, &payload, &message, right);
}

#[test]
fn octets_of_201_have_ranges() {
    let payload = payload(STATIC_PACKET);
    let cases: [Ranged; 5] = [
        (14, 0, |it, octet| it.capability = octet),
        (15, 21, |it, octet| it.emitter = octet),
        (16, 15, |it, octet| it.size = octet),
        (17, 7, |it, octet| it.lateral = octet),
        (18, 31, |it, octet| it.longitudinal = octet),
    ];
    for (place, highest, edit) in cases {
        for octet in 0..=u8::MAX {
            let mut edited = static_message();
            edit(&mut edited, octet);
            let payload = changed(&payload, place, octet);
            let message = Message::Static(edited);
            assert_payload(201, &payload, &message, octet <= highest);
        }
    }
}

#[test]
fn emitters_of_246_are_carried() {
    for emitter in 0..=u8::MAX {
        let message = Message::Traffic(Traffic {
            emitter,
            ..traffic_message()
        });
        let payload = changed(&traffic_payload(), 36, emitter);
        assert_payload(246, &payload, &message, true);
    }
}

#[test]
fn callsign_of_201_is_of_letters_digits_and_spaces() {
    let payload = payload(STATIC_PACKET);
    for octet in 0..=u8::MAX {
        let right = octet.is_ascii_uppercase() || octet.is_ascii_digit() || octet == b' ';
        for place in 0..8 {
            let mut edited = static_message();
            edited.callsign[place] = octet;
            let payload = changed(&payload, 6 + place, octet);
            assert_payload(201, &payload, &Message::Static(edited), right);
        }
    }
}

#[test]
fn fix_of_202_runs_from_0_to_5() {
    let payload = payload(DYNAMIC_PACKET);
    for fix in 0..=u8::MAX {
        let message = Message::Dynamic(Dynamic {
            fix,
            ..dynamic_message()
        });
        assert_payload(202, &changed(&payload, 38, fix), &message, fix <= 5);
    }
}

#[test]
fn writer_refuses_an_address_wider_than_24_bits() {
    for address in [1 << 24, 0xFF00_0000, u32::MAX] {
        let message = Message::Static(Static {
            address,
            ..static_message()
        });
        assert_25(&message, "address");
    }
}

#[test]
fn failures_of_203_are_counted_in_bits_1_to_4() {
    for status in 0..=u8::MAX {
        let status = Status { status };
        let masks = [0x02, 0x04, 0x08, 0x10];
        let set = masks.map(|mask| status.status & mask != 0);
        let count = set.into_iter().filter(|&set| set).count();
        assert_eq!(status.failures(), count as u32);
        let lowest = set.iter().position(|&set| set);
        assert_eq!(status.lowest_failure(), lowest.map(|at| at as u32 + 1));
    }
}

#[test]
fn failures_of_203_by_hand() {
    let cases = [
        (0x00, 0, None),
        (0x01, 0, None),
        (0xE1, 0, None),
        (0x02, 1, Some(1)),
        (0x04, 1, Some(2)),
        (0x08, 1, Some(3)),
        (0x10, 1, Some(4)),
        (0x16, 3, Some(1)),
        (0x18, 2, Some(3)),
        (0xFF, 4, Some(1)),
    ];
    for (status, count, lowest) in cases {
        let status = Status { status };
        assert_eq!(status.failures(), count, "{status:02X?}");
        assert_eq!(status.lowest_failure(), lowest, "{status:02X?}");
    }
}

#[test]
fn room_is_measured_by_the_frame() {
    let mut random = Random(0x5EED_0012);
    for (id, length, _) in KINDS {
        let message = random.message(id);
        let whole = usize::from(length) + 8;
        for room in 0..whole {
            let mut output = vec![FILL; room];
            assert_eq!(write(1, 2, 3, &message, &mut output), Err(8));
            assert_eq!(output, vec![FILL; room]);
        }
        let mut output = vec![FILL; whole];
        assert_eq!(write(1, 2, 3, &message, &mut output), Ok(whole));
        assert_eq!(output, written([1, 2, 3], &message));
    }
}

#[test]
fn written_frames_read_back_equal() {
    let mut random = Random(0x5EED_0013);
    for (id, length, _) in KINDS {
        for _ in 0..50_000 {
            let header = std::array::from_fn(|_| random.octet(256));
            let message = random.message(id);
            let frame = written(header, &message);
            assert_eq!(frame, framed(header, id, &frame[6..frame.len() - 2]));
            let [sequence, system, component] = header;
            let expected = Frame {
                used: usize::from(length) + 8,
                sequence,
                system,
                component,
                message,
            };
            assert_eq!(read(&frame), Ok(expected));
        }
    }
}

#[test]
fn accepted_frames_write_back_to_the_same_octets() {
    let mut random = Random(0x5EED_0014);
    let mut refused = 0;
    for (id, length, _) in KINDS {
        for _ in 0..50_000 {
            let header = std::array::from_fn(|_| random.octet(256));
            // A payload in range, and then one of its octets changed.
            let payload = written(header, &random.message(id));
            let place = random.below(u32::from(length)) as usize;
            let payload = changed(&payload[6..payload.len() - 2], place, random.octet(256));
            let frame = framed(header, id, &payload);
            match read(&[&frame[..], &random.octets(5)].concat()) {
                Ok(answer) => {
                    assert_eq!(answer.used, frame.len());
                    let header = [answer.sequence, answer.system, answer.component];
                    assert_eq!(written(header, &answer.message), frame);
                }
                Err(number) => {
                    assert_eq!(number, 25);
                    refused += 1;
                }
            }
        }
    }
    assert!(refused > 1000, "{refused}");
}
