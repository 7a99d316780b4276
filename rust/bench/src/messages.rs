//! The messages of the UCP line as Rust would have them: arrays of the kind's
//! length, `from_be_bytes` and shifts; into a struct of the caller, as the
//! proved calls do, and as an enum by value.
//!
//! It answers as the proved library does. Its calls are not inlined, since one
//! through the C boundary can't be.

use ostrogosz::messages::{
    Control, GeometricAltitude, Heartbeat, Initialization, Message, Report, Request, UPLINK_PAYLOAD,
};
use ostrogosz::{Refusal, LONGEST_FRAME};

use crate::emitter::is_emitter;
use crate::squawk::is_squawk;
use crate::writer::one_pass;

/// What a body means, of whatever kind.
#[cfg(test)]
pub fn read(body: &[u8]) -> Result<Message<'_>, Refusal> {
    let (&id, content) = body.split_first().ok_or(Refusal::UnknownId)?;
    match id {
        0 => exact(content).map(|octets| Message::Heartbeat(heartbeat(octets))),
        7 => exact::<UPLINK_PAYLOAD>(content).map(|octets| Message::Uplink(octets)),
        10 => exact(content).map(|octets| Message::Ownship(report(octets))),
        11 => exact(content).map(|octets| Message::GeometricAltitude(geometric_altitude(octets))),
        20 => exact(content).map(|octets| Message::Traffic(report(octets))),
        44 => request(exact(content)?).map(Message::Request),
        45 => control(exact(content)?).map(Message::Control),
        117 => initialization(exact(content)?).map(Message::Initialization),
        _ => Err(Refusal::UnknownId),
    }
}

/// Writes the body of a message at the start of `output`.
#[inline(never)]
pub fn write(message: &Message<'_>, output: &mut [u8]) -> Result<usize, Refusal> {
    match message {
        Message::Heartbeat(of) => put(heartbeat_body(of), output),
        Message::Uplink(of) if of.len() == UPLINK_PAYLOAD => put_uplink(of, output),
        Message::Ownship(of) if report_fits(of) => put(report_body(10, of), output),
        Message::GeometricAltitude(of) => put(geometric_altitude_body(of), output),
        Message::Traffic(of) if report_fits(of) => put(report_body(20, of), output),
        Message::Request(of) => put([44, 2, of.requested_id], output),
        Message::Control(of) if control_fits(of) => put(control_body(of), output),
        Message::Initialization(of) if initialization_fits(of) => {
            put(initialization_body(of), output)
        }
        _ => Err(Refusal::Field),
    }
}

/// One kind's reader, writer and sender over the caller's struct.
macro_rules! lent {
    ($($of:ident, $id:literal: $type:ty, $fields:expr, $fits:expr, $body:expr;)+) => {
        $(pub mod $of {
            use super::*;

            /// Reads a body into the struct.
            #[inline(never)]
            pub fn read(body: &[u8], message: &mut $type) -> Result<(), Refusal> {
                let (&id, content) = body.split_first().ok_or(Refusal::UnknownId)?;
                ensure(id == $id, Refusal::UnknownId)?;
                *message = $fields(exact(content)?)?;
                Ok(())
            }

            /// Writes the body of the struct.
            #[inline(never)]
            pub fn write(message: &$type, output: &mut [u8]) -> Result<usize, Refusal> {
                ensure($fits(message), Refusal::Field)?;
                put($body(message), output)
            }

            /// Writes the frame of the struct.
            #[inline(never)]
            pub fn send(
                message: &$type,
                buffer: &mut [u8; LONGEST_FRAME],
            ) -> Result<usize, Refusal> {
                ensure($fits(message), Refusal::Field)?;
                one_pass(&$body(message), buffer).map_err(|_| Refusal::OutputLength)
            }
        })+
    };
}

lent! {
    of_0, 0: Heartbeat, |octets| Ok::<_, Refusal>(heartbeat(octets)), |_| true, heartbeat_body;
    of_10, 10: Report, |octets| Ok::<_, Refusal>(report(octets)), report_fits, |of| report_body(10, of);
    of_11, 11: GeometricAltitude, |octets| Ok::<_, Refusal>(geometric_altitude(octets)), |_| true,
        geometric_altitude_body;
    of_20, 20: Report, |octets| Ok::<_, Refusal>(report(octets)), report_fits, |of| report_body(20, of);
    of_44, 44: Request, request, |_| true, |of: &Request| [44, 2, of.requested_id];
    of_45, 45: Control, control, control_fits, control_body;
    of_117, 117: Initialization, initialization, initialization_fits, initialization_body;
}

/// All octets of a kind behind its ID.
#[inline]
fn exact<const N: usize>(content: &[u8]) -> Result<&[u8; N], Refusal> {
    content.try_into().map_err(|_| Refusal::MessageLength)
}

#[inline]
fn put<const N: usize>(body: [u8; N], output: &mut [u8]) -> Result<usize, Refusal> {
    let room = output.first_chunk_mut().ok_or(Refusal::OutputLength)?;
    *room = body;
    Ok(N)
}

#[inline]
fn ensure(holds: bool, refusal: Refusal) -> Result<(), Refusal> {
    if holds {
        Ok(())
    } else {
        Err(refusal)
    }
}

fn heartbeat(octets: &[u8; 6]) -> Heartbeat {
    let [status_1, status_2, low, high, first, last] = *octets;
    Heartbeat {
        status_1,
        status_2,
        time_stamp: u16::from_le_bytes([low, high]),
        counts: u16::from_be_bytes([first, last]),
    }
}

fn heartbeat_body(heartbeat: &Heartbeat) -> [u8; 7] {
    let [low, high] = heartbeat.time_stamp.to_le_bytes();
    let [first, last] = heartbeat.counts.to_be_bytes();
    [
        0,
        heartbeat.status_1,
        heartbeat.status_2,
        low,
        high,
        first,
        last,
    ]
}

fn put_uplink(payload: &[u8], output: &mut [u8]) -> Result<usize, Refusal> {
    let room = output.get_mut(..1 + UPLINK_PAYLOAD);
    let room = room.ok_or(Refusal::OutputLength)?;
    room[0] = 7;
    room[1..].copy_from_slice(payload);
    Ok(room.len())
}

#[inline]
fn report(octets: &[u8; 27]) -> Report {
    let [kinds, a0, a1, a2, la0, la1, la2, lo0, lo1, lo2, al0, al1, categories, v0, v1, v2, track, emitter, callsign @ .., last] =
        *octets;
    Report {
        alert: kinds >> 4,
        address_type: kinds & 15,
        address: u32::from_be_bytes([0, a0, a1, a2]),
        latitude: i32::from_be_bytes([la0, la1, la2, 0]) >> 8,
        longitude: i32::from_be_bytes([lo0, lo1, lo2, 0]) >> 8,
        altitude: u16::from_be_bytes([al0, al1]) >> 4,
        miscellaneous: al1 & 15,
        nic: categories >> 4,
        nacp: categories & 15,
        speed: u16::from_be_bytes([v0, v1]) >> 4,
        vertical_rate: i16::from_be_bytes([v1, v2]) << 4 >> 4,
        track,
        emitter,
        callsign,
        emergency: last >> 4,
        spare: last & 15,
    }
}

#[inline]
fn report_body(id: u8, report: &Report) -> [u8; 28] {
    let [_, a0, a1, a2] = report.address.to_be_bytes();
    let [_, la0, la1, la2] = report.latitude.to_be_bytes();
    let [_, lo0, lo1, lo2] = report.longitude.to_be_bytes();
    let [al0, al1] = (report.altitude << 4 | u16::from(report.miscellaneous)).to_be_bytes();
    let velocity = u32::from(report.speed) << 12 | (report.vertical_rate as u32 & 0xFFF);
    let [_, v0, v1, v2] = velocity.to_be_bytes();
    let [c0, c1, c2, c3, c4, c5, c6, c7] = report.callsign;
    [
        id,
        report.alert << 4 | report.address_type,
        a0,
        a1,
        a2,
        la0,
        la1,
        la2,
        lo0,
        lo1,
        lo2,
        al0,
        al1,
        report.nic << 4 | report.nacp,
        v0,
        v1,
        v2,
        report.track,
        report.emitter,
        c0,
        c1,
        c2,
        c3,
        c4,
        c5,
        c6,
        c7,
        report.emergency << 4 | report.spare,
    ]
}

#[inline]
fn report_fits(report: &Report) -> bool {
    let halves = report.alert
        | report.address_type
        | report.miscellaneous
        | report.nic
        | report.nacp
        | report.emergency
        | report.spare;
    halves < 1 << 4
        && report.address < 1 << 24
        && (-1 << 23..1 << 23).contains(&report.latitude)
        && (-1 << 23..1 << 23).contains(&report.longitude)
        && (report.altitude | report.speed) < 1 << 12
        && (-2048..2048).contains(&report.vertical_rate)
}

fn geometric_altitude(octets: &[u8; 4]) -> GeometricAltitude {
    let [a0, a1, m0, m1] = *octets;
    GeometricAltitude {
        altitude: i16::from_be_bytes([a0, a1]),
        metrics: u16::from_be_bytes([m0, m1]),
    }
}

fn geometric_altitude_body(altitude: &GeometricAltitude) -> [u8; 5] {
    let [a0, a1] = altitude.altitude.to_be_bytes();
    let [m0, m1] = altitude.metrics.to_be_bytes();
    [11, a0, a1, m0, m1]
}

fn request(octets: &[u8; 2]) -> Result<Request, Refusal> {
    let [version, requested_id] = *octets;
    ensure(version == 2, Refusal::Fixed)?;
    Ok(Request { requested_id })
}

#[inline]
fn control(octets: &[u8; 17]) -> Result<Control, Refusal> {
    let [version, flags, a0, a1, a2, a3, s0, s1, emergency, identity @ ..] = *octets;
    ensure(version == 1, Refusal::Fixed)?;
    let squawk = u16::from_le_bytes([s0, s1]);
    ensure(is_squawk(squawk) && is_identity(&identity), Refusal::Field)?;
    Ok(Control {
        es_enabled: flags & 0x80 != 0,
        mode_s: flags & 0x40 != 0,
        mode_c: flags & 0x20 != 0,
        mode_a: flags & 0x10 != 0,
        ident: flags & 0x08 != 0,
        air_ground: flags >> 1 & 3,
        baro_checked: flags & 1 != 0,
        altitude: i32::from_le_bytes([a0, a1, a2, a3]),
        squawk,
        emergency,
        identity,
    })
}

#[inline]
fn control_fits(control: &Control) -> bool {
    control.air_ground < 1 << 2 && is_squawk(control.squawk) && is_identity(&control.identity)
}

#[inline]
fn control_body(control: &Control) -> [u8; 18] {
    let flags = u8::from(control.es_enabled) << 7
        | u8::from(control.mode_s) << 6
        | u8::from(control.mode_c) << 5
        | u8::from(control.mode_a) << 4
        | u8::from(control.ident) << 3
        | control.air_ground << 1
        | u8::from(control.baro_checked);
    let [a0, a1, a2, a3] = control.altitude.to_le_bytes();
    let [s0, s1] = control.squawk.to_le_bytes();
    let [i0, i1, i2, i3, i4, i5, i6, i7] = control.identity;
    let emergency = control.emergency;
    [
        45, 1, flags, a0, a1, a2, a3, s0, s1, emergency, i0, i1, i2, i3, i4, i5, i6, i7,
    ]
}

fn initialization(octets: &[u8; 18]) -> Result<Initialization, Refusal> {
    let [signature, subtype, version, a0, a1, a2, emitter, callsign @ .., stall_speed, size, antenna] =
        *octets;
    ensure([signature, subtype] == [65, 1], Refusal::Fixed)?;
    let fits = is_emitter(emitter) && is_callsign(&callsign) && size <= 15;
    ensure(fits, Refusal::Field)?;
    Ok(Initialization {
        version,
        address: u32::from_le_bytes([a0, a1, a2, 0]),
        emitter,
        callsign,
        stall_speed,
        size,
        lateral: antenna >> 5,
        longitudinal: antenna & 31,
    })
}

fn initialization_fits(of: &Initialization) -> bool {
    of.address < 1 << 24
        && is_emitter(of.emitter)
        && is_callsign(&of.callsign)
        && of.size <= 15
        && of.lateral < 1 << 3
        && of.longitudinal < 1 << 5
}

fn initialization_body(of: &Initialization) -> [u8; 19] {
    let [a0, a1, a2, _] = of.address.to_le_bytes();
    let [c0, c1, c2, c3, c4, c5, c6, c7] = of.callsign;
    let antenna = of.lateral << 5 | of.longitudinal;
    [
        117,
        65,
        1,
        of.version,
        a0,
        a1,
        a2,
        of.emitter,
        c0,
        c1,
        c2,
        c3,
        c4,
        c5,
        c6,
        c7,
        of.stall_speed,
        of.size,
        antenna,
    ]
}

#[inline]
fn is_letter_or_digit(octet: u8) -> bool {
    octet.is_ascii_uppercase() || octet.is_ascii_digit()
}

/// Spaces at the end alone.
#[inline]
fn is_identity(text: &[u8; 8]) -> bool {
    let end = text.iter().rposition(|&octet| octet != b' ');
    end.is_none_or(|last| text[..=last].iter().all(|&octet| is_letter_or_digit(octet)))
}

fn is_callsign(text: &[u8; 8]) -> bool {
    text.iter()
        .all(|&octet| is_letter_or_digit(octet) || octet == b' ')
}

/// A baseline that answers something else would be no measure.
#[cfg(test)]
mod tests {
    use super::*;
    use compare::generator::Generator;
    use compare::messages::{ours, with_field, KINDS};
    use ostrogosz::messages::{read_message, write_message};

    fn assert_same_reading(body: &[u8]) {
        assert_eq!(
            read(body),
            read_message(body).map_err(Refusal::from),
            "body {body:02X?}"
        );
    }

    fn assert_same_writing(message: &Message<'_>, room: usize) {
        let mut outputs = [[0xA5; 440]; 2];
        let rust = write(message, &mut outputs[0][..room]);
        let proved = write_message(message, &mut outputs[1][..room]).map_err(Refusal::from);
        assert_eq!(rust, proved, "room {room}, {message:X?}");
        assert_eq!(outputs[0], outputs[1], "room {room}, {message:X?}");
    }

    #[test]
    fn both_readers_answer_alike() {
        let mut generator = Generator::new(31);
        for kind in KINDS {
            for turn in 0..20_000 {
                let mut body = kind.right_body(&mut generator);
                let place = turn % body.len();
                body[place] = generator.number() as u8;
                assert_same_reading(&body);
                assert_same_reading(&kind.random_body(turn % 440, &mut generator));
            }
        }
    }

    #[test]
    fn both_writers_answer_alike() {
        let mut generator = Generator::new(32);
        for kind in KINDS {
            for turn in 0..20_000 {
                let message = match turn % 2 {
                    0 => kind.message(&mut generator),
                    _ => kind.wild_message(&mut generator),
                };
                let exact = kind.octets;
                let room = generator.pick(&[0, exact - 1, exact, exact + 1, 440]);
                assert_same_writing(&ours(&message), room);
            }
        }
    }

    /// Every number of a field in each kind that has it: how many were tried.
    fn assert_same_numbers(name: &'static str, seed: u64) -> u64 {
        let mut generator = Generator::new(seed);
        let mut tried = 0;
        for (kind, field) in with_field(name) {
            for number in field.edges.every() {
                let (message, body) = kind.with(field, number, &mut generator);
                assert_same_reading(&body);
                assert_same_writing(&ours(&message), kind.octets);
                tried += 1;
            }
        }
        tried
    }

    #[test]
    fn every_squawk_is_answered_alike() {
        assert_eq!(assert_same_numbers("squawk", 35), 65_536);
    }

    /// In 10, 20 and 117.
    #[test]
    fn every_emitter_is_answered_alike() {
        assert_eq!(assert_same_numbers("emitter", 36), 3 * 256);
    }
}
