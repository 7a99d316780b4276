//! MAVLink frames as Rust would have them: slices of the kind's length,
//! `from_le_bytes`, the check by a table, and an enum by value.
//!
//! It answers as the proved library does. Its calls are not inlined, since one
//! through the C boundary can't be.

use ostrogosz::mavlink::{DataStream, Dynamic, Header, Static, Status, Traffic};
#[cfg(test)]
use ostrogosz::mavlink::{Frame, Message};
use ostrogosz::Refusal;

use crate::emitter::is_emitter;
use crate::squawk::is_squawk;
use crate::x25::x25;

/// The octet that starts a frame.
const START: u8 = 0xFE;

/// Octets before the payload.
const HEAD: usize = 6;

/// Octets of the check.
const CHECK: usize = 2;

/// Reads the frame at the start of `input`, of whatever kind.
#[cfg(test)]
pub fn read(input: &[u8]) -> Result<Frame, Refusal> {
    let start = input.first().ok_or(Refusal::MavlinkTooShort)?;
    ensure(*start == START, Refusal::MavlinkStart)?;
    let &[_, _, sequence, system, component, id, ..] = input else {
        return Err(Refusal::MavlinkTooShort);
    };
    let header = Header {
        sequence,
        system,
        component,
    };
    match id {
        66 => Ok(frame(header, data_stream(payload(input, 148)?).into())),
        201 => Ok(frame(header, static_data(payload(input, 126)?)?.into())),
        202 => Ok(frame(header, dynamic(payload(input, 7)?)?.into())),
        203 => Ok(status_frame(header, payload(input, 85)?)),
        246 => Ok(frame(header, traffic(payload(input, 184)?)?.into())),
        _ => Err(Refusal::MavlinkUnknownId),
    }
}

/// Writes the frame of a message, of whatever kind, at the start of `output`.
#[cfg(test)]
pub fn write(message: &Message, header: Header, output: &mut [u8]) -> Result<usize, Refusal> {
    match message {
        Message::DataStream(of) => put(66, 148, header, output, |at| put_data_stream(of, at)),
        Message::Static(of) if static_fits(of) => {
            put(201, 126, header, output, |at| put_static(of, at))
        }
        Message::Dynamic(of) if dynamic_fits(of) => {
            put(202, 7, header, output, |at| put_dynamic(of, at))
        }
        Message::Status(of) => put(203, 85, header, output, |at: &mut [u8; 1]| {
            *at = [of.status];
        }),
        Message::Traffic(of) if traffic_fits(of) => {
            put(246, 184, header, output, |at| put_traffic(of, at))
        }
        _ => Err(Refusal::MavlinkField),
    }
}

/// One kind's reader and writer over the caller's structs.
macro_rules! lent {
    ($($of:ident, $id:literal, $extra:literal: $type:ty, $fields:expr, $fits:expr, $put:expr;)+) => {
        $(pub mod $of {
            use super::*;

            /// Reads the frame at the start of an input into the structs.
            #[inline(never)]
            pub fn read(
                input: &[u8],
                header: &mut Header,
                message: &mut $type,
            ) -> Result<(), Refusal> {
                let start = input.first().ok_or(Refusal::MavlinkTooShort)?;
                ensure(*start == START, Refusal::MavlinkStart)?;
                let &[_, _, sequence, system, component, id, ..] = input else {
                    return Err(Refusal::MavlinkTooShort);
                };
                ensure(id == $id, Refusal::MavlinkUnknownId)?;
                *message = $fields(payload(input, $extra)?)?;
                *header = Header { sequence, system, component };
                Ok(())
            }

            /// Writes the frame of the structs.
            #[inline(never)]
            pub fn write(
                message: &$type,
                header: &Header,
                output: &mut [u8],
            ) -> Result<usize, Refusal> {
                ensure($fits(message), Refusal::MavlinkField)?;
                put($id, $extra, *header, output, |at| $put(message, at))
            }
        })+
    };
}

lent! {
    of_66, 66, 148: DataStream, |octets| Ok::<_, Refusal>(data_stream(octets)), |_| true, put_data_stream;
    of_201, 201, 126: Static, static_data, static_fits, put_static;
    of_202, 202, 7: Dynamic, dynamic, dynamic_fits, put_dynamic;
    of_203, 203, 85: Status, |&[status]: &[u8; 1]| Ok::<_, Refusal>(Status { status }), |_| true,
        |of: &Status, at: &mut [u8; 1]| *at = [of.status];
    of_246, 246, 184: Traffic, traffic, traffic_fits, put_traffic;
}

#[inline]
fn ensure(holds: bool, refusal: Refusal) -> Result<(), Refusal> {
    if holds {
        Ok(())
    } else {
        Err(refusal)
    }
}

/// The payload of a kind that has so many octets of it, behind a right check.
#[inline]
fn payload<const N: usize>(input: &[u8], extra: u8) -> Result<&[u8; N], Refusal> {
    ensure(usize::from(input[1]) == N, Refusal::MavlinkLength)?;
    let frame = input.get(..HEAD + N + CHECK);
    let (checked, check) = frame.ok_or(Refusal::MavlinkTooShort)?.split_at(HEAD + N);
    let right = x25(&checked[1..], extra).to_le_bytes() == check;
    ensure(right, Refusal::MavlinkCheck)?;
    Ok(checked[HEAD..].try_into().expect("N octets"))
}

/// Puts the frame of a kind that has so many octets of payload.
#[inline]
fn put<const N: usize>(
    id: u8,
    extra: u8,
    header: Header,
    output: &mut [u8],
    put_payload: impl FnOnce(&mut [u8; N]),
) -> Result<usize, Refusal> {
    let frame = output.get_mut(..HEAD + N + CHECK);
    let frame = frame.ok_or(Refusal::OutputLength)?;
    let Header {
        sequence,
        system,
        component,
    } = header;
    let (checked, check) = frame.split_at_mut(HEAD + N);
    let (head, payload) = checked.split_at_mut(HEAD);
    head.copy_from_slice(&[START, N as u8, sequence, system, component, id]);
    put_payload(payload.try_into().expect("N octets"));
    check.copy_from_slice(&x25(&checked[1..], extra).to_le_bytes());
    Ok(HEAD + N + CHECK)
}

/// The octets at this place.
#[inline]
fn at<const N: usize>(octets: &[u8], place: usize) -> [u8; N] {
    octets[place..place + N].try_into().expect("N octets")
}

/// Puts octets at this place.
#[inline]
fn put_at<const N: usize>(octets: &mut [u8], place: usize, value: [u8; N]) {
    octets[place..place + N].copy_from_slice(&value);
}

/// The frame of a message.
#[cfg(test)]
fn frame(header: Header, message: Message) -> Frame {
    let payload = match message {
        Message::DataStream(_) => 6,
        Message::Static(_) => 19,
        Message::Dynamic(_) => 42,
        Message::Status(_) => 1,
        Message::Traffic(_) => 38,
        other => panic!("no kind of ours: {other:?}"),
    };
    Frame {
        header,
        message,
        used: HEAD + payload + CHECK,
    }
}

#[cfg(test)]
fn status_frame(header: Header, &[status]: &[u8; 1]) -> Frame {
    frame(header, Message::Status(Status { status }))
}

#[inline]
fn data_stream(octets: &[u8; 6]) -> DataStream {
    let [r0, r1, target_system, target_component, req_stream_id, start_stop] = *octets;
    DataStream {
        req_message_rate: u16::from_le_bytes([r0, r1]),
        target_system,
        target_component,
        req_stream_id,
        start_stop,
    }
}

#[inline]
fn put_data_stream(of: &DataStream, octets: &mut [u8; 6]) {
    let [r0, r1] = of.req_message_rate.to_le_bytes();
    *octets = [
        r0,
        r1,
        of.target_system,
        of.target_component,
        of.req_stream_id,
        of.start_stop,
    ];
}

#[inline]
fn static_data(octets: &[u8; 19]) -> Result<Static, Refusal> {
    let [a0, a1, a2, integrity, s0, s1, callsign @ .., capability, emitter, alw_encode, gps_lat_offs, gps_lon_offs] =
        *octets;
    let of = Static {
        icao: u32::from_le_bytes([a0, a1, a2, 0]),
        integrity,
        stall_speed: u16::from_le_bytes([s0, s1]),
        callsign,
        capability,
        emitter,
        alw_encode,
        gps_lat_offs,
        gps_lon_offs,
    };
    ensure(static_fits(&of), Refusal::MavlinkField)?;
    Ok(of)
}

#[inline]
fn static_fits(of: &Static) -> bool {
    of.icao < 1 << 24
        && is_callsign(&of.callsign)
        && of.capability == 0
        && is_emitter(of.emitter)
        && of.alw_encode <= 15
        && of.gps_lat_offs <= 7
        && of.gps_lon_offs <= 31
}

#[inline]
fn put_static(of: &Static, octets: &mut [u8; 19]) {
    let [a0, a1, a2, _] = of.icao.to_le_bytes();
    put_at(octets, 0, [a0, a1, a2, of.integrity]);
    put_at(octets, 4, of.stall_speed.to_le_bytes());
    put_at(octets, 6, of.callsign);
    put_at(octets, 14, [of.capability, of.emitter, of.alw_encode]);
    put_at(octets, 17, [of.gps_lat_offs, of.gps_lon_offs]);
}

#[inline]
fn dynamic(octets: &[u8; 42]) -> Result<Dynamic, Refusal> {
    let [fix_type, num_sats, em_status, control] = at(octets, 38);
    let of = Dynamic {
        utc_time: u32::from_le_bytes(at(octets, 0)),
        latitude: i32::from_le_bytes(at(octets, 4)),
        longitude: i32::from_le_bytes(at(octets, 8)),
        alt_pres: i32::from_le_bytes(at(octets, 12)),
        alt_gnss: i32::from_le_bytes(at(octets, 16)),
        acc_horiz: u32::from_le_bytes(at(octets, 20)),
        acc_vert: u16::from_le_bytes(at(octets, 24)),
        acc_vel: u16::from_le_bytes(at(octets, 26)),
        vel_vert: i16::from_le_bytes(at(octets, 28)),
        ns_vog: i16::from_le_bytes(at(octets, 30)),
        ew_vog: i16::from_le_bytes(at(octets, 32)),
        state: u16::from_le_bytes(at(octets, 34)),
        squawk: u16::from_le_bytes(at(octets, 36)),
        fix_type,
        num_sats,
        em_status,
        control,
    };
    ensure(dynamic_fits(&of), Refusal::MavlinkField)?;
    Ok(of)
}

#[inline]
fn dynamic_fits(of: &Dynamic) -> bool {
    is_squawk(of.squawk) && of.fix_type <= 5
}

#[inline]
fn put_dynamic(of: &Dynamic, octets: &mut [u8; 42]) {
    put_at(octets, 0, of.utc_time.to_le_bytes());
    put_at(octets, 4, of.latitude.to_le_bytes());
    put_at(octets, 8, of.longitude.to_le_bytes());
    put_at(octets, 12, of.alt_pres.to_le_bytes());
    put_at(octets, 16, of.alt_gnss.to_le_bytes());
    put_at(octets, 20, of.acc_horiz.to_le_bytes());
    put_at(octets, 24, of.acc_vert.to_le_bytes());
    put_at(octets, 26, of.acc_vel.to_le_bytes());
    put_at(octets, 28, of.vel_vert.to_le_bytes());
    put_at(octets, 30, of.ns_vog.to_le_bytes());
    put_at(octets, 32, of.ew_vog.to_le_bytes());
    put_at(octets, 34, of.state.to_le_bytes());
    put_at(octets, 36, of.squawk.to_le_bytes());
    let last = [of.fix_type, of.num_sats, of.em_status, of.control];
    put_at(octets, 38, last);
}

#[inline]
fn traffic(octets: &[u8; 38]) -> Result<Traffic, Refusal> {
    let [callsign_ninth, emitter_type, tslc] = at(octets, 35);
    let of = Traffic {
        icao_address: u32::from_le_bytes(at(octets, 0)),
        lat: i32::from_le_bytes(at(octets, 4)),
        lon: i32::from_le_bytes(at(octets, 8)),
        altitude: i32::from_le_bytes(at(octets, 12)),
        heading: u16::from_le_bytes(at(octets, 16)),
        hor_velocity: u16::from_le_bytes(at(octets, 18)),
        ver_velocity: i16::from_le_bytes(at(octets, 20)),
        valid_flags: u16::from_le_bytes(at(octets, 22)),
        squawk: u16::from_le_bytes(at(octets, 24)),
        altitude_type: octets[26],
        callsign: at(octets, 27),
        callsign_ninth,
        emitter_type,
        tslc,
    };
    ensure(traffic_fits(&of), Refusal::MavlinkField)?;
    Ok(of)
}

#[inline]
fn traffic_fits(of: &Traffic) -> bool {
    is_squawk(of.squawk) || of.squawk == u16::MAX
}

#[inline]
fn put_traffic(of: &Traffic, octets: &mut [u8; 38]) {
    put_at(octets, 0, of.icao_address.to_le_bytes());
    put_at(octets, 4, of.lat.to_le_bytes());
    put_at(octets, 8, of.lon.to_le_bytes());
    put_at(octets, 12, of.altitude.to_le_bytes());
    put_at(octets, 16, of.heading.to_le_bytes());
    put_at(octets, 18, of.hor_velocity.to_le_bytes());
    put_at(octets, 20, of.ver_velocity.to_le_bytes());
    put_at(octets, 22, of.valid_flags.to_le_bytes());
    put_at(octets, 24, of.squawk.to_le_bytes());
    octets[26] = of.altitude_type;
    put_at(octets, 27, of.callsign);
    put_at(octets, 35, [of.callsign_ninth, of.emitter_type, of.tslc]);
}

#[inline]
fn is_callsign(text: &[u8; 8]) -> bool {
    text.iter()
        .all(|octet| matches!(octet, b'A'..=b'Z' | b'0'..=b'9' | b' '))
}

/// A baseline that answers something else would be no measure.
#[cfg(test)]
mod tests {
    use super::*;
    use compare::generator::Generator;
    use compare::mavlink::{any_header, Kind};
    use compare::mavlink_sides::{our_header, our_message};
    use ostrogosz::mavlink::{read_frame, write_frame, LONGEST_FRAME};

    fn assert_same_reading(input: &[u8]) {
        assert_eq!(
            read(input),
            read_frame(input).map_err(Refusal::from),
            "input {input:02X?}"
        );
    }

    fn assert_same_writing(message: &Message, header: Header, room: usize) {
        let mut outputs = [[0xA5; LONGEST_FRAME + 4]; 2];
        let rust = write(message, header, &mut outputs[0][..room]);
        let proved = write_frame(message, header, &mut outputs[1][..room]).map_err(Refusal::from);
        assert_eq!(rust, proved, "room {room}, {message:X?}");
        assert_eq!(outputs[0], outputs[1], "room {room}, {message:X?}");
    }

    #[test]
    fn both_readers_answer_alike() {
        let mut generator = Generator::new(61);
        for kind in Kind::ALL {
            for turn in 0..20_000 {
                let mut frame = kind.right_frame(&mut generator);
                assert_same_reading(&frame[..turn % (frame.len() + 1)]);
                let place = turn % frame.len();
                frame[place] = generator.number() as u8;
                assert_same_reading(&frame);
                kind.seal(&mut frame);
                assert_same_reading(&frame);
                assert_same_reading(&kind.random_frame(&mut generator));
            }
        }
    }

    #[test]
    fn both_writers_answer_alike() {
        let mut generator = Generator::new(62);
        for kind in Kind::ALL {
            for turn in 0..20_000 {
                let message = match turn % 2 {
                    0 => kind.message(&mut generator),
                    _ => kind.wild_message(&mut generator),
                };
                let header = our_header(any_header(&mut generator));
                let exact = kind.octets();
                let room = generator.pick(&[0, exact - 1, exact, exact + 1, LONGEST_FRAME + 4]);
                assert_same_writing(&our_message(&message), header, room);
            }
        }
    }

    /// Every number of a field in each kind that has it: how many were tried.
    fn assert_same_numbers(name: &'static str, seed: u64) -> u64 {
        let mut generator = Generator::new(seed);
        let mut tried = 0;
        for (kind, field) in Kind::with_field(name) {
            for number in field.edges.every() {
                let header = any_header(&mut generator);
                let (message, frame) = kind.with(field, number, header, &mut generator);
                assert_same_reading(&frame);
                assert_same_writing(&our_message(&message), our_header(header), kind.octets());
                tried += 1;
            }
        }
        tried
    }

    /// In 202 and 246.
    #[test]
    fn every_squawk_is_answered_alike() {
        assert_eq!(assert_same_numbers("squawk", 64), 2 * 65_536);
    }

    /// In 201 and 246.
    #[test]
    fn every_emitter_is_answered_alike() {
        assert_eq!(assert_same_numbers("emitter", 65), 2 * 256);
    }
}
