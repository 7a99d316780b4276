//! The same MAVLink frame on both sides. Every field is named, so that none is
//! left out.

use ostrogosz::mavlink as ours;
use second::mavlink::{Dynamic, Frame, Message, RequestDataStream, Static, Status, Traffic};

use crate::comparison::lending;
use crate::mavlink::Header;

/// All that a reader says of a frame.
#[derive(Clone, Debug, PartialEq, Eq)]
pub struct Reading {
    /// The frame.
    pub frame: Frame,
    /// How many failure bits of a status are set.
    pub failures: u32,
    /// The lowest of them.
    pub lowest_failure: Option<u32>,
}

/// What the proved reader makes of an input, in the second program's types.
pub fn read(input: &[u8]) -> Result<Reading, u8> {
    lending(input, |input| {
        let frame = ours::read_frame(input).map_err(|refusal| refusal.number())?;
        let (failures, lowest_failure) = match frame.message {
            ours::Message::Status(status) => (status.failures().count, status.failures().lowest),
            _ => (0, None),
        };
        Ok(Reading {
            failures,
            lowest_failure,
            frame: second_frame(&frame),
        })
    })
}

/// What the second program makes of it.
pub fn second_read(input: &[u8]) -> Result<Reading, u8> {
    let frame = second::mavlink::read(input)?;
    let (failures, lowest_failure) = match &frame.message {
        Message::Status(status) => (status.failures(), status.lowest_failure()),
        _ => (0, None),
    };
    Ok(Reading {
        frame,
        failures,
        lowest_failure,
    })
}

/// What the proved writer makes of a message.
pub fn write(header: Header, message: &Message, output: &mut [u8]) -> Result<usize, u8> {
    lending(message, |message| {
        ours::write_frame(&our_message(message), our_header(header), output)
            .map_err(|refusal| refusal.number())
    })
}

/// What the second program makes of it.
pub fn second_write(
    [sequence, system, component]: Header,
    message: &Message,
    output: &mut [u8],
) -> Result<usize, u8> {
    second::mavlink::write(sequence, system, component, message, output)
}

/// The same frame in the second program's types.
fn second_frame(frame: &ours::Frame) -> Frame {
    Frame {
        used: frame.used,
        sequence: frame.header.sequence,
        system: frame.header.system,
        component: frame.header.component,
        message: second_message(&frame.message),
    }
}

fn second_message(message: &ours::Message) -> Message {
    match *message {
        ours::Message::DataStream(of) => Message::RequestDataStream(second_data_stream(of)),
        ours::Message::Static(of) => Message::Static(second_static(of)),
        ours::Message::Dynamic(of) => Message::Dynamic(second_dynamic(of)),
        ours::Message::Status(ours::Status { status }) => Message::Status(Status { status }),
        ours::Message::Traffic(of) => Message::Traffic(second_traffic(of)),
        other => panic!("the second program has no {other:?}"),
    }
}

fn second_data_stream(of: ours::DataStream) -> RequestDataStream {
    RequestDataStream {
        rate: of.req_message_rate,
        target_system: of.target_system,
        target_component: of.target_component,
        stream: of.req_stream_id,
        start_stop: of.start_stop,
    }
}

fn second_static(of: ours::Static) -> Static {
    Static {
        address: of.icao,
        integrity: of.integrity,
        stall_speed: of.stall_speed,
        callsign: of.callsign,
        capability: of.capability,
        emitter: of.emitter,
        size: of.alw_encode,
        lateral: of.gps_lat_offs,
        longitudinal: of.gps_lon_offs,
    }
}

fn second_dynamic(of: ours::Dynamic) -> Dynamic {
    Dynamic {
        utc_time: of.utc_time,
        latitude: of.latitude,
        longitude: of.longitude,
        pressure_altitude: of.alt_pres,
        gnss_altitude: of.alt_gnss,
        horizontal_accuracy: of.acc_horiz,
        vertical_accuracy: of.acc_vert,
        velocity_accuracy: of.acc_vel,
        vertical_velocity: of.vel_vert,
        north_velocity: of.ns_vog,
        east_velocity: of.ew_vog,
        state: of.state,
        squawk: of.squawk,
        fix: of.fix_type,
        satellites: of.num_sats,
        emergency: of.em_status,
        control: of.control,
    }
}

fn second_traffic(of: ours::Traffic) -> Traffic {
    let mut callsign = [of.callsign_ninth; 9];
    callsign[..8].copy_from_slice(&of.callsign);
    Traffic {
        address: of.icao_address,
        latitude: of.lat,
        longitude: of.lon,
        altitude: of.altitude,
        heading: of.heading,
        horizontal_velocity: of.hor_velocity,
        vertical_velocity: of.ver_velocity,
        valid: of.valid_flags,
        squawk: of.squawk,
        altitude_type: of.altitude_type,
        callsign,
        emitter: of.emitter_type,
        since_last: of.tslc,
    }
}

/// The same header in our types.
pub fn our_header([sequence, system, component]: Header) -> ours::Header {
    ours::Header {
        sequence,
        system,
        component,
    }
}

/// The same message in our types.
pub fn our_message(message: &Message) -> ours::Message {
    match message {
        Message::RequestDataStream(of) => ours::Message::DataStream(our_data_stream(of)),
        Message::Static(of) => ours::Message::Static(our_static(of)),
        Message::Dynamic(of) => ours::Message::Dynamic(our_dynamic(of)),
        &Message::Status(Status { status }) => ours::Message::Status(ours::Status { status }),
        Message::Traffic(of) => ours::Message::Traffic(our_traffic(of)),
    }
}

fn our_data_stream(of: &RequestDataStream) -> ours::DataStream {
    ours::DataStream {
        req_message_rate: of.rate,
        target_system: of.target_system,
        target_component: of.target_component,
        req_stream_id: of.stream,
        start_stop: of.start_stop,
    }
}

fn our_static(of: &Static) -> ours::Static {
    ours::Static {
        icao: of.address,
        integrity: of.integrity,
        stall_speed: of.stall_speed,
        callsign: of.callsign,
        capability: of.capability,
        emitter: of.emitter,
        alw_encode: of.size,
        gps_lat_offs: of.lateral,
        gps_lon_offs: of.longitudinal,
    }
}

fn our_dynamic(of: &Dynamic) -> ours::Dynamic {
    ours::Dynamic {
        utc_time: of.utc_time,
        latitude: of.latitude,
        longitude: of.longitude,
        alt_pres: of.pressure_altitude,
        alt_gnss: of.gnss_altitude,
        acc_horiz: of.horizontal_accuracy,
        acc_vert: of.vertical_accuracy,
        acc_vel: of.velocity_accuracy,
        vel_vert: of.vertical_velocity,
        ns_vog: of.north_velocity,
        ew_vog: of.east_velocity,
        state: of.state,
        squawk: of.squawk,
        fix_type: of.fix,
        num_sats: of.satellites,
        em_status: of.emergency,
        control: of.control,
    }
}

fn our_traffic(of: &Traffic) -> ours::Traffic {
    let [callsign @ .., callsign_ninth] = of.callsign;
    ours::Traffic {
        icao_address: of.address,
        lat: of.latitude,
        lon: of.longitude,
        altitude: of.altitude,
        heading: of.heading,
        hor_velocity: of.horizontal_velocity,
        ver_velocity: of.vertical_velocity,
        valid_flags: of.valid,
        squawk: of.squawk,
        altitude_type: of.altitude_type,
        callsign,
        callsign_ninth,
        emitter_type: of.emitter,
        tslc: of.since_last,
    }
}
