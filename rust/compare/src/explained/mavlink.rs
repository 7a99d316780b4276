//! A capture of MAVLink frames explained.

use std::io::Write;

use second::mavlink::{read, Dynamic, Frame, Message, RequestDataStream, Static, Status, Traffic};

use super::{known, pointed, quoted, reason};

/// The explanation of frames back to back, up to the first that is refused.
pub fn mavlink(octets: &[u8]) -> Vec<u8> {
    let (mut at, mut frames) = (0, 0);
    let mut text = Vec::new();
    while at < octets.len() {
        match read(&octets[at..]) {
            Ok(frame) => {
                writeln!(text, "{}", shown(&frame)).unwrap();
                at += frame.used;
                frames += 1;
            }
            Err(number) => {
                writeln!(text, "no {number} {}", reason(number)).unwrap();
                break;
            }
        }
    }
    writeln!(text, "frames {frames} bytes {at}").unwrap();
    text
}

/// The line of a frame.
fn shown(frame: &Frame) -> String {
    let (name, fields) = match &frame.message {
        Message::RequestDataStream(request) => ("data stream request", request_shown(request)),
        Message::Static(of) => ("static", static_shown(of)),
        Message::Dynamic(of) => ("dynamic", dynamic_shown(of)),
        Message::Status(status) => ("status", status_shown(status)),
        Message::Traffic(traffic) => ("traffic report", traffic_shown(traffic)),
    };
    format!(
        "ok {} {name} sequence {} system {} component {} {fields}",
        frame.used, frame.sequence, frame.system, frame.component
    )
}

fn request_shown(request: &RequestDataStream) -> String {
    format!(
        "rate {} target system {} target component {} stream {} start {}",
        request.rate,
        request.target_system,
        request.target_component,
        request.stream,
        request.start_stop
    )
}

fn static_shown(of: &Static) -> String {
    format!(
        "address {:06x} integrity {:02x} stall speed {} metres per second callsign {} \
         capability {:02x} emitter {} size {} lateral {} longitudinal {}",
        of.address,
        of.integrity,
        pointed(of.stall_speed.into(), 2),
        quoted(&of.callsign),
        of.capability,
        of.emitter,
        of.size,
        of.lateral,
        of.longitudinal
    )
}

/// So many parts with a unit, unless they are the mark for unknown.
fn unless(mark: i64, parts: impl Into<i64>, places: usize, unit: &str) -> String {
    let parts = parts.into();
    known((parts != mark).then(|| pointed(parts, places)), unit)
}

/// Degrees in parts of 1E-7, unless they are the mark for unknown.
fn degrees(parts: i32) -> String {
    match parts {
        i32::MAX => "no data".to_owned(),
        parts => pointed(parts.into(), 7),
    }
}

fn dynamic_shown(of: &Dynamic) -> String {
    const MARK_16: i64 = i16::MAX as i64;
    const MARK_32: i64 = i32::MAX as i64;
    let seconds = (of.utc_time != u32::MAX).then(|| of.utc_time.to_string());
    let satellites = match of.satellites {
        u8::MAX => "no data".to_owned(),
        satellites => satellites.to_string(),
    };
    let place = format!(
        "utc time {} latitude {} longitude {} pressure altitude {} gnss altitude {}",
        known(seconds, "seconds"),
        degrees(of.latitude),
        degrees(of.longitude),
        unless(MARK_32, of.pressure_altitude, 3, "metres"),
        unless(MARK_32, of.gnss_altitude, 3, "metres")
    );
    let accuracy = format!(
        "horizontal accuracy {} vertical accuracy {} velocity accuracy {}",
        unless(u32::MAX.into(), of.horizontal_accuracy, 3, "metres"),
        unless(u16::MAX.into(), of.vertical_accuracy, 2, "metres"),
        unless(
            u16::MAX.into(),
            of.velocity_accuracy,
            3,
            "metres per second"
        )
    );
    let velocity = |parts: i16| unless(MARK_16, parts, 2, "metres per second");
    let motion = format!(
        "vertical speed {} north velocity {} east velocity {}",
        velocity(of.vertical_velocity),
        velocity(of.north_velocity),
        velocity(of.east_velocity)
    );
    format!(
        "{place} {accuracy} {motion} state {:04x} squawk {:04} fix {} satellites {satellites} \
         emergency {} control {:02x}",
        of.state, of.squawk, of.fix, of.emergency, of.control
    )
}

fn status_shown(status: &Status) -> String {
    let lowest = status
        .lowest_failure()
        .map_or("none".to_owned(), |bit| bit.to_string());
    format!(
        "status {:02x} failures {} lowest {lowest}",
        status.status,
        status.failures()
    )
}

fn traffic_shown(traffic: &Traffic) -> String {
    let squawk = match traffic.squawk {
        u16::MAX => "none".to_owned(),
        squawk => format!("{squawk:04}"),
    };
    format!(
        "address {:08x} latitude {} longitude {} altitude {} metres heading {} \
         horizontal velocity {} metres per second vertical velocity {} metres per second \
         valid {:04x} squawk {squawk} altitude type {} callsign {} emitter {} age {} seconds",
        traffic.address,
        pointed(traffic.latitude.into(), 7),
        pointed(traffic.longitude.into(), 7),
        pointed(traffic.altitude.into(), 3),
        pointed(traffic.heading.into(), 2),
        pointed(traffic.horizontal_velocity.into(), 2),
        pointed(traffic.vertical_velocity.into(), 2),
        traffic.valid,
        traffic.altitude_type,
        quoted(&traffic.callsign),
        traffic.emitter,
        traffic.since_last
    )
}
