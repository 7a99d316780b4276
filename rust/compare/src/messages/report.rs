//! Messages 10 and 20.

use ostrogosz::messages as ours;
use second::messages::{altitude_feet, vertical_rate_feet_per_minute, Message, Report};

use super::{field, text, Kind, HALF, OCTET};
use crate::edges::{Edges, Field};
use crate::explained::{known, pointed, quoted};
use crate::texts::{Characters, TextField};

pub(super) static OWNSHIP: Kind = Kind {
    name: "10, Ownship",
    octets: 28,
    head: &[10],
    ranged: false,
    text: Some(&CALLSIGN),
    fields: &FIELDS,
    blank: || Message::Ownship(BLANK),
    ours: |message| match message {
        Message::Ownship(of) => Some(ours::Message::Ownship(our(of))),
        _ => None,
    },
    theirs: |message| match *message {
        ours::Message::Ownship(of) => Some(Message::Ownship(theirs(of))),
        _ => None,
    },
    shown: |message| match message {
        Message::Ownship(of) => Some(format!("ownship {}", shown(of))),
        _ => None,
    },
};

pub(super) static TRAFFIC: Kind = Kind {
    name: "20, Traffic",
    octets: 28,
    head: &[20],
    ranged: false,
    text: Some(&CALLSIGN),
    fields: &FIELDS,
    blank: || Message::Traffic(BLANK),
    ours: |message| match message {
        Message::Traffic(of) => Some(ours::Message::Traffic(our(of))),
        _ => None,
    },
    theirs: |message| match *message {
        ours::Message::Traffic(of) => Some(Message::Traffic(theirs(of))),
        _ => None,
    },
    shown: |message| match message {
        Message::Traffic(of) => Some(format!("traffic {}", shown(of))),
        _ => None,
    },
};

static FIELDS: [Field<Message>; 15] = [
    field!(Ownship | Traffic, alert, HALF),
    field!(Ownship | Traffic, address_type, HALF),
    field!(Ownship | Traffic, address, Edges::unsigned(24, 32)),
    field!(Ownship | Traffic, latitude, Edges::signed(24, 32)),
    field!(Ownship | Traffic, longitude, Edges::signed(24, 32)),
    field!(Ownship | Traffic, altitude, Edges::unsigned(12, 16)),
    field!(Ownship | Traffic, miscellaneous, HALF),
    field!(Ownship | Traffic, nic, HALF),
    field!(Ownship | Traffic, nacp, HALF),
    field!(Ownship | Traffic, speed, Edges::unsigned(12, 16)),
    field!(Ownship | Traffic, vertical_rate, Edges::signed(12, 16)),
    field!(Ownship | Traffic, track, OCTET),
    field!(Ownship | Traffic, emitter, OCTET).at(18),
    field!(Ownship | Traffic, emergency, HALF),
    field!(Ownship | Traffic, spare, HALF),
];

static CALLSIGN: TextField<Message> = text!(Ownship | Traffic, callsign, 19, Characters::Any);

const BLANK: Report = Report {
    alert: 0,
    address_type: 0,
    address: 0,
    latitude: 0,
    longitude: 0,
    altitude: 0,
    miscellaneous: 0,
    nic: 0,
    nacp: 0,
    speed: 0,
    vertical_rate: 0,
    track: 0,
    emitter: 0,
    callsign: [0; 8],
    emergency: 0,
    spare: 0,
};

fn theirs(report: ours::Report) -> Report {
    Report {
        alert: report.alert,
        address_type: report.address_type,
        address: report.address,
        latitude: report.latitude,
        longitude: report.longitude,
        altitude: report.altitude,
        miscellaneous: report.miscellaneous,
        nic: report.nic,
        nacp: report.nacp,
        speed: report.speed,
        vertical_rate: report.vertical_rate,
        track: report.track,
        emitter: report.emitter,
        callsign: report.callsign,
        emergency: report.emergency,
        spare: report.spare,
    }
}

fn our(report: &Report) -> ours::Report {
    ours::Report {
        alert: report.alert,
        address_type: report.address_type,
        address: report.address,
        latitude: report.latitude,
        longitude: report.longitude,
        altitude: report.altitude,
        miscellaneous: report.miscellaneous,
        nic: report.nic,
        nacp: report.nacp,
        speed: report.speed,
        vertical_rate: report.vertical_rate,
        track: report.track,
        emitter: report.emitter,
        callsign: report.callsign,
        emergency: report.emergency,
        spare: report.spare,
    }
}

/// Steps of 180 / 2^23 degrees as degrees with seven digits, toward zero.
fn angle(steps: i64) -> String {
    pointed(steps * 1_800_000_000 / (1 << 23), 7)
}

fn shown(report: &Report) -> String {
    format!(
        "alert {} address type {} address {:06x} latitude {} longitude {} altitude {} \
         miscellaneous {} nic {} nacp {} speed {} vertical rate {} track {} emitter {} \
         callsign {} emergency {} spare {}",
        report.alert,
        report.address_type,
        report.address,
        angle(report.latitude.into()),
        angle(report.longitude.into()),
        known(
            altitude_feet(report.altitude).map(|feet| feet.to_string()),
            "feet"
        ),
        report.miscellaneous,
        report.nic,
        report.nacp,
        known(
            (report.speed != 0xFFF).then(|| report.speed.to_string()),
            "knots"
        ),
        known(
            vertical_rate_feet_per_minute(report.vertical_rate).map(|feet| feet.to_string()),
            "feet per minute"
        ),
        pointed(i64::from(report.track) * 3_600_000_000 / 256, 7),
        report.emitter,
        quoted(&report.callsign),
        report.emergency,
        report.spare
    )
}
