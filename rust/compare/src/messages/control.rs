//! Message 45.

use ostrogosz::messages as ours;
use second::messages::{Control, Message};

use super::{field, text, Kind, OCTET};
use crate::edges::{Edges, Field};
use crate::explained::{known, pointed, quoted, truth};
use crate::texts::{Characters, TextField};

pub(super) static CONTROL: Kind = Kind {
    name: "45, Control",
    octets: 18,
    head: &[45, 1],
    ranged: true,
    text: Some(&IDENTITY),
    fields: &FIELDS,
    blank: || Message::Control(BLANK),
    ours: |message| match message {
        Message::Control(of) => Some(ours::Message::Control(our(of))),
        _ => None,
    },
    theirs: |message| match *message {
        ours::Message::Control(of) => Some(Message::Control(theirs(of))),
        _ => None,
    },
    shown: |message| match message {
        Message::Control(of) => Some(shown(of)),
        _ => None,
    },
};

/// Of one bit, and a `bool` on our side, which holds no more.
const FLAG: Edges = Edges::unsigned(1, 1);

static FIELDS: [Field<Message>; 10] = [
    field!(Control, transmit_enabled, FLAG),
    field!(Control, mode_s_enabled, FLAG),
    field!(Control, mode_c_enabled, FLAG),
    field!(Control, mode_a_enabled, FLAG),
    field!(Control, ident, FLAG),
    field!(Control, air_ground, Edges::unsigned(2, 8)),
    field!(Control, barometer_checked, FLAG),
    field!(Control, pressure_altitude, Edges::signed(32, 32)),
    field!(Control, squawk, Edges::SQUAWK).at(7),
    field!(Control, emergency, OCTET),
];

static IDENTITY: TextField<Message> = text!(Control, flight_identity, 10, Characters::SpacesAtEnd);

const BLANK: Control = Control {
    transmit_enabled: 0,
    mode_s_enabled: 0,
    mode_c_enabled: 0,
    mode_a_enabled: 0,
    ident: 0,
    air_ground: 0,
    barometer_checked: 0,
    pressure_altitude: 0,
    squawk: 0,
    emergency: 0,
    flight_identity: [b' '; 8],
};

fn theirs(control: ours::Control) -> Control {
    Control {
        transmit_enabled: control.es_enabled.into(),
        mode_s_enabled: control.mode_s.into(),
        mode_c_enabled: control.mode_c.into(),
        mode_a_enabled: control.mode_a.into(),
        ident: control.ident.into(),
        air_ground: control.air_ground,
        barometer_checked: control.baro_checked.into(),
        pressure_altitude: control.altitude,
        squawk: control.squawk,
        emergency: control.emergency,
        flight_identity: control.identity,
    }
}

fn our(control: &Control) -> ours::Control {
    ours::Control {
        es_enabled: control.transmit_enabled == 1,
        mode_s: control.mode_s_enabled == 1,
        mode_c: control.mode_c_enabled == 1,
        mode_a: control.mode_a_enabled == 1,
        ident: control.ident == 1,
        air_ground: control.air_ground,
        baro_checked: control.barometer_checked == 1,
        altitude: control.pressure_altitude,
        squawk: control.squawk,
        emergency: control.emergency,
        identity: control.flight_identity,
    }
}

fn shown(control: &Control) -> String {
    let altitude = control.pressure_altitude;
    format!(
        "control 1090es {} mode s {} mode c {} mode a {} ident {} air ground {} \
         barometer checked {} altitude {} squawk {:04} emergency {} identity {}",
        truth(control.transmit_enabled),
        truth(control.mode_s_enabled),
        truth(control.mode_c_enabled),
        truth(control.mode_a_enabled),
        truth(control.ident),
        control.air_ground,
        truth(control.barometer_checked),
        known(
            (altitude != i32::MAX).then(|| pointed(altitude.into(), 3)),
            "metres"
        ),
        control.squawk,
        control.emergency,
        quoted(&control.flight_identity)
    )
}
