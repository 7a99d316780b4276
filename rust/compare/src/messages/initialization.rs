//! Message 117.

use ostrogosz::messages as ours;
use second::messages::{Initialization, Message};

use super::{field, text, Kind, OCTET};
use crate::edges::{Edges, Field};
use crate::explained::quoted;
use crate::texts::{Characters, TextField};

pub(super) static INITIALIZATION: Kind = Kind {
    name: "117, Initialization",
    octets: 19,
    head: &[117, 65, 1],
    ranged: true,
    text: Some(&CALLSIGN),
    fields: &FIELDS,
    blank: || Message::Initialization(BLANK),
    ours: |message| match message {
        Message::Initialization(of) => Some(ours::Message::Initialization(our(of))),
        _ => None,
    },
    theirs: |message| match *message {
        ours::Message::Initialization(of) => Some(Message::Initialization(theirs(of))),
        _ => None,
    },
    shown: |message| match message {
        Message::Initialization(of) => Some(shown(of)),
        _ => None,
    },
};

static FIELDS: [Field<Message>; 7] = [
    field!(Initialization, version, OCTET),
    field!(Initialization, address, Edges::unsigned(24, 32)),
    field!(Initialization, emitter, Edges::EMITTER).at(7),
    field!(Initialization, stall_speed, OCTET),
    field!(Initialization, size, Edges::up_to(15, 8)).at(17),
    field!(Initialization, lateral, Edges::unsigned(3, 8)),
    field!(Initialization, longitudinal, Edges::unsigned(5, 8)),
];

static CALLSIGN: TextField<Message> = text!(Initialization, callsign, 8, Characters::Spaced);

const BLANK: Initialization = Initialization {
    version: 0,
    address: 0,
    emitter: 0,
    callsign: [b' '; 8],
    stall_speed: 0,
    size: 0,
    lateral: 0,
    longitudinal: 0,
};

fn theirs(initialization: ours::Initialization) -> Initialization {
    Initialization {
        version: initialization.version,
        address: initialization.address,
        emitter: initialization.emitter,
        callsign: initialization.callsign,
        stall_speed: initialization.stall_speed,
        size: initialization.size,
        lateral: initialization.lateral,
        longitudinal: initialization.longitudinal,
    }
}

fn our(initialization: &Initialization) -> ours::Initialization {
    ours::Initialization {
        version: initialization.version,
        address: initialization.address,
        emitter: initialization.emitter,
        callsign: initialization.callsign,
        stall_speed: initialization.stall_speed,
        size: initialization.size,
        lateral: initialization.lateral,
        longitudinal: initialization.longitudinal,
    }
}

fn shown(initialization: &Initialization) -> String {
    format!(
        "initialization version {} address {:06x} emitter {} callsign {} stall speed {} knots \
         size {} lateral {} longitudinal {}",
        initialization.version,
        initialization.address,
        initialization.emitter,
        quoted(&initialization.callsign),
        initialization.stall_speed,
        initialization.size,
        initialization.lateral,
        initialization.longitudinal
    )
}
