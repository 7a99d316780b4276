//! Message 11.

use ostrogosz::messages as ours;
use second::messages::{geometric_altitude_feet, GeometricAltitude, Message};

use super::{field, Kind};
use crate::edges::{Edges, Field};

pub(super) static GEOMETRIC_ALTITUDE: Kind = Kind {
    name: "11, Geometric altitude",
    octets: 5,
    head: &[11],
    ranged: false,
    text: None,
    fields: &FIELDS,
    blank: || {
        Message::GeometricAltitude(GeometricAltitude {
            altitude: 0,
            metrics: 0,
        })
    },
    ours: |message| match message {
        &Message::GeometricAltitude(GeometricAltitude { altitude, metrics }) => {
            Some(ours::Message::GeometricAltitude(ours::GeometricAltitude {
                altitude,
                metrics,
            }))
        }
        _ => None,
    },
    theirs: |message| match *message {
        ours::Message::GeometricAltitude(ours::GeometricAltitude { altitude, metrics }) => {
            Some(Message::GeometricAltitude(GeometricAltitude {
                altitude,
                metrics,
            }))
        }
        _ => None,
    },
    shown: |message| match message {
        Message::GeometricAltitude(of) => Some(shown(of)),
        _ => None,
    },
};

static FIELDS: [Field<Message>; 2] = [
    field!(GeometricAltitude, altitude, Edges::signed(16, 16)),
    field!(GeometricAltitude, metrics, Edges::unsigned(16, 16)),
];

fn shown(geometric: &GeometricAltitude) -> String {
    format!(
        "geometric altitude altitude {} feet metrics {:04x}",
        geometric_altitude_feet(geometric.altitude),
        geometric.metrics
    )
}
