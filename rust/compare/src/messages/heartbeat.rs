//! Message 0.

use ostrogosz::messages as ours;
use second::messages::{Heartbeat, Message};

use super::{Kind, OCTET};
use crate::edges::Field;

pub(super) static HEARTBEAT: Kind = Kind {
    name: "0, Heartbeat",
    octets: 7,
    head: &[0],
    ranged: false,
    text: None,
    fields: &FIELDS,
    blank: || Message::Heartbeat(Heartbeat { octets: [0; 6] }),
    ours: |message| match message {
        Message::Heartbeat(of) => Some(ours::Message::Heartbeat(our(of))),
        _ => None,
    },
    theirs: |message| match *message {
        ours::Message::Heartbeat(of) => Some(Message::Heartbeat(theirs(of))),
        _ => None,
    },
    shown: |message| match message {
        Message::Heartbeat(of) => Some(shown(of)),
        _ => None,
    },
};

/// An octet of a heartbeat.
macro_rules! octet {
    ($place:literal) => {
        Field {
            name: "octet",
            edges: OCTET,
            place: None,
            put: |message, number| match message {
                Message::Heartbeat(of) => of.octets[$place] = number as u8,
                _ => unreachable!("another kind"),
            },
        }
    };
}

static FIELDS: [Field<Message>; 6] = [
    octet!(0),
    octet!(1),
    octet!(2),
    octet!(3),
    octet!(4),
    octet!(5),
];

fn theirs(heartbeat: ours::Heartbeat) -> Heartbeat {
    let [low, high] = heartbeat.time_stamp.to_le_bytes();
    let [first, last] = heartbeat.counts.to_be_bytes();
    let octets = [
        heartbeat.status_1,
        heartbeat.status_2,
        low,
        high,
        first,
        last,
    ];
    Heartbeat { octets }
}

fn our(heartbeat: &Heartbeat) -> ours::Heartbeat {
    let [status_1, status_2, low, high, first, last] = heartbeat.octets;
    ours::Heartbeat {
        status_1,
        status_2,
        time_stamp: u16::from_le_bytes([low, high]),
        counts: u16::from_be_bytes([first, last]),
    }
}

/// Seconds have 17 bits: the highest is bit 7 of the second status octet.
fn shown(heartbeat: &Heartbeat) -> String {
    let [first, second, low, high, counts @ ..] = heartbeat.octets;
    let seconds = u32::from_le_bytes([low, high, second >> 7, 0]);
    format!(
        "heartbeat first status {first:02x} second status {second:02x} time {seconds} seconds \
         counts {:04x}",
        u16::from_be_bytes(counts)
    )
}
