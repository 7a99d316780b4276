//! Message 7.

use ostrogosz::messages as ours;
use second::messages::{Message, Uplink, UPLINK_OCTETS};

use super::Kind;
use crate::explained::hexadecimal;

/// The kind whose messages are a payload.
pub static UPLINK: Kind = Kind {
    name: "7, Uplink",
    octets: 436,
    head: &[7],
    ranged: false,
    text: None,
    fields: &[],
    blank: || {
        Message::Uplink(Uplink {
            octets: vec![0; UPLINK_OCTETS],
        })
    },
    ours: |message| match message {
        Message::Uplink(of) => Some(ours::Message::Uplink(&of.octets)),
        _ => None,
    },
    theirs: |message| match *message {
        ours::Message::Uplink(payload) => Some(Message::Uplink(Uplink {
            octets: payload.to_vec(),
        })),
        _ => None,
    },
    shown: |message| match message {
        Message::Uplink(of) => Some(format!("uplink payload{}", hexadecimal(&of.octets))),
        _ => None,
    },
};
