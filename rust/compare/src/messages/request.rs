//! Message 44.

use ostrogosz::messages as ours;
use second::messages::{Message, Request};

use super::{field, Kind, OCTET};
use crate::edges::Field;

pub(super) static REQUEST: Kind = Kind {
    name: "44, Request",
    octets: 3,
    head: &[44, 2],
    ranged: false,
    text: None,
    fields: &FIELDS,
    blank: || Message::Request(Request { requested: 0 }),
    ours: |message| match message {
        Message::Request(of) => Some(ours::Message::Request(ours::Request {
            requested_id: of.requested,
        })),
        _ => None,
    },
    theirs: |message| match *message {
        ours::Message::Request(of) => Some(Message::Request(Request {
            requested: of.requested_id,
        })),
        _ => None,
    },
    shown: |message| match message {
        Message::Request(of) => Some(format!("request requested {}", of.requested)),
        _ => None,
    },
};

static FIELDS: [Field<Message>; 1] = [field!(Request, requested, OCTET)];
