//! Message 0.

use super::{Kind, Message};
use crate::fields::Fields;

/// Message 0: all bits carried as they are (document 01, Message kinds on the
/// UCP line).
#[derive(Clone, Debug, PartialEq, Eq)]
pub struct Heartbeat {
    /// The octets behind the ID.
    pub octets: [u8; 6],
}

pub(super) const HEARTBEAT: Kind = Kind {
    id: 0,
    length: 7,
    fixed: &[],
    take: |fields| Message::Heartbeat(Heartbeat::take(fields)),
};

impl Heartbeat {
    pub(super) fn take(fields: &mut Fields) -> Self {
        Self {
            octets: fields.octets(),
        }
    }
}
