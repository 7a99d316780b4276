//! Message 7.

use super::{Kind, Message, UPLINK_OCTETS};
use crate::fields::Fields;

/// Message 7: all bits carried as they are (document 01, Message kinds on the
/// UCP line).
#[derive(Clone, Debug, PartialEq, Eq)]
pub struct Uplink {
    /// The octets behind the ID, [`UPLINK_OCTETS`] of them.
    pub octets: Vec<u8>,
}

pub(super) const UPLINK: Kind = Kind {
    id: 7,
    length: 1 + UPLINK_OCTETS,
    fixed: &[],
    take: |fields| Message::Uplink(Uplink::take(fields)),
};

impl Uplink {
    pub(super) fn take(fields: &mut Fields) -> Self {
        Self {
            octets: fields.octets::<UPLINK_OCTETS>().to_vec(),
        }
    }
}
