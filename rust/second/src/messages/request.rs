//! Message 44.

use super::{Kind, Message};
use crate::fields::Fields;

/// Message 44, version 2 (document 003, section 6.1.2.2).
#[derive(Clone, Debug, PartialEq, Eq)]
pub struct Request {
    /// The requested message ID, any.
    pub requested: u8,
}

pub(super) const REQUEST: Kind = Kind {
    id: 44,
    length: 3,
    fixed: &[2],
    take: |fields| Message::Request(Request::take(fields)),
};

impl Request {
    pub(super) fn take(fields: &mut Fields) -> Self {
        Self {
            requested: fields.unsigned(8),
        }
    }
}
