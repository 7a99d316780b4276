//! Message 44.

use super::calls::kind;
use crate::boundary::{layout, ucp_calls};

/// Message 44, version 2.
#[derive(Clone, Copy, Debug, Default, PartialEq, Eq)]
#[repr(C)]
pub struct Request {
    /// The ID of the message that is requested: any.
    pub requested_id: u8,
}

ucp_calls! {
    Request: ostrogosz_ucp_read_request, ostrogosz_ucp_write_request, ostrogosz_ucp_send_request;
}

layout! {
    Request, 1 { requested_id: 0, }
}

kind! {
    Request, 44, 3, "Request { requested_id: 43 }";
    read_from ostrogosz_ucp_read_request;
    write_to ostrogosz_ucp_write_request;
    send_to ostrogosz_ucp_send_request
}
