//! The declarations of `include/ostrogosz.h`.

use crate::mavlink::{DataStream, Dynamic, Header, Static, Status, Traffic};
use crate::messages::UPLINK_PAYLOAD;
use crate::{LONGEST_FRAME, STORE};

/// A writer's answer.
#[repr(C)]
pub struct Written {
    /// 0: accepted; else the number of the refusal.
    pub refusal: u32,
    /// Accepted: octets written; refused: 0.
    pub length: usize,
}

impl Written {
    /// The same answer in types.
    #[inline]
    pub fn answer<R>(self, refusal: impl FnOnce(u32) -> R) -> Result<usize, R> {
        match self.refusal {
            0 => Ok(self.length),
            number => Err(refusal(number)),
        }
    }
}

/// The receiver's answer to one octet.
#[repr(C)]
pub struct Received {
    /// 0 nothing, 1 delivered, 2 refused.
    pub kind: u32,
    /// Octets of the body, or number of the refusal.
    pub value: u32,
}

/// The receiver's answer to a slice, and how many octets were taken of it.
#[repr(C)]
pub struct ReceivedSlice {
    pub kind: u32,
    pub value: u32,
    pub taken: usize,
}

/// What a body says of itself.
#[repr(C)]
pub struct BodyId {
    /// 0, or 10.
    pub refusal: u32,
    pub id: u32,
}

/// A value, or no data.
#[repr(C)]
pub struct Measure {
    /// 1, or 0 for no data.
    pub known: u32,
    /// 0 for no data.
    pub value: i32,
}

/// What the MAVLink frame at the start of an input is.
#[repr(C)]
pub struct FoundFrame {
    /// 0, or 20 to 23.
    pub refusal: u32,
    pub id: u32,
    /// Octets of the frame.
    pub used: usize,
}

/// The failure bits of a MAVLink status.
#[repr(C)]
pub struct FailureBits {
    pub count: u32,
    /// 0 for none.
    pub lowest: u32,
}

/// What a frame is sent in.
pub type Buffer = [u8; LONGEST_FRAME];

/// The numbers of a receiver's line.
pub const LINE: usize = 7;

/// With an archive of another interface the crate does not link.
#[used]
static ABI: unsafe extern "C" fn() -> u32 = ostrogosz_abi_1;

unsafe extern "C" {
    fn ostrogosz_abi_1() -> u32;

    pub fn ostrogosz_ucp_frame_check(body: *const u8, body_length: usize) -> u16;
    pub fn ostrogosz_ucp_write_frame(
        body: *const u8,
        body_length: usize,
        output: *mut u8,
        output_length: usize,
    ) -> Written;
    pub fn ostrogosz_ucp_start(store: *mut [u8; STORE], line: *mut [u32; LINE]);
    pub fn ostrogosz_ucp_receive(
        store: *mut [u8; STORE],
        line: *mut [u32; LINE],
        octet: u8,
        output: *mut u8,
        output_length: usize,
    ) -> Received;
    pub fn ostrogosz_ucp_receive_slice(
        store: *mut [u8; STORE],
        line: *mut [u32; LINE],
        octets: *const u8,
        octets_length: usize,
        output: *mut u8,
        output_length: usize,
    ) -> ReceivedSlice;

    pub fn ostrogosz_ucp_read_id(body: *const u8, body_length: usize) -> BodyId;
    pub fn ostrogosz_ucp_read_uplink(
        body: *const u8,
        body_length: usize,
        payload: *mut [u8; UPLINK_PAYLOAD],
    ) -> u32;
    pub fn ostrogosz_ucp_write_uplink(
        payload: *const u8,
        payload_length: usize,
        output: *mut u8,
        output_length: usize,
    ) -> Written;
    pub fn ostrogosz_ucp_send_uplink(
        payload: *const u8,
        payload_length: usize,
        buffer: *mut Buffer,
    ) -> Written;

    pub fn ostrogosz_ucp_altitude_in_feet(altitude: u16) -> Measure;
    pub fn ostrogosz_ucp_rate_in_feet_per_minute(vertical_rate: i16) -> Measure;
    pub fn ostrogosz_ucp_geometric_altitude_in_feet(altitude: i16) -> i32;
    pub fn ostrogosz_ucp_degrees_e7(angle: i32) -> i64;

    pub fn ostrogosz_mavlink_read_id(input: *const u8, input_length: usize) -> FoundFrame;
    pub fn ostrogosz_mavlink_count_failures(status: u8) -> FailureBits;
}

/// The three calls of a kind of UCP message.
macro_rules! ucp_calls {
    ($($message:ty: $read:ident, $write:ident, $send:ident;)+) => {
        unsafe extern "C" {
            $(
                pub fn $read(body: *const u8, body_length: usize, message: *mut $message) -> u32;
                pub fn $write(
                    message: *const $message,
                    output: *mut u8,
                    output_length: usize,
                ) -> $crate::boundary::Written;
                pub fn $send(message: *const $message, buffer: *mut $crate::boundary::Buffer) -> $crate::boundary::Written;
            )+
        }
    };
}
pub(crate) use ucp_calls;

/// The two calls of each kind of MAVLink message.
macro_rules! mavlink_calls {
    ($($message:ty: $read:ident, $write:ident;)+) => {
        unsafe extern "C" {
            $(
                pub fn $read(
                    input: *const u8,
                    input_length: usize,
                    header: *mut Header,
                    message: *mut $message,
                ) -> u32;
                pub fn $write(
                    message: *const $message,
                    header: *const Header,
                    output: *mut u8,
                    output_length: usize,
                ) -> Written;
            )+
        }
    };
}

mavlink_calls! {
    DataStream: ostrogosz_mavlink_read_data_stream, ostrogosz_mavlink_write_data_stream;
    Static: ostrogosz_mavlink_read_static, ostrogosz_mavlink_write_static;
    Dynamic: ostrogosz_mavlink_read_dynamic, ostrogosz_mavlink_write_dynamic;
    Status: ostrogosz_mavlink_read_status, ostrogosz_mavlink_write_status;
    Traffic: ostrogosz_mavlink_read_traffic, ostrogosz_mavlink_write_traffic;
}

/// A struct lies in memory as the proved code takes it: its size, and where
/// each field stands.
macro_rules! layout {
    ($($type:ty, $size:literal { $($field:ident: $offset:literal,)+ })+) => {
        $(const _: () = {
            assert!(core::mem::size_of::<$type>() == $size);
            $(assert!(core::mem::offset_of!($type, $field) == $offset);)+
        };)+
    };
}
pub(crate) use layout;

layout! {
    Written, 16 { refusal: 0, length: 8, }
    Received, 8 { kind: 0, value: 4, }
    ReceivedSlice, 16 { kind: 0, value: 4, taken: 8, }
    BodyId, 8 { refusal: 0, id: 4, }
    Measure, 8 { known: 0, value: 4, }
    FoundFrame, 16 { refusal: 0, id: 4, used: 8, }
    FailureBits, 8 { count: 0, lowest: 4, }
    Header, 3 { sequence: 0, system: 1, component: 2, }
    DataStream, 6 {
        req_message_rate: 0, target_system: 2, target_component: 3, req_stream_id: 4,
        start_stop: 5,
    }
    Static, 20 {
        icao: 0, stall_speed: 4, callsign: 6, capability: 14, emitter: 15, alw_encode: 16,
        gps_lat_offs: 17, gps_lon_offs: 18, integrity: 19,
    }
    Dynamic, 44 {
        utc_time: 0, latitude: 4, longitude: 8, alt_pres: 12, alt_gnss: 16, acc_horiz: 20,
        acc_vert: 24, acc_vel: 26, vel_vert: 28, ns_vog: 30, ew_vog: 32, state: 34,
        squawk: 36, fix_type: 38, num_sats: 39, em_status: 40, control: 41,
    }
    Status, 1 { status: 0, }
    Traffic, 40 {
        icao_address: 0, lat: 4, lon: 8, altitude: 12, heading: 16, hor_velocity: 18,
        ver_velocity: 20, valid_flags: 22, squawk: 24, altitude_type: 26, callsign: 27,
        callsign_ninth: 35, emitter_type: 36, tslc: 37,
    }
}
