//! Where the octets of a stretch rest.

use std::mem::{MaybeUninit, size_of};
use std::slice;

use ostrogosz::messages::{Control, Initialization, Report};
use ostrogosz::{Answer, Phase, Receiver, STORE, mavlink};

/// A receiver in the midst of a stretch, its store in use.
fn reading() -> Receiver {
    let mut receiver = Receiver::new();
    for octet in [0x7E, 0x50, 0x52, 0x49, 0x56] {
        assert_eq!(receiver.receive(octet, &mut []), Answer::Nothing);
    }
    assert_eq!(receiver.store()[..5], [0x50, 0x52, 0x49, 0x56, 0x00]);
    assert_eq!((receiver.phase(), receiver.stored()), (Phase::Reading, 4));
    receiver
}

#[test]
fn a_flag_clears_the_store() {
    let mut receiver = reading();
    assert_ne!(receiver.receive(0x7E, &mut []), Answer::Nothing);
    assert_eq!(receiver.store(), &[0; STORE]);
    assert_eq!((receiver.phase(), receiver.stored()), (Phase::Reading, 0));
}

#[test]
fn a_start_clears_the_record() {
    let mut receiver = reading();
    receiver.start();
    assert_eq!(receiver.store(), &[0; STORE]);
    assert_eq!((receiver.phase(), receiver.stored()), (Phase::Hunting, 0));
    assert_eq!(receiver.counts(), Receiver::new().counts());
}

/// Messages and refusals may be logged; identities and addresses stay out of it.
#[test]
fn the_debug_forms_leave_identities_out() {
    let report = Report {
        address: 0xAB_45_49,
        callsign: *b"N825V   ",
        ..Report::default()
    };
    let control = Control {
        identity: *b"PRIVATE ",
        ..Control::default()
    };
    let initialization = Initialization {
        address: 0xAB_45_49,
        callsign: *b"N825V   ",
        ..Initialization::default()
    };
    let own = mavlink::Static {
        icao: 0xAB_45_49,
        callsign: *b"N825V   ",
        ..mavlink::Static::default()
    };
    let traffic = mavlink::Traffic {
        icao_address: 0xAB_45_49,
        callsign: *b"N825V   ",
        callsign_ninth: b'9',
        ..mavlink::Traffic::default()
    };
    let shown = format!("{report:?} {control:?} {initialization:?} {own:?} {traffic:?}");
    // As text, as the numbers of its octets, and as the number itself.
    for private in ["N825V", "PRIVATE", "78, 56", "80, 82", "11224393", "57"] {
        assert!(!shown.contains(private), "{private} in {shown}");
    }
    assert_eq!(shown.matches("(hidden)").count(), 10, "{shown}");
}

#[test]
fn a_drop_clears_the_record() {
    let mut place = MaybeUninit::new(reading());
    // SAFETY: the place holds a receiver, which is not used after its drop;
    // its store comes first, and octets may hold anything.
    let left = unsafe {
        place.assume_init_drop();
        slice::from_raw_parts(place.as_ptr().cast::<u8>(), STORE)
    };
    assert!(left.iter().all(|&octet| octet == 0), "{left:02X?}");
}

#[test]
fn the_debug_form_leaves_the_store_out() {
    let shown = format!("{:?}", reading());
    assert!(shown.contains("stored: 4"), "{shown}");
    assert!(!shown.contains("80, 82, 73, 86"), "{shown}");
}

/// The byte map of `include/ostrogosz.h`: the store, two octets of padding and
/// seven numbers.
#[test]
fn the_record_is_as_long_as_in_c() {
    assert_eq!(size_of::<Receiver>(), 438 + 2 + 7 * 4);
    let receiver = reading();
    let start = (&raw const receiver).cast::<u8>();
    assert_eq!(start, receiver.store().as_ptr(), "the store comes first");
}
