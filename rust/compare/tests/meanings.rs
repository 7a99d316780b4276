//! What raw numbers mean, on every raw number that a body can carry.

use std::fmt::Debug;
use std::ops::RangeInclusive;

use compare::tally::Tally;
use ostrogosz::meanings;
use second::messages;

/// Angles have 24 bits, signed.
const ANGLES: RangeInclusive<i32> = -0x80_0000..=0x7F_FFFF;

/// Says how two sides differ.
fn difference<T: Debug + PartialEq>(raw: impl Debug, ours: T, theirs: T) -> Option<String> {
    (ours != theirs).then(|| format!("{raw:?}: {ours:?} and {theirs:?}"))
}

/// The second program's degrees in whole units of 1E-7, toward zero. Its
/// degrees are exact, and 2^23 of them are whole.
fn second_e7(angle: i32) -> i64 {
    let whole = (messages::degrees(angle) * f64::from(1 << 23)) as i64;
    whole * 10_000_000 / (1 << 23)
}

#[test]
fn feet_are_the_second_programs() {
    let mut tally = Tally::default();
    for raw in 0..=u16::MAX {
        let signed = raw as i16;
        let altitude = meanings::altitude_in_feet(raw);
        tally.count(
            "altitude",
            difference(raw, altitude, messages::altitude_feet(raw)),
        );
        let rate = meanings::rate_in_feet_per_minute(signed);
        let theirs = messages::vertical_rate_feet_per_minute(signed);
        tally.count("vertical rate", difference(signed, rate, theirs));
        let geometric = meanings::geometric_altitude_in_feet(signed);
        let theirs = messages::geometric_altitude_feet(signed);
        tally.count("geometric altitude", difference(signed, geometric, theirs));
    }
    tally.close("feet, every raw number", 3 * 65_536);
}

#[test]
fn degrees_are_the_second_programs() {
    let mut tally = Tally::default();
    for angle in ANGLES {
        let ours = meanings::degrees_e7(angle);
        tally.count("angle", difference(angle, ours, second_e7(angle)));
    }
    tally.close("degrees, every raw number", 1 << 24);
}
