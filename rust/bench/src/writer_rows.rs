//! The rows of the frame writer.

use std::hint::black_box;

use compare::bodies::Kind;
use compare::generator::Generator;
use ostrogosz::LONGEST_FRAME;

use crate::table::{Row, Unit};
use crate::timing::best_times;
use crate::writer::{one_pass, proved, two_passes};

/// Bodies in turn, so that no branch predictor learns one by heart.
const BODIES: usize = 64;

/// Prints the rows of the frame writer.
pub fn print() {
    for length in [28, 18, 7, 436] {
        for kind in [Kind::Random, Kind::Flags] {
            print_row(length, kind);
        }
    }
}

fn print_row(length: usize, kind: Kind) {
    let mut generator = Generator::new(length as u64);
    let bodies: Vec<_> = (0..BODIES)
        .map(|_| kind.body(length, &mut generator))
        .collect();
    let [ours, one, two] = best_times([
        &mut writer(&bodies, proved),
        &mut writer(&bodies, one_pass),
        &mut writer(&bodies, two_passes),
    ])
    .map(|turn| turn / BODIES as f64);
    let octets = if kind == Kind::Random {
        "random"
    } else {
        "all 7E"
    };
    Row {
        work: format!("write a frame of {length} octets, {octets}"),
        unit: Unit::Nanoseconds,
        ours,
        rust: one.min(two),
        second: None,
    }
    .print();
}

/// Frames every body once, each contender into an output of its own.
fn writer<'a>(
    bodies: &'a [Vec<u8>],
    write: impl Fn(&[u8], &mut [u8]) -> Result<usize, u8> + 'a,
) -> impl FnMut() + 'a {
    let mut output = [0; LONGEST_FRAME];
    move || {
        let mut sum = 0;
        for body in bodies {
            // A black box around the answer would have it copied through
            // memory; a caller only looks at it.
            sum += write(black_box(body), black_box(&mut output)).unwrap_or(0);
        }
        black_box(sum);
    }
}
