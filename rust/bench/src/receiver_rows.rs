//! The rows of the receiver.

use std::hint::black_box;

use compare::bodies::Kind as Body;
use compare::generator::Generator;
use compare::lines::{share_flag, Kind as Line};
use ostrogosz::{Answer, LONGEST_BODY};
use second::frame::frame;

use crate::receiver::Receiver;
use crate::table::{Row, Unit};
use crate::timing::best_times;

/// Octets of a line, about: no branch predictor learns it by heart.
const OCTETS: usize = 50_000;

/// Prints the rows of the receiver.
pub fn print() {
    let mut generator = Generator::new(8);
    print_rows("frames of 28", &frames(28, &mut generator));
    print_rows("frames of 436", &frames(436, &mut generator));
    print_rows("noise", &Line::Noise.line(OCTETS, &mut generator));
}

/// Frames of random bodies that share flags.
fn frames(length: usize, generator: &mut Generator) -> Vec<u8> {
    let mut line = Vec::new();
    while line.len() < OCTETS {
        share_flag(&mut line, &frame(&Body::Random.body(length, generator)));
    }
    line
}

fn print_rows(name: &str, line: &[u8]) {
    let mut proved = [ostrogosz::Receiver::new(), ostrogosz::Receiver::new()];
    let [proved_octet, proved_slice] = &mut proved;
    let mut rust = [Receiver::new(), Receiver::new()];
    let [rust_octet, rust_slice] = &mut rust;
    let times = best_times([
        &mut by_octet(line, |octet, output| proved_octet.receive(octet, output)),
        &mut by_slice(line, |octets, output| {
            let taken = proved_slice.receive_slice(octets, output);
            (taken.answer, taken.octets)
        }),
        &mut by_octet(line, |octet, output| rust_octet.receive(octet, output)),
        &mut by_slice(line, |octets, output| {
            rust_slice.receive_slice(octets, output)
        }),
    ]);
    let [octet, slice, rust_octet, rust_slice] =
        times.map(|nanoseconds| line.len() as f64 * 1e3 / nanoseconds);
    for (way, ours, rust) in [("octet", octet, rust_octet), ("slice", slice, rust_slice)] {
        Row {
            work: format!("receive by the {way}, {name}"),
            unit: Unit::Megabytes,
            ours,
            rust,
            second: None,
        }
        .print();
    }
}

/// The whole line, a call for each octet.
fn by_octet<'a>(
    line: &'a [u8],
    mut receive: impl FnMut(u8, &mut [u8]) -> Answer + 'a,
) -> impl FnMut() + 'a {
    let mut output = [0; LONGEST_BODY];
    move || {
        let mut sum = 0;
        for &octet in black_box(line) {
            sum += value(receive(octet, black_box(&mut output)));
        }
        black_box(sum);
    }
}

/// The whole line, a call for each answer.
fn by_slice<'a>(
    line: &'a [u8],
    mut receive: impl FnMut(&[u8], &mut [u8]) -> (Answer, usize) + 'a,
) -> impl FnMut() + 'a {
    let mut output = [0; LONGEST_BODY];
    move || {
        let mut sum = 0;
        let mut rest = black_box(line);
        while !rest.is_empty() {
            let (answer, taken) = receive(rest, black_box(&mut output));
            sum += value(answer);
            rest = &rest[taken..];
        }
        black_box(sum);
    }
}

/// Looks at an answer as a caller would; a black box around it would have it
/// copied through memory, which costs more than the call.
fn value(answer: Answer) -> usize {
    match answer {
        Answer::Nothing => 0,
        Answer::Delivered(octets) => octets,
        Answer::Refused(refusal) => refusal.number().into(),
    }
}
