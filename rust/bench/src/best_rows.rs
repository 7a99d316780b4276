//! How far the checks are from the best methods known, on this machine.

use std::hint::black_box;

use compare::generator::Generator;

use crate::best::{gdl90_by_products, gdl90_by_tables, multiplies, x25_by_products, x25_by_tables};
use crate::check::next_check;
use crate::timing::best_times;
use crate::x25::x25;

/// Lengths: a report, a Dynamic frame behind its first octet, the longest body.
const LENGTHS: [usize; 3] = [28, 48, 436];

/// Prints a table of its own: nanoseconds for a check alone.
pub fn print() {
    println!(
        "\n{:<40} {:>8} {:>8} {:>8} {:>10}",
        "a check alone, ns", "ours", "Rust", "tables", "products"
    );
    for length in LENGTHS {
        let mut generator = Generator::new(72);
        let octets: Vec<u8> = (0..length).map(|_| generator.number() as u8).collect();
        print_gdl90(&octets);
        print_x25(&octets);
    }
}

fn timed(octets: &[u8], check: fn(&[u8]) -> u16) -> impl FnMut() + '_ {
    move || {
        black_box(check(black_box(octets)));
    }
}

fn by_octet(octets: &[u8]) -> u16 {
    octets
        .iter()
        .fold(0, |check, &octet| next_check(check, octet))
}

fn x25_by_octet(octets: &[u8]) -> u16 {
    octets
        .split_last()
        .map_or(0xFFFF, |(&last, rest)| x25(rest, last))
}

fn print_gdl90(octets: &[u8]) {
    let [ours, rust, tables] = best_times([
        &mut timed(octets, ostrogosz::frame_check),
        &mut timed(octets, by_octet),
        &mut timed(octets, gdl90_by_tables),
    ]);
    let products = multiplies().then(|| best_times([&mut timed(octets, gdl90_by_products)])[0]);
    row("UCP", octets.len(), Some(ours), [rust, tables], products);
}

/// Ours is exported as part of reading and writing alone.
fn print_x25(octets: &[u8]) {
    let [rust, tables] = best_times([
        &mut timed(octets, x25_by_octet),
        &mut timed(octets, x25_by_tables),
    ]);
    let products = multiplies().then(|| best_times([&mut timed(octets, x25_by_products)])[0]);
    row("X.25", octets.len(), None, [rust, tables], products);
}

fn row(check: &str, octets: usize, ours: Option<f64>, others: [f64; 2], products: Option<f64>) {
    let shown =
        |time: Option<f64>| time.map_or_else(|| "-".to_owned(), |time| format!("{time:.1}"));
    println!(
        "{:<40} {:>8} {:>8.1} {:>8.1} {:>10}",
        format!("{check}, {octets} octets"),
        shown(ours),
        others[0],
        others[1],
        shown(products)
    );
}
