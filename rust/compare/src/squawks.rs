//! Squawks: four octal digits, sent as a decimal number.

use crate::generator::Generator;

/// How many there are.
pub const CODES: u64 = 8 * 8 * 8 * 8;

/// What a digit is worth in each of its places.
const WORTH: [i64; 4] = [1, 10, 100, 1000];

/// A code.
pub fn code(generator: &mut Generator) -> i64 {
    let digits = WORTH.map(|worth| worth * generator.below(8) as i64);
    digits.into_iter().sum()
}

/// A number of 16 bits, most of them close to a code.
pub fn wild(generator: &mut Generator) -> i64 {
    match generator.below(4) {
        0 => i64::from(generator.number() as u16),
        1 => with_large_digit(generator),
        2 => code(generator) + 10_000 * (1 + generator.below(5) as i64),
        _ => generator.pick(&[0, 1280, 7777, 7778, 65_534, 65_535]),
    }
}

/// A code but for an 8 or a 9 in one place.
fn with_large_digit(generator: &mut Generator) -> i64 {
    let code = code(generator);
    let worth = generator.pick(&WORTH);
    let digit = code / worth % 10;
    code + worth * (8 + generator.below(2) as i64 - digit)
}

/// The 7, 8 and 9 of each place: between zeros, between sevens, and behind
/// sevens with zeros after it; the first number that needs the next place; and
/// what a renter typed.
pub fn edges() -> Vec<i64> {
    let mut edges = vec![0, 1280];
    for worth in WORTH {
        let next = 10 * worth;
        edges.push(next);
        for digit in [7, 8, 9] {
            edges.push(digit * worth);
            edges.push(7777 + (digit - 7) * worth);
            edges.push(7777 / next * next + digit * worth);
        }
    }
    edges
}

#[cfg(test)]
mod tests {
    use std::collections::BTreeSet;

    use super::*;

    /// Enough for every code to be met.
    const TURNS: usize = 100_000;

    #[test]
    fn codes_are_all_met_and_nothing_else() {
        let mut generator = Generator::new(37);
        let met: BTreeSet<_> = (0..TURNS).map(|_| code(&mut generator)).collect();
        let octal = (0..0o10000).map(|number| format!("{number:o}"));
        let codes: BTreeSet<_> = octal
            .map(|digits| digits.parse().expect("digits"))
            .collect();
        assert_eq!(met, codes);
        assert_eq!(codes.len() as u64, CODES);
    }

    #[test]
    fn wild_numbers_have_every_fault() {
        let mut generator = Generator::new(38);
        let met: Vec<_> = (0..TURNS).map(|_| wild(&mut generator)).collect();
        let assert_met = |what: &str, of: &dyn Fn(i64) -> bool| {
            let count = met.iter().filter(|&&number| of(number)).count();
            assert!(count > TURNS / 100, "{what}: {count}");
        };
        for worth in WORTH {
            for digit in [8, 9] {
                let has = |number: i64| number / worth % 10 == digit;
                assert_met("a large digit", &|number| number < 10_000 && has(number));
            }
        }
        assert_met("five digits", &|number| number >= 10_000);
        for number in [0, 1280, 7777, 7778, 65_534, 65_535] {
            assert_met("an edge", &|met| met == number);
        }
    }
}
