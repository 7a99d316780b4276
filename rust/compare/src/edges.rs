//! The numbers at which a field's answer changes.

use crate::generator::Generator;
use crate::squawks;

/// How many emitters 117 and 201 take: 0 to 21, the last three obstacles.
pub const EMITTERS: u64 = 22;

/// The numbers that a field takes, within those that its type holds.
#[derive(Clone, Copy, Debug)]
pub struct Edges {
    takes: Takes,
    least: i64,
    most: i64,
}

#[derive(Clone, Copy, Debug)]
enum Takes {
    /// All numbers from the first to the last.
    Range(i64, i64),
    /// Squawks alone.
    Squawks,
}

impl Edges {
    /// A squawk, in an unsigned type of 16 bits.
    pub const SQUAWK: Self = Self {
        takes: Takes::Squawks,
        least: 0,
        most: 65_535,
    };

    /// An emitter of 117 and 201; the other kinds carry every octet.
    pub const EMITTER: Self = Self::up_to(21, 8);

    /// An unsigned field of so many bits, in a type of so many.
    pub const fn unsigned(bits: u32, of: u32) -> Self {
        Self::up_to((1 << bits) - 1, of)
    }

    /// A field in two's complement of so many bits, in a type of so many.
    pub const fn signed(bits: u32, of: u32) -> Self {
        Self {
            takes: Takes::Range(-1 << (bits - 1), (1 << (bits - 1)) - 1),
            least: -1 << (of - 1),
            most: (1 << (of - 1)) - 1,
        }
    }

    /// A field from 0 to `last`, in an unsigned type of so many bits.
    pub const fn up_to(last: i64, of: u32) -> Self {
        Self {
            takes: Takes::Range(0, last),
            least: 0,
            most: (1 << of) - 1,
        }
    }

    /// The edges of what the field takes and of what the type holds, one off
    /// them, and every power of two with one off it: so each bit that a field
    /// lacks is tried alone.
    pub fn values(self) -> Vec<i64> {
        let taken = match self.takes {
            Takes::Range(first, last) => vec![first, last],
            Takes::Squawks => squawks::edges(),
        };
        let powers = (0..33).flat_map(|bit| [1 << bit, -1 << bit]);
        let mut values: Vec<_> = powers
            .chain(taken)
            .chain([self.least, self.most])
            .flat_map(|edge| [edge - 1, edge, edge + 1])
            .filter(|value| (self.least..=self.most).contains(value))
            .collect();
        values.sort_unstable();
        values.dedup();
        values
    }

    /// Every number that the type holds.
    pub fn every(self) -> Vec<i64> {
        (self.least..=self.most).collect()
    }

    /// A number that the field doesn't take, if the type holds one.
    pub fn past(self) -> Option<i64> {
        match self.takes {
            Takes::Range(_, last) => (last < self.most).then_some(last + 1),
            Takes::Squawks => Some(1280),
        }
    }

    /// A number that the field takes.
    pub fn within(self, generator: &mut Generator) -> i64 {
        match self.takes {
            Takes::Range(first, last) => between(first, last, generator),
            Takes::Squawks => squawks::code(generator),
        }
    }

    /// A number that the type holds.
    pub fn wild(self, generator: &mut Generator) -> i64 {
        match self.takes {
            Takes::Range(..) => between(self.least, self.most, generator),
            Takes::Squawks => squawks::wild(generator),
        }
    }
}

fn between(first: i64, last: i64, generator: &mut Generator) -> i64 {
    first + generator.below((last - first + 1) as usize) as i64
}

/// A field of a message.
#[derive(Debug)]
pub struct Field<M> {
    /// What it is called.
    pub name: &'static str,
    /// The numbers it takes.
    pub edges: Edges,
    /// Where it begins in a body or frame, if that was said.
    pub place: Option<usize>,
    /// Puts a number that its type holds.
    pub put: fn(&mut M, i64),
}

impl<M> Field<M> {
    /// The field, which is whole octets from this place on, the low one first.
    pub const fn at(self, place: usize) -> Self {
        Self {
            place: Some(place),
            ..self
        }
    }

    /// Puts a number in a message and in its body or frame.
    pub fn put_both(&self, message: &mut M, octets: &mut [u8], number: i64) {
        (self.put)(message, number);
        self.put_octets(octets, number);
    }

    fn put_octets(&self, octets: &mut [u8], number: i64) {
        let place = self.place.expect("a field whose place was said");
        let width = if self.edges.most > 255 { 2 } else { 1 };
        octets[place..place + width].copy_from_slice(&number.to_le_bytes()[..width]);
    }
}

/// The field of this name, if there is one.
pub fn named<M>(fields: &'static [Field<M>], name: &str) -> Option<&'static Field<M>> {
    fields.iter().find(|field| field.name == name)
}

/// The message and its octets with each field but this one out of range in
/// turn, as far as places were said.
pub fn beside<M: Clone>(
    fields: &[Field<M>],
    this: &Field<M>,
    (message, octets): &(M, Vec<u8>),
) -> Vec<(M, Vec<u8>)> {
    let others = placed(fields).filter(|field| field.name != this.name);
    let wrong = others.filter_map(|field| {
        let (mut message, mut octets) = (message.clone(), octets.clone());
        field.put_both(&mut message, &mut octets, field.edges.past()?);
        Some((message, octets))
    });
    wrong.collect()
}

fn placed<M>(fields: &[Field<M>]) -> impl Iterator<Item = &Field<M>> {
    fields.iter().filter(|field| field.place.is_some())
}

/// Puts a number that each field takes.
pub fn put_within<M>(message: &mut M, fields: &[Field<M>], generator: &mut Generator) {
    for field in fields {
        (field.put)(message, field.edges.within(generator));
    }
}

/// Puts a number that the field's type holds in one field of them.
pub fn put_one_wild<M>(message: &mut M, fields: &[Field<M>], generator: &mut Generator) {
    if !fields.is_empty() {
        let field = &fields[generator.below(fields.len())];
        (field.put)(message, field.edges.wild(generator));
    }
}

/// Puts such a number in one field of a body or frame, if a place was said.
pub fn put_one_wild_octets<M>(octets: &mut [u8], fields: &[Field<M>], generator: &mut Generator) {
    let placed: Vec<_> = placed(fields).collect();
    if !placed.is_empty() {
        let field = generator.pick(&placed);
        field.put_octets(octets, field.edges.wild(generator));
    }
}

#[cfg(test)]
mod tests {
    use super::*;

    #[test]
    fn values_hold_both_ends_and_one_off_them() {
        let fixes = Edges::up_to(5, 8).values();
        for fix in [0, 1, 4, 5, 6, 254, 255] {
            assert!(fixes.contains(&fix));
        }
        assert!(!fixes.contains(&-1) && !fixes.contains(&256));
        let rates = Edges::signed(12, 16).values();
        for rate in [-32_768, -2049, -2048, 2047, 2048, 4096, 32_767] {
            assert!(rates.contains(&rate));
        }
        assert_eq!(Edges::unsigned(1, 1).values(), [0, 1]);
    }

    #[test]
    fn past_is_taken_by_no_field() {
        assert_eq!(Edges::EMITTER.past(), Some(22));
        assert_eq!(Edges::up_to(0, 8).past(), Some(1));
        assert_eq!(Edges::unsigned(8, 8).past(), None);
        assert_eq!(Edges::SQUAWK.past(), Some(1280));
    }

    #[test]
    fn values_of_a_squawk_hold_the_edges_of_every_digit() {
        let squawks = Edges::SQUAWK.values();
        let alone = [7, 8, 9, 10, 70, 80, 90, 100, 700, 800, 900, 1000, 7000];
        let between = [7778, 7779, 7787, 7797, 7877, 7977, 8777, 9777];
        let behind = [7777, 7780, 7790, 7800, 7900, 8000, 9000];
        let others = [0, 1280, 9999, 10_000, 65_534, 65_535];
        for squawk in [&alone[..], &between, &behind, &others].concat() {
            assert!(squawks.contains(&squawk), "{squawk}");
        }
        assert!(!squawks.contains(&-1) && !squawks.contains(&65_536));
    }
}
