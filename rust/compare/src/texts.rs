//! Texts of eight octets, and the octets that each takes.

use crate::generator::Generator;

/// A text.
pub type Text = [u8; 8];

/// A text of a message.
#[derive(Debug)]
pub struct TextField<M> {
    /// What it may hold.
    pub characters: Characters,
    /// Where it begins in the body or frame.
    pub place: usize,
    /// Puts it.
    pub put: fn(&mut M, Text),
}

/// What a text may hold.
#[derive(Clone, Copy, Debug, PartialEq, Eq)]
pub enum Characters {
    /// Every octet.
    Any,
    /// A-Z, 0-9 and spaces.
    Spaced,
    /// A-Z and 0-9, spaces at the end alone.
    SpacesAtEnd,
}

const LETTERS: &[u8] = b"0123456789ABCDEFGHIJKLMNOPQRSTUVWXYZ";

impl Characters {
    /// A text that may be held.
    pub fn within(self, generator: &mut Generator) -> Text {
        let letters = [(); 8].map(|()| generator.pick(LETTERS));
        match self {
            Self::Any => generator.number().to_le_bytes(),
            Self::Spaced => spaced(letters, generator.number() as u8),
            Self::SpacesAtEnd => spaced(letters, (0xFF_u16 << generator.below(9)) as u8),
        }
    }

    /// A text that may be held but for one octet, which is at random.
    pub fn wild(self, generator: &mut Generator) -> Text {
        let mut text = self.within(generator);
        text[generator.below(text.len())] = generator.number() as u8;
        text
    }
}

/// The text with a space at each place whose bit is set.
fn spaced(mut text: Text, places: u8) -> Text {
    for (place, octet) in text.iter_mut().enumerate() {
        if places >> place & 1 == 1 {
            *octet = b' ';
        }
    }
    text
}

/// Letters with spaces at every choice of places, and with every octet at every
/// place of some of them.
pub fn texts(generator: &mut Generator) -> Vec<Text> {
    let mut texts: Vec<_> = (0..=255)
        .map(|places| spaced([(); 8].map(|()| generator.pick(LETTERS)), places))
        .collect();
    // No space, so many at the end, all spaces, and some inside.
    let backgrounds: Vec<_> = [
        0x00, 0x80, 0xC0, 0xE0, 0xF0, 0xF8, 0xFC, 0xFE, 0xFF, 0x01, 0x10, 0x99,
    ]
    .map(|places| texts[places])
    .into();
    for background in backgrounds {
        for place in 0..8 {
            texts.extend((0..=255).map(|octet| with_octet(background, place, octet)));
        }
    }
    texts
}

fn with_octet(mut text: Text, place: usize, octet: u8) -> Text {
    text[place] = octet;
    text
}
