//! Lines to receive.

use second::check::check;
use second::frame::{frame, stuffed, ESCAPE, ESCAPED_ESCAPE, ESCAPED_FLAG, FLAG};

use crate::bodies::Kind as Body;
use crate::generator::Generator;

/// How a line is made.
#[derive(Clone, Copy, Debug, PartialEq, Eq)]
pub enum Kind {
    /// Every octet random.
    Noise,
    /// Mostly flags, escapes and what follows an escape.
    EscapeHeavy,
    /// Frames, each opened by the flag that closed the one before.
    Frames,
    /// Frames with an octet changed, lost or added here and there.
    Damaged,
    /// Frames and noise in turn.
    FramesInNoise,
    /// Stretches about as long as the store, faults among them.
    Long,
    /// Stretches with several faults each.
    Faulty,
}

impl Kind {
    /// Every kind.
    pub const ALL: [Self; 7] = [
        Self::Noise,
        Self::EscapeHeavy,
        Self::Frames,
        Self::Damaged,
        Self::FramesInNoise,
        Self::Long,
        Self::Faulty,
    ];

    /// What the counts call it.
    pub const fn name(self) -> &'static str {
        match self {
            Self::Noise => "octets of noise",
            Self::EscapeHeavy => "octets heavy in flags and escapes",
            Self::Frames => "octets of frames that share flags",
            Self::Damaged => "octets of damaged frames",
            Self::FramesInNoise => "octets of frames in noise",
            Self::Long => "octets of stretches about 438 long",
            Self::Faulty => "octets of stretches with several faults",
        }
    }

    /// A line of this kind, of at least `least` octets.
    pub fn line(self, least: usize, generator: &mut Generator) -> Vec<u8> {
        let mut line = Vec::new();
        while line.len() < least {
            self.lengthen(&mut line, generator);
        }
        line
    }

    fn lengthen(self, line: &mut Vec<u8>, generator: &mut Generator) {
        match self {
            Self::Noise => line.extend(generator.octets(256)),
            Self::EscapeHeavy => line.extend(Body::EscapeHeavy.body(256, generator)),
            Self::Frames => share_flag(line, &any_frame(generator)),
            Self::Damaged => share_flag(line, &damaged(any_frame(generator), generator)),
            Self::FramesInNoise => {
                let noise = generator.below(600);
                line.extend(generator.octets(noise));
                share_flag(line, &any_frame(generator));
            }
            Self::Long => close(line, long_stretch(generator)),
            Self::Faulty => close(line, faulty_stretch(generator)),
        }
    }
}

/// Unstuffed octets of which the last two are the check of those before, where
/// there are three or more.
pub fn checked(length: usize, generator: &mut Generator) -> Vec<u8> {
    let mut octets = generator.octets(length);
    if length > 2 {
        seal(&mut octets);
    }
    octets
}

/// Puts the check of all other octets in the last two.
pub fn seal(octets: &mut [u8]) {
    let (body, sent) = octets.split_at_mut(octets.len() - 2);
    sent.copy_from_slice(&check(body).to_le_bytes());
}

/// Appends a frame whose opening flag is the line's last octet, if that is one.
pub fn share_flag(line: &mut Vec<u8>, frame: &[u8]) {
    let shared = line.last() == Some(&FLAG) && frame.first() == Some(&FLAG);
    line.extend(&frame[usize::from(shared)..]);
}

fn any_frame(generator: &mut Generator) -> Vec<u8> {
    let kind = generator.pick(&Body::ALL);
    let length = match generator.below(4) {
        0 => 1 + generator.below(436),
        _ => 1 + generator.below(30),
    };
    frame(&kind.body(length, generator))
}

fn damaged(mut frame: Vec<u8>, generator: &mut Generator) -> Vec<u8> {
    let at = generator.below(frame.len());
    match generator.below(4) {
        0 => frame[at] ^= 1 << generator.below(8),
        1 => drop(frame.remove(at)),
        2 => frame.insert(at, generator.number() as u8),
        _ => {}
    }
    frame
}

fn close(line: &mut Vec<u8>, stretch: Vec<u8>) {
    line.extend(stretch);
    line.push(FLAG);
}

fn long_stretch(generator: &mut Generator) -> Vec<u8> {
    let length = 434 + generator.below(8);
    let mut stretch = stuffed(&checked(length, generator));
    if generator.below(4) == 0 {
        put_fault(&mut stretch, generator);
    }
    stretch
}

fn faulty_stretch(generator: &mut Generator) -> Vec<u8> {
    let length = generator.pick(&[1, 2, 3, 20, 430, 436, 438, 439, 445]);
    let mut stretch = stuffed(&checked(length, generator));
    for _ in 0..2 + generator.below(3) {
        put_fault(&mut stretch, generator);
    }
    stretch
}

/// An escape put anywhere, most often about the end, and what may follow it.
fn put_fault(stretch: &mut Vec<u8>, generator: &mut Generator) {
    let back = match generator.below(4) {
        0 => generator.below(stretch.len() + 1),
        _ => generator.below(6).min(stretch.len()),
    };
    let next = generator.pick(&[0x00, 0x5C, 0x5F, ESCAPE, ESCAPED_FLAG, ESCAPED_ESCAPE]);
    let at = stretch.len() - back;
    stretch.insert(at, ESCAPE);
    if generator.below(3) > 0 {
        stretch.insert(at + 1, next);
    }
}
