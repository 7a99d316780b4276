//! The rows of the MAVLink frames: every kind read and written through the
//! caller's structs, by the proved calls and by Rust in the same shape.

use std::hint::black_box;

use compare::generator::Generator;
use compare::mavlink::{frame_of, Kind};
use compare::mavlink_sides::our_message;
use ostrogosz::mavlink::{
    DataStream, Dynamic, Header, Message, Static, Status, Traffic, LONGEST_FRAME,
};
use ostrogosz::Refusal;
use second::mavlink as second;

use crate::mavlink::{of_201, of_202, of_203, of_246, of_66};
use crate::table::{Row, Unit};
use crate::timing::best_times;

/// Frames in turn, so that no branch predictor learns one by heart.
const FRAMES: usize = 64;

/// The header of all frames.
const HEADER: Header = Header {
    sequence: 0x59,
    system: 1,
    component: 2,
};

/// The same for the second program.
const SECOND_HEADER: [u8; 3] = [HEADER.sequence, HEADER.system, HEADER.component];

/// One side's calls on a kind's struct. Each is one call that is not inlined:
/// the proved one through the C boundary, or Rust's.
trait Calls<T> {
    fn read(input: &[u8], header: &mut Header, message: &mut T) -> Result<(), Refusal>;
    fn write(message: &T, header: &Header, output: &mut [u8]) -> Result<usize, Refusal>;
}

/// Both sides of a kind.
macro_rules! rows_of {
    ($kind:ident, $rust:ident) => {{
        struct Ours;
        impl Calls<$kind> for Ours {
            #[inline(always)]
            fn read(input: &[u8], header: &mut Header, message: &mut $kind) -> Result<(), Refusal> {
                message.read_from(header, input).map_err(Refusal::from)
            }
            #[inline(always)]
            fn write(
                message: &$kind,
                header: &Header,
                output: &mut [u8],
            ) -> Result<usize, Refusal> {
                message.write_to(header, output).map_err(Refusal::from)
            }
        }
        struct Rust;
        impl Calls<$kind> for Rust {
            #[inline(always)]
            fn read(input: &[u8], header: &mut Header, message: &mut $kind) -> Result<(), Refusal> {
                $rust::read(input, header, message)
            }
            #[inline(always)]
            fn write(
                message: &$kind,
                header: &Header,
                output: &mut [u8],
            ) -> Result<usize, Refusal> {
                $rust::write(message, header, output)
            }
        }
        let field = |message: Message| match message {
            Message::$kind(of) => of,
            other => panic!("{other:?} for another kind"),
        };
        print_rows::<$kind, Ours, Rust>(Kind::$kind, field);
    }};
}

/// Prints the rows of the frames.
pub fn print() {
    rows_of!(DataStream, of_66);
    rows_of!(Static, of_201);
    rows_of!(Dynamic, of_202);
    rows_of!(Status, of_203);
    rows_of!(Traffic, of_246);
}

fn print_rows<T, Ours, Rust>(kind: Kind, field: fn(Message) -> T)
where
    T: Copy + Default + PartialEq,
    Ours: Calls<T>,
    Rust: Calls<T>,
{
    let mut generator = Generator::new(63);
    let theirs: Vec<_> = (0..FRAMES).map(|_| kind.message(&mut generator)).collect();
    let structs: Vec<T> = theirs.iter().map(|of| field(our_message(of))).collect();
    let frames: Vec<_> = theirs
        .iter()
        .map(|of| frame_of(SECOND_HEADER, of))
        .collect();
    for (message, frame) in structs.iter().zip(&frames) {
        assert_same_work::<T, Ours>(message, frame);
        assert_same_work::<T, Rust>(message, frame);
    }
    print_row("read", kind, read_times::<T, Ours, Rust>(&frames));
    print_row(
        "write",
        kind,
        write_times::<T, Ours, Rust>(&structs, &theirs),
    );
}

/// A side reads the message from the frame and writes it back.
fn assert_same_work<T: Default + PartialEq, C: Calls<T>>(message: &T, frame: &[u8]) {
    let (mut header, mut read) = (Header::default(), T::default());
    assert_eq!(C::read(frame, &mut header, &mut read), Ok(()));
    assert!(read == *message && header == HEADER);
    let mut output = [0; LONGEST_FRAME];
    assert_eq!(C::write(message, &HEADER, &mut output), Ok(frame.len()));
    assert!(output.starts_with(frame));
}

fn print_row(verb: &str, kind: Kind, times: [f64; 3]) {
    let [ours, rust, second] = times.map(|turn| turn / FRAMES as f64);
    Row {
        work: format!("{verb} MAVLink {}", kind.name()),
        unit: Unit::Nanoseconds,
        ours,
        rust,
        second: Some(second),
    }
    .print();
}

fn read_times<T: Default, Ours: Calls<T>, Rust: Calls<T>>(frames: &[Vec<u8>]) -> [f64; 3] {
    best_times([
        &mut reader(frames, Ours::read),
        &mut reader(frames, Rust::read),
        &mut || {
            for frame in frames {
                let _ = black_box(second::read(black_box(frame)));
            }
        },
    ])
}

fn write_times<T, Ours: Calls<T>, Rust: Calls<T>>(
    structs: &[T],
    theirs: &[second::Message],
) -> [f64; 3] {
    best_times([
        &mut writer(structs, |message, output| {
            Ours::write(message, black_box(&HEADER), output).unwrap_or(0)
        }),
        &mut writer(structs, |message, output| {
            Rust::write(message, black_box(&HEADER), output).unwrap_or(0)
        }),
        &mut writer(theirs, |message, output| {
            let [sequence, system, component] = SECOND_HEADER;
            second::write(sequence, system, component, message, output).unwrap_or(0)
        }),
    ])
}

/// Reads every frame once, into one struct.
fn reader<'a, T: Default + 'a>(
    frames: &'a [Vec<u8>],
    read: impl Fn(&[u8], &mut Header, &mut T) -> Result<(), Refusal> + 'a,
) -> impl FnMut() + 'a {
    let (mut header, mut message) = (Header::default(), T::default());
    move || {
        for frame in frames {
            let _ = black_box(read(
                black_box(frame),
                black_box(&mut header),
                black_box(&mut message),
            ));
        }
    }
}

/// Writes every message once, each contender into an output of its own.
fn writer<'a, M>(
    messages: &'a [M],
    write: impl Fn(&M, &mut [u8]) -> usize + 'a,
) -> impl FnMut() + 'a {
    let mut output = [0; LONGEST_FRAME];
    move || {
        let lengths = messages
            .iter()
            .map(|message| write(black_box(message), black_box(&mut output)));
        black_box(lengths.sum::<usize>());
    }
}
