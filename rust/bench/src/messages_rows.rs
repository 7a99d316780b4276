//! The rows of the messages: every kind read, written and sent through the
//! caller's struct, by the proved calls and by Rust in the same shape.

use std::hint::black_box;

use compare::generator::Generator;
use compare::messages::{body_of, kind, ours as our_message, Kind, UPLINK};
use ostrogosz::messages::{
    write_message, Control, GeometricAltitude, Heartbeat, Id, Initialization, Message, Report,
    Request,
};
use ostrogosz::{Refusal, LONGEST_BODY, LONGEST_FRAME};
use second::messages as second;

use crate::messages::{self, of_0, of_10, of_11, of_117, of_20, of_44, of_45};
use crate::table::{Row, Unit};
use crate::timing::best_times;

/// Messages in turn, so that no branch predictor learns one by heart.
const MESSAGES: usize = 64;

/// One side's calls on a kind's struct. Each is one call that is not inlined:
/// the proved one through the C boundary, or Rust's.
trait Calls<T> {
    fn read(body: &[u8], message: &mut T) -> Result<(), Refusal>;
    fn write(message: &T, output: &mut [u8]) -> Result<usize, Refusal>;
    fn send(message: &T, buffer: &mut [u8; LONGEST_FRAME]) -> Result<usize, Refusal>;
}

/// Both sides of a kind.
macro_rules! rows_of {
    ($kind:ident, $type:ident, $rust:ident, $read:ident, $write:ident, $send:ident) => {{
        struct Ours;
        impl Calls<$type> for Ours {
            #[inline(always)]
            fn read(body: &[u8], message: &mut $type) -> Result<(), Refusal> {
                message.$read(body).map_err(Refusal::from)
            }
            #[inline(always)]
            fn write(message: &$type, output: &mut [u8]) -> Result<usize, Refusal> {
                message.$write(output).map_err(Refusal::from)
            }
            #[inline(always)]
            fn send(message: &$type, buffer: &mut [u8; LONGEST_FRAME]) -> Result<usize, Refusal> {
                message.$send(buffer).map_err(Refusal::from)
            }
        }
        struct Rust;
        impl Calls<$type> for Rust {
            #[inline(always)]
            fn read(body: &[u8], message: &mut $type) -> Result<(), Refusal> {
                $rust::read(body, message)
            }
            #[inline(always)]
            fn write(message: &$type, output: &mut [u8]) -> Result<usize, Refusal> {
                $rust::write(message, output)
            }
            #[inline(always)]
            fn send(message: &$type, buffer: &mut [u8; LONGEST_FRAME]) -> Result<usize, Refusal> {
                $rust::send(message, buffer)
            }
        }
        let field = |message: Message<'_>| match message {
            Message::$kind(of) => of,
            other => panic!("{other:?} for another kind"),
        };
        print_rows::<$type, Ours, Rust>(kind(Id::$kind.number()), field);
    }};
}

/// Prints the rows of the messages.
pub fn print() {
    rows_of!(Heartbeat, Heartbeat, of_0, read_from, write_to, send_to);
    rows_of!(
        Ownship,
        Report,
        of_10,
        read_ownship_from,
        write_ownship_to,
        send_ownship_to
    );
    rows_of!(
        GeometricAltitude,
        GeometricAltitude,
        of_11,
        read_from,
        write_to,
        send_to
    );
    rows_of!(
        Traffic,
        Report,
        of_20,
        read_traffic_from,
        write_traffic_to,
        send_traffic_to
    );
    rows_of!(Request, Request, of_44, read_from, write_to, send_to);
    rows_of!(Control, Control, of_45, read_from, write_to, send_to);
    rows_of!(
        Initialization,
        Initialization,
        of_117,
        read_from,
        write_to,
        send_to
    );
    print_uplink();
}

fn print_rows<T, Ours, Rust>(kind: &Kind, field: fn(Message<'_>) -> T)
where
    T: Copy + Default + PartialEq,
    Ours: Calls<T>,
    Rust: Calls<T>,
{
    let mut generator = Generator::new(33);
    let theirs: Vec<_> = (0..MESSAGES)
        .map(|_| kind.message(&mut generator))
        .collect();
    let structs: Vec<T> = theirs.iter().map(|of| field(our_message(of))).collect();
    let bodies: Vec<_> = theirs.iter().map(body_of).collect();
    for (message, body) in structs.iter().zip(&bodies) {
        let frame = work::<T, Ours>(message, body);
        assert_eq!(frame, work::<T, Rust>(message, body));
    }
    print_row("read", kind, read_times::<T, Ours, Rust>(&bodies));
    print_row(
        "write",
        kind,
        write_times::<T, Ours, Rust>(&structs, &theirs),
    );
    print_row("send", kind, send_times::<T, Ours, Rust>(&structs));
}

/// A side reads the message from the body and writes it back; the frame that it
/// sends.
fn work<T: Default + PartialEq, C: Calls<T>>(message: &T, body: &[u8]) -> [u8; LONGEST_FRAME] {
    let mut read = T::default();
    assert_eq!(C::read(body, &mut read), Ok(()));
    assert!(read == *message);
    let mut output = [0; LONGEST_BODY];
    assert_eq!(C::write(message, &mut output), Ok(body.len()));
    assert!(output.starts_with(body));
    let mut frame = [0; LONGEST_FRAME];
    assert!(C::send(message, &mut frame).is_ok());
    frame
}

fn print_row(verb: &str, kind: &Kind, times: [Option<f64>; 3]) {
    let [ours, rust, second] = times.map(|turn| turn.map(|time| time / MESSAGES as f64));
    Row {
        work: format!("{verb} message {}", kind.name),
        unit: Unit::Nanoseconds,
        ours: ours.expect("ours is timed"),
        rust: rust.expect("Rust is timed"),
        second,
    }
    .print();
}

fn read_times<T: Default, Ours: Calls<T>, Rust: Calls<T>>(bodies: &[Vec<u8>]) -> [Option<f64>; 3] {
    best_times([
        &mut reader(bodies, Ours::read),
        &mut reader(bodies, Rust::read),
        &mut || {
            for body in bodies {
                let _ = black_box(second::read(black_box(body)));
            }
        },
    ])
    .map(Some)
}

fn write_times<T, Ours: Calls<T>, Rust: Calls<T>>(
    structs: &[T],
    theirs: &[second::Message],
) -> [Option<f64>; 3] {
    best_times([
        &mut writer(structs, Ours::write),
        &mut writer(structs, Rust::write),
        &mut writer(theirs, |message, output| {
            second::write(message, output).map_err(|_| Refusal::Field)
        }),
    ])
    .map(Some)
}

fn send_times<T, Ours: Calls<T>, Rust: Calls<T>>(structs: &[T]) -> [Option<f64>; 3] {
    let [ours, rust] = best_times([
        &mut sender(structs, Ours::send),
        &mut sender(structs, Rust::send),
    ]);
    [Some(ours), Some(rust), None]
}

/// Reads every body once, into one struct.
fn reader<'a, T: Default + 'a>(
    bodies: &'a [Vec<u8>],
    read: impl Fn(&[u8], &mut T) -> Result<(), Refusal> + 'a,
) -> impl FnMut() + 'a {
    let mut message = T::default();
    move || {
        for body in bodies {
            let _ = black_box(read(black_box(body), black_box(&mut message)));
        }
    }
}

/// Writes every message once, each contender into an output of its own. The
/// lengths are summed: a black box around the answer would have the one that
/// comes back through memory copied once more, and that side alone.
fn writer<'a, M>(
    messages: &'a [M],
    write: impl Fn(&M, &mut [u8]) -> Result<usize, Refusal> + 'a,
) -> impl FnMut() + 'a {
    let mut output = [0; LONGEST_BODY];
    move || {
        let lengths = messages
            .iter()
            .map(|message| write(black_box(message), black_box(&mut output)).unwrap_or(0));
        black_box(lengths.sum::<usize>());
    }
}

/// Sends every message once, each contender in a buffer of its own.
fn sender<'a, M>(
    messages: &'a [M],
    send: impl Fn(&M, &mut [u8; LONGEST_FRAME]) -> Result<usize, Refusal> + 'a,
) -> impl FnMut() + 'a {
    let mut buffer = [0; LONGEST_FRAME];
    move || {
        let lengths = messages
            .iter()
            .map(|message| send(black_box(message), black_box(&mut buffer)).unwrap_or(0));
        black_box(lengths.sum::<usize>());
    }
}

/// An uplink has no struct: its payload is written and sent.
fn print_uplink() {
    let mut generator = Generator::new(34);
    let theirs: Vec<_> = (0..MESSAGES)
        .map(|_| UPLINK.message(&mut generator))
        .collect();
    let ours: Vec<_> = theirs.iter().map(our_message).collect();
    let times = best_times([
        &mut writer(&ours, |message, output| {
            write_message(message, output).map_err(Refusal::from)
        }),
        &mut writer(&ours, |message, output| messages::write(message, output)),
    ]);
    print_row("write", &UPLINK, [Some(times[0]), Some(times[1]), None]);
}
