//! An example driver: one UCP line, taken from a capture file. It is
//! `examples/driver.c` over the safe calls, with the same output.
//!
//! ```text
//! driver CAPTURE ANSWERS
//! ```
//!
//! It keeps the line's record, hears the messages, says in a line each what was
//! heard, and answers a Message Request for the Control message with the last
//! one heard: the answering frames are written to the file ANSWERS. Messages lie
//! in the structs of [`Line`] and nowhere else, so clearing those before it ends
//! clears every private identity.

use std::fs::File;
use std::io::{self, Read, Write};
use std::process::ExitCode;
use std::ptr;

use ostrogosz::messages::{
    Control, GeometricAltitude, Heartbeat, Id, Initialization, Report, Request, UPLINK_PAYLOAD,
    body_id, read_uplink,
};
use ostrogosz::{Answer, LONGEST_BODY, LONGEST_FRAME, ReadRefusal, Receiver};

/// Octets of the capture read at once.
const BLOCK: usize = 4096;

/// What belongs to one line.
struct Line {
    /// Clears itself when dropped.
    receiver: Receiver,
    body: [u8; LONGEST_BODY],
    /// The last one heard.
    control: Control,
    /// Whether one was.
    heard: bool,
    report: Report,
    initialization: Initialization,
}

impl Line {
    fn new() -> Self {
        Self {
            receiver: Receiver::new(),
            body: [0; LONGEST_BODY],
            control: Control::default(),
            heard: false,
            report: Report::default(),
            initialization: Initialization::default(),
        }
    }
}

impl Drop for Line {
    fn drop(&mut self) {
        overwrite(&mut self.body, [0; LONGEST_BODY]);
        overwrite(&mut self.control, Control::default());
        overwrite(&mut self.report, Report::default());
        overwrite(&mut self.initialization, Initialization::default());
    }
}

/// A store that the compiler may not leave out, though nothing reads it.
fn overwrite<T>(place: &mut T, value: T) {
    // SAFETY: a mutable borrow may be written.
    unsafe { ptr::write_volatile(place, value) }
}

fn say_report(kind: &str, report: &Report) {
    println!(
        "{kind}: altitude {}, speed {}",
        report.altitude, report.speed
    );
}

/// A request for the Control message is answered with its frame.
fn answer(line: &Line, requested_id: u8, answers: &mut File) -> io::Result<()> {
    if requested_id != Id::Control.number() || !line.heard {
        println!("request: nothing to send for {requested_id}");
        return Ok(());
    }
    let mut frame = [0; LONGEST_FRAME];
    let written = match line.control.send_to(&mut frame) {
        Ok(length) => {
            println!("request: answered in {length} octets");
            answers.write_all(&frame[..length])
        }
        Err(refusal) => {
            println!("request: refused with {}", refusal.number());
            Ok(())
        }
    };
    overwrite(&mut frame, [0; LONGEST_FRAME]);
    written
}

/// One delivered body, read into the struct of its kind.
fn read(line: &mut Line, length: usize) -> Result<(Id, Request), ReadRefusal> {
    let body = &line.body[..length];
    let mut request = Request::default();
    let id = body_id(body)?;
    match id {
        Id::Heartbeat => Heartbeat::default().read_from(body)?,
        Id::Uplink => read_uplink(body, &mut [0; UPLINK_PAYLOAD])?,
        Id::GeometricAltitude => GeometricAltitude::default().read_from(body)?,
        Id::Ownship => line.report.read_ownship_from(body)?,
        Id::Traffic => line.report.read_traffic_from(body)?,
        Id::Request => request.read_from(body)?,
        Id::Control => line.control.read_from(body)?,
        Id::Initialization => line.initialization.read_from(body)?,
        _ => {}
    }
    Ok((id, request))
}

/// Says what was heard, and answers a request.
fn hear(line: &mut Line, length: usize, answers: &mut File) -> io::Result<()> {
    let (id, request) = match read(line, length) {
        Ok(heard) => heard,
        Err(refusal) => {
            println!("message refused with {}", refusal.number());
            return Ok(());
        }
    };
    match id {
        Id::Ownship => say_report("ownship", &line.report),
        Id::Traffic => say_report("traffic", &line.report),
        Id::Request => return answer(line, request.requested_id, answers),
        Id::Control => {
            // The identity may be private: it is kept and not said.
            line.heard = true;
            println!("control: squawk {:04}", line.control.squawk);
        }
        other => println!("message {}", other.number()),
    }
    Ok(())
}

/// The octets that a read brought, up to the last of them.
fn take(line: &mut Line, mut octets: &[u8], answers: &mut File) -> io::Result<()> {
    while !octets.is_empty() {
        let taken = line.receiver.receive_slice(octets, &mut line.body);
        octets = &octets[taken.octets..];
        match taken.answer {
            Answer::Nothing => {}
            Answer::Refused(refusal) => println!("frame refused with {}", refusal.number()),
            Answer::Delivered(length) => hear(line, length, answers)?,
        }
    }
    Ok(())
}

/// The blocks of the capture, up to its end.
fn take_blocks(
    line: &mut Line,
    capture: &mut File,
    block: &mut [u8; BLOCK],
    answers: &mut File,
) -> io::Result<()> {
    loop {
        match capture.read(block)? {
            0 => return Ok(()),
            got => take(line, &block[..got], answers)?,
        }
    }
}

/// The whole capture, however long it is.
fn run(line: &mut Line, capture: &mut File, answers: &mut File) -> io::Result<()> {
    let mut block = [0; BLOCK];
    let result = take_blocks(line, capture, &mut block, answers);
    overwrite(&mut block, [0; BLOCK]);
    println!("octets {}", line.receiver.counts().octets());
    result
}

/// The two files that the command names.
fn files() -> Option<(File, File)> {
    let mut names = std::env::args_os().skip(1);
    let (capture, answers) = (names.next()?, names.next()?);
    if names.next().is_some() {
        return None;
    }
    Some((File::open(capture).ok()?, File::create(answers).ok()?))
}

fn main() -> ExitCode {
    let Some((mut capture, mut answers)) = files() else {
        eprintln!("usage: driver CAPTURE ANSWERS");
        return ExitCode::from(2);
    };
    let mut line = Line::new();
    match run(&mut line, &mut capture, &mut answers) {
        Ok(()) => ExitCode::SUCCESS,
        Err(_) => {
            eprintln!("driver: reading or writing failed");
            ExitCode::FAILURE
        }
    }
}
