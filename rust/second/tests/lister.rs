//! The line lister's output, to the byte.

use std::io::{self, Read, Write};
use std::process::{Command, Stdio};
use std::thread;

use second::frame::frame;
use second::lister::{list, list_to};

/// Document 01, Frames to try: the lister's input.
const INPUT: [u8; 14] = [
    0x7E, 0x2C, 0x01, 0x01, 0x2C, 0x7E, 0x2C, 0x02, 0x2B, 0xC5, 0xE7, 0x7E, 0x7D, 0x7E,
];

/// Document 01, Frames to try: the lister's whole output.
const OUTPUT: &str = "\
ok 2 2c 01
ok 3 2c 02 2b
no 2
bytes 14 flags 4 delivered 9 refused 1 skipped 0 open 0
";

/// The listing as text.
fn listing(input: &[u8]) -> String {
    String::from_utf8(list(input)).expect("the lister prints plain text")
}

/// Runs the program over standard input and output.
fn run(input: &[u8]) -> String {
    let mut program = Command::new(env!("CARGO_BIN_EXE_second-lister"))
        .stdin(Stdio::piped())
        .stdout(Stdio::piped())
        .spawn()
        .expect("the lister starts");
    let mut stdin = program.stdin.take().expect("standard input is piped");
    // Apart from the reading of the output, since both pipes can fill up.
    let done = thread::scope(|scope| {
        scope.spawn(move || stdin.write_all(input).expect("the lister reads"));
        program.wait_with_output().expect("the lister ends")
    });
    assert!(done.status.success());
    String::from_utf8(done.stdout).expect("the lister prints plain text")
}

/// A reader that brings one octet at a time and is interrupted before each.
struct Halting<'a> {
    rest: &'a [u8],
    ready: bool,
}

impl Read for Halting<'_> {
    fn read(&mut self, into: &mut [u8]) -> io::Result<usize> {
        self.ready = !self.ready;
        if self.ready {
            return Err(io::ErrorKind::Interrupted.into());
        }
        let length = self.rest.len().min(into.len()).min(1);
        let (now, later) = self.rest.split_at(length);
        into[..length].copy_from_slice(now);
        self.rest = later;
        Ok(length)
    }
}

#[test]
fn example_of_the_papers() {
    assert_eq!(listing(&INPUT), OUTPUT);
}

#[test]
fn program_prints_the_example_of_the_papers() {
    assert_eq!(run(&INPUT), OUTPUT);
}

#[test]
fn empty_input_prints_the_counts_alone() {
    let counts = "bytes 0 flags 0 delivered 0 refused 0 skipped 0 open 0\n";
    assert_eq!(listing(&[]), counts);
    assert_eq!(run(&[]), counts);
}

#[test]
fn line_without_a_flag_is_skipped() {
    assert_eq!(
        listing(&[0x2C, 0x01, 0x01, 0x2C]),
        "bytes 4 flags 0 delivered 0 refused 0 skipped 4 open 0\n"
    );
}

#[test]
fn refused_frames_of_the_papers() {
    let cases: [(&[u8], &str); 5] = [
        (
            &[0x7E, 0x2C, 0x02, 0x2B, 0xC4, 0xE7, 0x7E],
            "no 5\nbytes 7 flags 2 delivered 0 refused 5 skipped 0 open 0\n",
        ),
        (
            &[0x7E, 0x7D, 0x00, 0x7E],
            "no 1\nbytes 4 flags 2 delivered 0 refused 2 skipped 0 open 0\n",
        ),
        (
            &[0x7E, 0x7D, 0x7E],
            "no 2\nbytes 3 flags 2 delivered 0 refused 1 skipped 0 open 0\n",
        ),
        (
            &[0x7E, 0x01, 0x01, 0x7E],
            "no 4\nbytes 4 flags 2 delivered 0 refused 2 skipped 0 open 0\n",
        ),
        (
            &[0x7E, 0x7E],
            "bytes 2 flags 2 delivered 0 refused 0 skipped 0 open 0\n",
        ),
    ];
    for (line, expected) in cases {
        assert_eq!(listing(line), expected, "line {line:02X?}");
    }
}

#[test]
fn stretch_without_its_closing_flag_is_open_and_not_listed() {
    assert_eq!(
        listing(&[0x55, 0x7E, 0x2C, 0x01, 0x01, 0x2C]),
        "bytes 6 flags 1 delivered 0 refused 0 skipped 1 open 4\n"
    );
}

#[test]
fn room_of_436_octets_holds_the_longest_body() {
    let line = frame(&[0x0A; 436]);
    let expected = format!(
        "ok 436{}\nbytes {} flags 2 delivered {} refused 0 skipped 0 open 0\n",
        " 0a".repeat(436),
        line.len(),
        line.len() - 2
    );
    assert_eq!(listing(&line), expected);
    assert!(listing(&frame(&[0x0A; 437])).starts_with("no 3\n"));
}

#[test]
fn input_in_pieces_gives_the_same_listing() {
    let mut output = Vec::new();
    let input = Halting {
        rest: &INPUT,
        ready: false,
    };
    list_to(input, &mut output).expect("interruptions are no errors");
    assert_eq!(output, OUTPUT.as_bytes());
}

#[test]
fn long_input_is_listed_to_its_end() {
    let line = INPUT.repeat(20_000);
    let text = run(&line[..line.len() - 1]);
    assert_eq!(text.lines().filter(|line| *line == "no 2").count(), 19_999);
    let counts = "bytes 279999 flags 79999 delivered 180000 refused 19999 skipped 0 open 1";
    assert_eq!(text.lines().last(), Some(counts));
}
