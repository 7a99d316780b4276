//! The proved programs, run on an input.

use std::io::Write;
use std::path::Path;
use std::process::{Command, Stdio};
use std::thread;

/// What a proved program writes for this input.
pub fn output_of(program: &str, input: &[u8]) -> Vec<u8> {
    let path = Path::new(env!("CARGO_MANIFEST_DIR")).join("../../target/bin");
    let mut run = Command::new(path.join(program))
        .stdin(Stdio::piped())
        .stdout(Stdio::piped())
        .spawn()
        .unwrap_or_else(|error| {
            panic!("{error}: run `scripts/programs {program}` at the root of the repository")
        });
    let mut into = run.stdin.take().expect("a pipe");
    // Fed from beside, since the program writes while it reads. One that stops
    // before the input's end closes the pipe, and what is left is not read.
    let input = input.to_vec();
    let feeder = thread::spawn(move || into.write_all(&input));
    let output = run.wait_with_output().expect("the program ends");
    let _ = feeder.join().expect("no panic");
    assert!(output.status.success());
    output.stdout
}
