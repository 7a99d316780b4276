//! The rows of the line lister: whole programs, from a file to nowhere.

use std::env;
use std::fs::{self, File};
use std::io::{self, Write};
use std::path::{Path, PathBuf};
use std::process::{Command, Stdio};
use std::time::Instant;

use compare::bodies::Kind as Body;
use compare::generator::Generator;
use compare::lines::{share_flag, Kind as Line};
use second::frame::frame;

use crate::table::{Row, Unit};

/// The argument by which this program is the lister in Rust.
pub const LISTER: &str = "lister";

/// Octets of a capture: enough that starting a program weighs little.
const OCTETS: usize = 32 << 20;

/// How often each program is timed, in turn.
const ROUNDS: usize = 7;

/// Prints the rows of the line lister.
pub fn print() -> io::Result<()> {
    let mut generator = Generator::new(12);
    print_row("frames of 28", &frames(28, &mut generator))?;
    print_row("frames of 436", &frames(436, &mut generator))?;
    print_row("noise", &Line::Noise.line(OCTETS, &mut generator))
}

fn frames(length: usize, generator: &mut Generator) -> Vec<u8> {
    let some: Vec<_> = (0..256)
        .map(|_| frame(&Body::Random.body(length, generator)))
        .collect();
    let mut line = Vec::new();
    while line.len() < OCTETS {
        share_flag(&mut line, &some[generator.below(some.len())]);
    }
    line
}

fn print_row(name: &str, line: &[u8]) -> io::Result<()> {
    let capture = Capture::of(line)?;
    let ours = Path::new(env!("CARGO_MANIFEST_DIR")).join("../../target/bin/line_lister");
    let mut programs = [Command::new(ours), Command::new(env::current_exe()?)];
    programs[1].arg(LISTER);
    let mut best = [f64::INFINITY; 2];
    for _ in 0..ROUNDS {
        for (program, best) in programs.iter_mut().zip(&mut best) {
            *best = best.min(capture.time(program)?);
        }
    }
    let [ours, rust] = best.map(|seconds| line.len() as f64 / 1e6 / seconds);
    Row {
        work: format!("list a capture, {name}"),
        unit: Unit::Megabytes,
        ours,
        rust,
        second: None,
    }
    .print();
    Ok(())
}

/// A capture in a file, which goes when it does.
struct Capture(PathBuf);

impl Capture {
    fn of(line: &[u8]) -> io::Result<Self> {
        let path = env::temp_dir().join(format!("ostrogosz-bench-{}", std::process::id()));
        File::create(&path)?.write_all(line)?;
        Ok(Self(path))
    }

    /// Seconds that a lister takes for it.
    fn time(&self, program: &mut Command) -> io::Result<f64> {
        let start = Instant::now();
        let status = program
            .stdin(File::open(&self.0)?)
            .stdout(Stdio::null())
            .status()?;
        assert!(status.success(), "{program:?} fails");
        Ok(start.elapsed().as_secs_f64())
    }
}

impl Drop for Capture {
    fn drop(&mut self) {
        // Nothing is lost where it stays behind.
        let _ = fs::remove_file(&self.0);
    }
}
