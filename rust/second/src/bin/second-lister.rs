//! Lists a line from standard input on standard output (document 01, Frames to
//! try).

#![forbid(unsafe_code)]

use std::io::{self, BufWriter};

fn main() -> io::Result<()> {
    let input = io::stdin().lock();
    let output = BufWriter::new(io::stdout().lock());
    second::lister::list_to(input, output)
}
