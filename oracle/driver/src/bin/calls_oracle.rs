//! Reads a script of calls and prints what the Rust does.
use driver::calls::Calls;
use driver::ram;
use std::io::{self, Read, Write};

fn main() -> io::Result<()> {
    ram::map();
    let mut script = Vec::new();
    io::stdin().read_to_end(&mut script)?;
    let mut output = io::BufWriter::new(io::stdout().lock());
    let mut calls = Calls::default();
    for line in script.split_inclusive(|byte| *byte == b'\n') {
        for told in calls.call(line.strip_suffix(b"\n").unwrap_or(line)) {
            writeln!(output, "{told}")?;
        }
    }
    output.flush()
}
