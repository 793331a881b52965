//! The listing's lines, answered by the Rust: `skip` where the port has to refuse.
use driver::{listing, ram};
use std::io::{self, Read, Write};

fn main() -> io::Result<()> {
    ram::map();
    let mut input = Vec::new();
    io::stdin().read_to_end(&mut input)?;
    let mut output = io::BufWriter::new(io::stdout().lock());
    writeln!(output, "{}", listing::HEADER)?;
    for text in input.split_inclusive(|byte| *byte == b'\n') {
        for line in listing::answer(text.strip_suffix(b"\n").unwrap_or(text)) {
            writeln!(output, "{line}")?;
        }
    }
    output.flush()
}
