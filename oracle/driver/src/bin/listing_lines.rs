//! Prints random lines for the listing. Arguments: seed, count.
use driver::generator::{line, Random};
use std::io::{self, Write};

fn main() -> io::Result<()> {
    let numbers: Vec<u64> = std::env::args().skip(1).map(|text| text.parse().expect("a number")).collect();
    let [seed, count] = numbers[..] else { panic!("arguments: seed, count") };
    let mut random = Random::new(seed);
    let mut output = io::BufWriter::new(io::stdout().lock());
    for at in 0..count as usize {
        writeln!(output, "{}", line(&mut random, at))?;
    }
    output.flush()
}
