//! Prints a random script of calls. Arguments: seed, count, and which parts it has beside transfers,
//! orders, power and events: the sum of 1 for interrupts by readings, 2 for control, 4 for sends
//! and receives, 8 for wakeup; all of them where it is left out.
use driver::generator::{calls, Parts, Random};
use driver::ram;
use std::io::{self, Write};

fn main() -> io::Result<()> {
    let numbers: Vec<u64> = std::env::args().skip(1).map(|text| text.parse().expect("a number")).collect();
    let (seed, count, parts) = match numbers[..] {
        [seed, count] => (seed, count, Parts::ALL),
        [seed, count, parts] => (seed, count, Parts(parts)),
        _ => panic!("arguments: seed, count, and a number for the parts"),
    };
    ram::map();
    let mut output = io::BufWriter::new(io::stdout().lock());
    for line in calls(&mut Random::new(seed), count as usize, parts) {
        output.write_all(&line)?;
        output.write_all(b"\n")?;
    }
    output.flush()
}
