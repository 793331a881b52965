//! Holds the port's listing against the Rust, line by line.
//! Arguments: the port's program, then a seed and a count of random lines, or a file of lines.
use driver::generator::{line, Random};
use driver::{listing, ram};
use std::io::Write;
use std::process::{Command, ExitCode, Stdio};
use std::thread;

const AT_A_TIME: usize = 500;

/// What the port prints to these lines, cut at each line's end.
fn port(program: &str, lines: &[Vec<u8>]) -> Vec<Vec<String>> {
    let mut child = Command::new(program)
        .stdin(Stdio::piped())
        .stdout(Stdio::piped())
        .spawn()
        .expect("the port's listing can't be run");
    let mut stdin = child.stdin.take().unwrap();
    let mut input = lines.join(&b'\n');
    input.push(b'\n');
    let writer = thread::spawn(move || stdin.write_all(&input));
    let output = child.wait_with_output().expect("the port's listing can't be read");
    // A port that ends early is seen by its answers.
    let _ = writer.join();
    let text = String::from_utf8_lossy(&output.stdout).into_owned();
    let mut printed = text.lines();
    assert_eq!(printed.next(), Some(listing::HEADER), "the header");
    let mut answers = vec![Vec::new()];
    for line in printed {
        let ends = line.starts_with("0\t") || line.starts_with("refused\t");
        let shown = if line.starts_with("refused\t") { listing::SKIP } else { line };
        answers.last_mut().unwrap().push(shown.to_string());
        if ends {
            answers.push(Vec::new());
        }
    }
    if answers.last().unwrap().is_empty() {
        answers.pop();
    }
    answers
}

#[derive(Default)]
struct Tally {
    lines: usize,
    answered: usize,
    refused: usize,
    records: usize,
    differences: usize,
    /// The one with the fewest records of the Rust, then the shortest line.
    smallest: Option<(usize, Vec<u8>, Vec<String>, Vec<String>)>,
}

impl Tally {
    fn compare(&mut self, program: &str, lines: &[Vec<u8>]) {
        let answers = port(program, lines);
        if answers.len() != lines.len() {
            println!("{} lines, {} answers of the port", lines.len(), answers.len());
            self.differences += 1;
        }
        for (line, theirs) in lines.iter().zip(answers) {
            let ours = listing::answer(line);
            self.lines += 1;
            if ours == [listing::SKIP] {
                self.refused += 1;
            } else {
                self.answered += 1;
                self.records += ours.len();
            }
            if ours == theirs {
                continue;
            }
            self.differences += 1;
            let weight = ours.len();
            let smaller = |(best, text, ..): &(usize, Vec<u8>, _, _)| (weight, line.len()) < (*best, text.len());
            if self.smallest.as_ref().is_none_or(smaller) {
                self.smallest = Some((weight, line.clone(), ours, theirs));
            }
        }
    }
}

fn main() -> ExitCode {
    let arguments: Vec<String> = std::env::args().skip(1).collect();
    ram::map();
    let mut tally = Tally::default();
    match &arguments[..] {
        [program, file] => {
            let text = std::fs::read(file).expect("the file can't be read");
            let text = text.strip_suffix(b"\n").unwrap_or(&text);
            let lines: Vec<Vec<u8>> = text.split(|byte| *byte == b'\n').map(<[u8]>::to_vec).collect();
            for some in lines.chunks(AT_A_TIME) {
                tally.compare(program, some);
            }
        }
        [program, seed, count] => {
            let mut random = Random::new(seed.parse().expect("a seed"));
            let count: usize = count.parse().expect("a count");
            let mut at = 0;
            while at < count {
                let end = count.min(at + AT_A_TIME);
                let some: Vec<Vec<u8>> = (at..end).map(|at| line(&mut random, at).into_bytes()).collect();
                tally.compare(program, &some);
                at = end;
            }
        }
        _ => {
            eprintln!("arguments: the port's listing, then a file of lines, or a seed and a count");
            return ExitCode::FAILURE;
        }
    }
    println!(
        "{} lines: {} answered with {} records, {} refused; {} differences",
        tally.lines, tally.answered, tally.records, tally.refused, tally.differences
    );
    let Some((_, line, ours, theirs)) = tally.smallest else {
        return if tally.differences == 0 { ExitCode::SUCCESS } else { ExitCode::FAILURE };
    };
    println!("smallest: {}", String::from_utf8_lossy(&line));
    let at = (0..).find(|at| ours.get(*at) != theirs.get(*at)).unwrap();
    println!("answer {} of the Rust: {:?}", at + 1, ours.get(at));
    println!("answer {} of the port: {:?}", at + 1, theirs.get(at));
    ExitCode::FAILURE
}
