//! Holds a program of the port that reads scripts of calls against the Rust.
//! Arguments: the port's program, a first seed, how many seeds, calls to a script, and the number
//! of its parts that calls_lines takes.
//! A script on which they differ is cut down to the lines that it takes.
use std::io::{self, Write};
use std::path::{Path, PathBuf};
use std::process::{Command, ExitCode, Stdio};
use std::thread;

/// A line of a script; not all are text.
type Line = Vec<u8>;

/// What a program prints, and whether it ended well. Each run is a process, so that it starts fresh.
fn run(program: &Path, script: &[Line]) -> (bool, String) {
    let mut child = Command::new(program)
        .env("RUST_BACKTRACE", "0")
        .stdin(Stdio::piped())
        .stdout(Stdio::piped())
        .stderr(Stdio::null())
        .spawn()
        .unwrap_or_else(|error| panic!("{}: {error}", program.display()));
    let mut stdin = child.stdin.take().unwrap();
    let input: Vec<u8> = script.iter().flat_map(|line| [&line[..], b"\n"].concat()).collect();
    let writer = thread::spawn(move || stdin.write_all(&input));
    let output = child.wait_with_output().expect("its output can't be read");
    let _ = writer.join();
    (output.status.success(), String::from_utf8_lossy(&output.stdout).into_owned())
}

struct Pair {
    rust: PathBuf,
    port: PathBuf,
}

impl Pair {
    /// A script that the Rust can't run to its end (calls out of turn) is no difference.
    fn differs(&self, script: &[Line]) -> bool {
        let (ended, rust) = run(&self.rust, script);
        ended && run(&self.port, script).1 != rust
    }

    /// Leaves lines out, many at first, while the difference stays.
    fn smallest(&self, script: Vec<Line>) -> Vec<Line> {
        let mut script = script;
        // What stands behind the first difference goes at once.
        let (mut equal, mut differing) = (0, script.len());
        while equal + 1 < differing {
            let half = (equal + differing) / 2;
            if self.differs(&script[..half]) {
                differing = half;
            } else {
                equal = half;
            }
        }
        script.truncate(differing);
        // A life before the last one rarely matters.
        if let Some(at) = script.iter().rposition(|line| line.starts_with(b"driver\t")) {
            if self.differs(&script[at..]) {
                script.drain(..at);
            }
        }
        let mut many = script.len().div_ceil(2);
        while many > 0 {
            let before = script.len();
            let mut at = 0;
            while at < script.len() {
                let mut shorter = script.clone();
                shorter.drain(at..script.len().min(at + many));
                if self.differs(&shorter) {
                    script = shorter;
                } else {
                    at += many;
                }
            }
            // What stands before may go once what stands behind is gone.
            if script.len() == before {
                many /= 2;
            }
        }
        script
    }
}

fn main() -> ExitCode {
    let arguments: Vec<String> = std::env::args().skip(1).collect();
    let [port, seed, seeds, count, fewer @ ..] = &arguments[..] else {
        eprintln!("arguments: the port's program, a first seed, how many seeds, calls to a script");
        return ExitCode::FAILURE;
    };
    let lines_program = std::env::current_exe().unwrap().with_file_name("calls_lines");
    let rust = std::env::current_exe().unwrap().with_file_name("calls_oracle");
    let pair = Pair { rust, port: port.into() };
    let first: u64 = seed.parse().expect("a seed");
    let seeds: u64 = seeds.parse().expect("a number of seeds");
    let mut lines = 0;
    for seed in first..first + seeds {
        let made = Command::new(&lines_program).arg(seed.to_string()).arg(count).args(fewer).output();
        let made = made.expect("calls_lines can't be run");
        assert!(made.status.success(), "calls_lines failed on seed {seed}");
        let lines_of = made.stdout.split_inclusive(|byte| *byte == b'\n');
        let script: Vec<Line> = lines_of.map(|line| line.strip_suffix(b"\n").unwrap_or(line).to_vec()).collect();
        lines += script.len();
        let (ended, rust) = run(&pair.rust, &script);
        if !ended {
            println!("seed {seed}: the Rust panicked");
            return ExitCode::FAILURE;
        }
        if run(&pair.port, &script).1 == rust {
            continue;
        }
        println!("seed {seed} differs; the smallest script found:");
        let script = pair.smallest(script);
        for line in &script {
            // As it is, so that it can be run again.
            io::stdout().write_all(&[b"  ", &line[..], b"\n"].concat()).unwrap();
        }
        let (rust, port) = (run(&pair.rust, &script).1, run(&pair.port, &script).1);
        let (rust, port): (Vec<&str>, Vec<&str>) = (rust.lines().collect(), port.lines().collect());
        let at = (0..).find(|at| rust.get(*at) != port.get(*at)).unwrap();
        println!("line {} of the Rust: {:?}", at + 1, rust.get(at));
        println!("line {} of the port: {:?}", at + 1, port.get(at));
        return ExitCode::FAILURE;
    }
    println!("{lines} calls in {seeds} scripts, 0 differences");
    ExitCode::SUCCESS
}
