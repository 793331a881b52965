//! Plants mistakes in copies of the port, one at a time, and tells which the comparison finds.
//! Arguments: the repository, a seed, how many calls, and parts of the names of edits to try, where
//! not all are to be tried. `rt` stops a program that prints over a mebibyte.
//! The mistakes are the must-fail edits of code that `replay` stands on. Each copy is compiled
//! without proof by `rt try` and runs a random script, and where that tells nothing the stored
//! one; the Rust's answers are what it has to print.
use std::collections::BTreeMap;
use std::io::Write;
use std::path::{Path, PathBuf};
use std::process::{Command, ExitCode, Stdio};
use std::{env, fs, thread};

const PROGRAM: &str = "replay";

struct Edit {
    name: String,
    file: PathBuf,
    old: String,
    new: String,
}

/// The crates that a crate stands on, itself among them.
fn reached(root: &Path, program: &str) -> Vec<String> {
    let text = fs::read_to_string(root.join("crates.txt")).expect("crates.txt");
    let stands_on: BTreeMap<&str, Vec<&str>> = text
        .lines()
        .filter_map(|line| line.split_once(':'))
        .map(|(name, others)| (name, others.split_whitespace().collect()))
        .collect();
    let mut names = vec![program];
    let mut at = 0;
    while at < names.len() {
        for other in &stands_on[names[at]] {
            if stands_on.contains_key(other) && !names.contains(other) {
                names.push(other);
            }
        }
        at += 1;
    }
    names.sort();
    names.iter().map(|name| name.to_string()).collect()
}

/// The edits of a crate's code.
fn edits(root: &Path, name: &str) -> Vec<Edit> {
    let Ok(folder) = fs::read_dir(root.join("crates").join(name).join("must-fail")) else {
        return Vec::new();
    };
    let mut edits: Vec<Edit> = folder
        .filter_map(|entry| {
            let path = entry.unwrap().path();
            let text = fs::read_to_string(&path).unwrap();
            let part = |word: &str| text.lines().find_map(|line| line.strip_prefix(word)).expect(word).to_string();
            let file = part("file: ");
            file.starts_with("src/").then(|| Edit {
                name: format!("{name}/{}", path.file_stem().unwrap().to_string_lossy()),
                file: Path::new("crates").join(name).join(file),
                old: part("old: "),
                new: part("new: "),
            })
        })
        .collect();
    edits.sort_by(|a, b| a.name.cmp(&b.name));
    edits
}

fn copy(from: &Path, to: &Path) {
    fs::create_dir_all(to).unwrap();
    for entry in fs::read_dir(from).unwrap() {
        let entry = entry.unwrap();
        let target = to.join(entry.file_name());
        if entry.file_name() == "out" {
            continue; // what the kit has built
        }
        if entry.path().is_dir() {
            copy(&entry.path(), &target);
        } else {
            fs::copy(entry.path(), target).unwrap();
        }
    }
}

/// What one of our own programs prints.
fn output(program: &str, arguments: &[String], input: Vec<u8>) -> Vec<u8> {
    let mut child = Command::new(env::current_exe().unwrap().with_file_name(program))
        .args(arguments)
        .stdin(Stdio::piped())
        .stdout(Stdio::piped())
        .spawn()
        .unwrap();
    let mut stdin = child.stdin.take().unwrap();
    let writer = thread::spawn(move || stdin.write_all(&input));
    let output = child.wait_with_output().unwrap();
    let _ = writer.join();
    assert!(output.status.success(), "{program} failed");
    output.stdout
}

/// What became of the compiled program: its output is right, or wrong, or it didn't run. `rt try` ends with 0 where the
/// program did, and with 4 to 6 where it faulted, its two runs differ, or it gave no answer.
fn verdict(root: &Path, [stdin, stdout]: &[Vec<u8>; 2]) -> &'static str {
    let mut child = Command::new("rt")
        .arg("try")
        .current_dir(root.join("crates").join(PROGRAM))
        .stdin(Stdio::piped())
        .stdout(Stdio::piped())
        .stderr(Stdio::null())
        .spawn()
        .expect("rt can't be run");
    let mut pipe = child.stdin.take().unwrap();
    let input = stdin.clone();
    let writer = thread::spawn(move || pipe.write_all(&input));
    let output = child.wait_with_output().unwrap();
    let _ = writer.join();
    match output.status.code() {
        Some(0) if output.stdout == *stdout => "missed",
        Some(0) | Some(4..=6) => "found",
        _ => "didn't run",
    }
}

fn main() -> ExitCode {
    let arguments: Vec<String> = env::args().skip(1).collect();
    let [root, seed, count, wanted @ ..] = &arguments[..] else {
        eprintln!("arguments: the repository, a seed, how many calls, parts of names");
        return ExitCode::FAILURE;
    };
    let root = Path::new(root);
    let script = output("calls_lines", &[seed.clone(), count.clone()], Vec::new());
    let answers = output("calls_oracle", &[], script.clone());
    let place = env::temp_dir().join(format!("planted-{}", std::process::id()));
    copy(&root.join("crates"), &place.join("crates"));
    fs::copy(root.join("crates.txt"), place.join("crates.txt")).unwrap();
    let own = place.join("crates").join(PROGRAM);
    let stored = ["stdin", "stdout"].map(|name| fs::read(own.join(name)).unwrap());
    let random = [script, answers];
    assert_eq!(verdict(&place, &random), "missed", "without a mistake the program has to be right");
    let mut counts: BTreeMap<&str, usize> = BTreeMap::new();
    let edits = reached(root, PROGRAM).into_iter().flat_map(|name| edits(root, &name));
    for edit in edits.filter(|edit| wanted.is_empty() || wanted.iter().any(|part| edit.name.contains(&part[..]))) {
        let file = place.join(&edit.file);
        let right = fs::read_to_string(&file).unwrap();
        assert_eq!(right.matches(&edit.old).count(), 1, "{}", edit.name);
        fs::write(&file, right.replacen(&edit.old, &edit.new, 1)).unwrap();
        let mut verdict = self::verdict(&place, &random);
        if verdict == "missed" && self::verdict(&place, &stored) == "found" {
            verdict = "found by the stored script";
        }
        fs::write(&file, right).unwrap();
        println!("{verdict}\t{}", edit.name);
        *counts.entry(verdict).or_default() += 1;
    }
    fs::remove_dir_all(&place).unwrap();
    println!("{counts:?}");
    ExitCode::SUCCESS
}
