//! Starting the proved programs, and showing what they have printed.
//!
//! A program gets its input as a file, or through a pipe in pieces. What it has printed is kept with how it ended, so that a
//! difference can be told in full.

use std::fs::File;
use std::io::{self, Write};
use std::path::Path;
use std::process::{Command, Output, Stdio};
use std::thread;

/// What a proved program has printed, by the program's name.
pub struct Printed {
    pub program: &'static str,
    pub bytes: Vec<u8>,
    /// Whether it was stopped by a signal, and how it ended with what it said on standard error.
    pub stopped: bool,
    pub remark: String,
}

impl Printed {
    pub fn new(program: &'static str, output: &Output, bytes: &[u8]) -> Printed {
        Printed { program, bytes: bytes.to_vec(), stopped: output.status.code().is_none(), remark: ending(output) }
    }
}

fn ending(proved: &Output) -> String {
    format!("proved program: {}; standard error: {}", proved.status, String::from_utf8_lossy(&proved.stderr).trim_end())
}

fn command(words: &[String]) -> Command {
    let mut command = Command::new(&words[0]);
    command.args(&words[1..]);
    command
}

/// A start that failed, with the command it was about.
fn explained(words: &[String], error: io::Error) -> io::Error {
    io::Error::new(error.kind(), format!("cannot run {}: {error}", words.join(" ")))
}

pub fn run_with_file(words: &[String], more: &[String], input: &Path) -> io::Result<Output> {
    command(words).args(more).stdin(File::open(input)?).output().map_err(|error| explained(words, error))
}

/// Runs a program and writes to it in pieces, from a thread of its own, so that neither side waits for the other.
pub fn run_with_pipe(words: &[String], input: &[u8], piece: usize) -> io::Result<Output> {
    let mut child = command(words)
        .stdin(Stdio::piped())
        .stdout(Stdio::piped())
        .stderr(Stdio::piped())
        .spawn()
        .map_err(|error| explained(words, error))?;
    let mut pipe = child.stdin.take().expect("standard input is a pipe");
    thread::scope(|scope| {
        scope.spawn(move || {
            // A program may stop reading early, as with a file that is too long; what it prints tells whether it may.
            let _ = input.chunks(piece).try_for_each(|bytes| pipe.write_all(bytes));
        });
        child.wait_with_output()
    })
}

/// Prints the first line that differs, in both versions.
pub fn print_first_difference(proved: &[u8], second: &[u8]) {
    let lines = |text: &[u8]| -> Vec<Vec<u8>> { text.split(|byte| *byte == b'\n').map(<[u8]>::to_vec).collect() };
    let (proved, second) = (lines(proved), lines(second));
    let first = (0..proved.len().max(second.len())).find(|line| proved.get(*line) != second.get(*line));
    if let Some(line) = first {
        println!("line {}:", line + 1);
        println!("  proved: {}", shown(proved.get(line)));
        println!("  second: {}", shown(second.get(line)));
    }
}

/// A line fit to be printed: not too long, and no bytes that are not text.
fn shown(line: Option<&Vec<u8>>) -> String {
    const MOST: usize = 160;
    match line {
        None => "(no such line)".to_string(),
        Some(line) if line.len() > MOST => {
            format!("{}... ({} bytes)", line[..MOST].escape_ascii(), line.len())
        }
        Some(line) => line.escape_ascii().to_string(),
    }
}
