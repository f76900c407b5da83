//! The program, run as a user runs it.
mod cut;
mod memory;
mod round_trip;
mod words;

use station::random::Random;
use std::fs;
use std::path::PathBuf;
use std::process::{Command, Output, Stdio};

/// A folder of a test's own.
fn folder(name: &str) -> PathBuf {
    let folder = PathBuf::from(env!("CARGO_TARGET_TMPDIR")).join("program").join(name);
    let _ = fs::remove_dir_all(&folder);
    fs::create_dir_all(&folder).unwrap();
    folder
}

fn program() -> Command {
    let mut command = Command::new(env!("CARGO_BIN_EXE_dimpstea"));
    command.stdin(Stdio::null());
    command
}

/// Runs the program in a folder with words as they are typed; it must not panic.
fn typed(folder: &std::path::Path, words: &str) -> Output {
    let output = program().current_dir(folder).args(words.split(' ')).output().unwrap();
    assert!(!err(&output).contains("panicked"), "{words}: {}", err(&output));
    output
}

fn out(output: &Output) -> String {
    String::from_utf8_lossy(&output.stdout).into()
}

fn err(output: &Output) -> String {
    String::from_utf8_lossy(&output.stderr).into()
}

/// Random payload bits as text.
fn payload(bits: usize, seed: u64) -> String {
    Random::new(seed).bits(bits).into_iter().map(|bit| char::from(b'0' + bit)).collect()
}
