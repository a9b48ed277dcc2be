//! The program as it is called, against this checker: here the logs that it
//! reads from standard input, below its arguments, what it can't read, what it
//! can't write, and its stack.

mod arguments;
mod reading;
mod stack;
mod writing;

use skovarnek_compare::check;
use skovarnek_compare::generate::rows;
use std::fs;
use std::io::{ErrorKind, Write};
use std::path::{Path, PathBuf};
use std::process::{Child, ChildStdin, Command, Output, Stdio};

/// The program, as the repository builds it.
const PROGRAM: &str = "target/bin/check_log";

/// The most bytes that a log may have.
const LONGEST: usize = 65_536;

/// A path in the repository.
fn at(path: &str) -> PathBuf {
    Path::new(env!("CARGO_MANIFEST_DIR")).join("..").join(path)
}

/// A call of the program, with no input and its output kept.
fn program() -> Command {
    kept(Command::new(at(PROGRAM)))
}

/// A call of the program by a shell that runs these words first. They end in
/// `exec "$0"`, with `"$@"` where the program gets arguments.
fn by_shell(words: &str) -> Command {
    let mut shell = Command::new("sh");
    shell.args(["-c", words]).arg(at(PROGRAM));
    kept(shell)
}

fn kept(mut call: Command) -> Command {
    call.stdin(Stdio::null());
    call.stdout(Stdio::piped()).stderr(Stdio::piped());
    call
}

fn ended(mut call: Command) -> Output {
    let output = call.output();
    output.unwrap_or_else(|fault| panic!("{call:?}: {fault}"))
}

/// The program, begun with a pipe as its input.
fn begun(mut call: Command) -> (Child, ChildStdin) {
    let child = call.stdin(Stdio::piped()).spawn();
    let mut child = child.unwrap_or_else(|fault| panic!("{call:?}: {fault}"));
    let stdin = child.stdin.take().expect("a pipe");
    (child, stdin)
}

/// Gives the program a log. It stops reading one byte after the longest log, so
/// that the pipe may be closed before all is written.
fn feed(mut stdin: ChildStdin, log: &[u8]) {
    match stdin.write_all(log) {
        Err(fault) if fault.kind() == ErrorKind::BrokenPipe => {}
        written => written.expect("the program reads"),
    }
}

/// What the program prints of a log.
pub fn printed(log: &[u8]) -> Vec<u8> {
    let (child, stdin) = begun(program());
    feed(stdin, log);
    let output = child.wait_with_output().expect("the program ends");
    assert_says(&output, "");
    output.stdout
}

/// The status is 0, whatever happened, and standard error has just this.
fn assert_says(output: &Output, sentence: &str) {
    assert!(output.status.success(), "{output:?}");
    assert_eq!(String::from_utf8_lossy(&output.stderr), sentence);
}

/// There is no verdict, but just this on standard error.
fn assert_only_says(output: &Output, sentence: &str) {
    assert_says(output, sentence);
    assert_eq!(output.stdout, b"");
}

fn sample(name: &str) -> PathBuf {
    at("examples/sample-logs").join(name)
}

/// The sample logs, each with its path.
fn samples() -> Vec<(PathBuf, Vec<u8>)> {
    let files = fs::read_dir(sample("")).expect("a folder");
    let paths = files.map(|file| file.expect("a file").path());
    let logs = paths.filter(|path| path.extension().is_some_and(|end| end == "log"));
    let logs: Vec<_> = logs
        .map(|path| (path.clone(), fs::read(path).expect("a log")))
        .collect();
    assert!(!logs.is_empty());
    logs
}

/// The name of the row with the longest report.
const LONGEST_ROW: &str = "131,065 advances";

/// That row's log, and its report.
fn longest() -> (Vec<u8>, Vec<u8>) {
    let row = rows().into_iter().find(|row| row.name == LONGEST_ROW);
    let log = row.expect("a row").log;
    let report = check(&log);
    (log, report)
}

fn assert_prints(name: &str, log: &[u8]) {
    assert!(
        printed(log) == check(log),
        "{name}: the program prints another report"
    );
}

#[test]
fn sample_logs() {
    for (path, log) in samples() {
        assert_prints(&path.display().to_string(), &log);
    }
}

#[test]
fn cases() {
    for case in super::cases::all() {
        assert_prints(&case.name, &case.log);
    }
}

/// From a pipe that is closed at once, and from an empty file.
#[test]
fn no_bytes() {
    assert_eq!(printed(b""), b"empty\n");
    let output = ended(program());
    assert_says(&output, "");
    assert_eq!(output.stdout, b"empty\n");
}

#[test]
fn longest_report() {
    let logs = rows();
    let longest = logs.iter().max_by_key(|row| check(&row.log).len());
    let longest = longest.expect("a row");
    assert_eq!(longest.name, LONGEST_ROW);
    assert_prints(longest.name, &longest.log);
}

/// A log that fills its bytes, and the same with bytes after them.
#[test]
fn longest_log_and_longer() {
    let logs = rows();
    let full = logs.iter().find(|row| row.log.len() == LONGEST);
    let mut log = full.expect("a full log").log.clone();
    assert_prints("65,536 bytes", &log);
    for more in [1, 2, 10_000] {
        log.resize(LONGEST + more, 0);
        assert_prints("a longer log", &log);
        assert!(check(&log) != check(&log[..LONGEST]));
    }
}
