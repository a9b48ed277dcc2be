//! What the program can't write, and what it writes piece by piece.

use super::{
    assert_only_says, assert_says, begun, by_shell, ended, feed, longest, program, sample,
};
use skovarnek_compare::check;
use std::fs::{self, File, OpenOptions};
use std::io::Read;
use std::os::fd::OwnedFd;
use std::os::unix::net::UnixStream;
use std::path::Path;
use std::process::{Command, Output, Stdio};
use std::thread::sleep;
use std::time::Duration;

const SENTENCE: &str = "check_log: the report can't be written\n";

/// A device on which there is never room.
fn full() -> File {
    let device = OpenOptions::new().write(true).open("/dev/full");
    device.expect("a device")
}

#[test]
fn full_device() {
    let mut call = program();
    call.arg(sample("whole-case.log")).stdout(full());
    assert_only_says(&ended(call), SENTENCE);
    let mut call = program();
    call.stdout(full());
    assert_only_says(&ended(call), SENTENCE);
}

#[test]
fn line_of_use_on_a_full_device() {
    let mut call = program();
    call.arg("--help").stdout(full());
    let sentence = "check_log: the line of use can't be written\n";
    assert_only_says(&ended(call), sentence);
}

/// Where the output is closed, the log's own file may be opened by its number.
#[test]
fn closed_output() {
    assert_only_says(&ended(by_shell("exec \"$0\" >&-")), SENTENCE);
    for words in ["exec \"$0\" \"$@\" >&-", "exec \"$0\" \"$@\" <&- >&-"] {
        let mut call = by_shell(words);
        call.arg(sample("whole-case.log"));
        assert_only_says(&ended(call), SENTENCE);
    }
}

/// Where standard error is closed too, nothing can be said. Whichever number the
/// log's own file then has, nothing is written to it.
#[test]
fn closed_error() {
    let path = Path::new(env!("CARGO_TARGET_TMPDIR")).join("closed-error.log");
    let log = fs::read(sample("whole-case.log")).expect("a log");
    fs::write(&path, &log).expect("a file");
    for closed in ["2>&-", ">&- 2>&-", "<&- >&- 2>&-"] {
        let mut call = by_shell(&format!("exec \"$0\" \"$@\" {closed}"));
        call.arg(&path);
        let output = ended(call);
        assert_says(&output, "");
        let open = closed == "2>&-";
        let report = if open { check(&log) } else { Vec::new() };
        assert_eq!(output.stdout, report);
        assert!(fs::read(&path).expect("a log") == log);
    }
}

/// Stops the process and lets it go on. A write that waits for room then gives
/// back how much it has written so far.
fn interrupt(process: u32) {
    let mut shell = Command::new("sh");
    shell.args(["-c", "kill -STOP $0 && kill -CONT $0"]);
    let status = shell.arg(process.to_string()).status();
    assert!(status.expect("a shell").success());
}

/// A reader that takes a little at a time and interrupts the writer now and then
/// gets the whole report.
#[test]
fn slow_reader() {
    let (log, report) = longest();
    let (mut child, stdin) = begun(program());
    feed(stdin, &log);
    let mut stdout = child.stdout.take().expect("a pipe");
    let mut got = Vec::new();
    let mut piece = [0; 3001];
    for turn in 0.. {
        let size = stdout.read(&mut piece).expect("the program writes");
        if size == 0 {
            break;
        }
        got.extend_from_slice(&piece[..size]);
        if turn < 20 {
            sleep(Duration::from_millis(5));
            interrupt(child.id());
        }
    }
    let output = child.wait_with_output().expect("the program ends");
    assert_says(&output, "");
    assert!(got == report, "{} bytes of {}", got.len(), report.len());
}

/// The program's end where its reader takes so many bytes and closes the pipe.
fn with_reader_of(bytes: usize, words: &str) -> Output {
    let (log, report) = longest();
    let (mut child, stdin) = begun(by_shell(words));
    let mut stdout = child.stdout.take().expect("a pipe");
    let mut got = vec![0; bytes];
    if bytes == 0 {
        drop(stdout);
        feed(stdin, &log);
    } else {
        feed(stdin, &log);
        stdout.read_exact(&mut got).expect("the program writes");
        drop(stdout);
    }
    assert!(got == report[..bytes]);
    child.wait_with_output().expect("the program ends")
}

/// The program ignores the signal that would end it, and the write fails.
#[test]
fn reader_that_closes() {
    for bytes in [0, 1000] {
        let output = with_reader_of(bytes, "exec \"$0\"");
        assert_says(&output, SENTENCE);
    }
}

/// The same where whoever calls the program ignores that signal.
#[test]
fn reader_that_closes_and_no_signal() {
    for bytes in [0, 1000] {
        let output = with_reader_of(bytes, "trap '' PIPE; exec \"$0\"");
        assert_says(&output, SENTENCE);
    }
}

/// An output that does not wait for its reader: it takes the report's beginning,
/// and then the write fails.
#[test]
fn output_that_does_not_wait() {
    let (log, report) = longest();
    let (mut ours, theirs) = UnixStream::pair().expect("a pair");
    theirs.set_nonblocking(true).expect("a socket");
    let mut call = program();
    call.stdout(Stdio::from(OwnedFd::from(theirs)));
    let (child, stdin) = begun(call);
    feed(stdin, &log);
    let output = child.wait_with_output().expect("the program ends");
    assert_says(&output, SENTENCE);
    let mut got = Vec::new();
    ours.read_to_end(&mut got).expect("what was written");
    assert!(!got.is_empty() && got.len() < report.len());
    assert!(report.starts_with(&got));
}
