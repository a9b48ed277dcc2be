//! What the program can't read: there is no verdict then, but a sentence.

use super::{assert_only_says, at, by_shell, ended, program, sample};
use std::fs::{self, File};
use std::io::Write;
use std::os::fd::OwnedFd;
use std::os::unix::net::UnixStream;

const SENTENCE: &str = "check_log: standard input can't be read\n";

/// What can't be read is not a log of no bytes.
#[test]
fn folder_as_input() {
    let mut call = program();
    call.stdin(File::open(at("examples")).expect("a folder"));
    assert_only_says(&ended(call), SENTENCE);
}

#[test]
fn closed_input() {
    let call = by_shell("exec \"$0\" <&-");
    assert_only_says(&ended(call), SENTENCE);
}

/// An input that gives bytes and then fails, since it does not wait for more:
/// neither a part of a log nor a whole one is judged before its end is seen.
#[test]
fn input_that_fails_later() {
    let log = fs::read(sample("whole-case.log")).expect("a log");
    for size in [0, 1, log.len() / 2, log.len()] {
        let (mut ours, theirs) = UnixStream::pair().expect("a pair");
        theirs.set_nonblocking(true).expect("a socket");
        ours.write_all(&log[..size]).expect("room");
        let mut call = program();
        call.stdin(OwnedFd::from(theirs));
        assert_only_says(&ended(call), SENTENCE);
    }
}
