//! What the program does with its arguments.

use super::{LONGEST, assert_only_says, assert_says, at, ended, program, sample, samples};
use skovarnek_compare::check;
use std::ffi::OsStr;
use std::fs::{self, File};
use std::os::unix::ffi::OsStrExt;
use std::path::Path;
use std::process::Output;

const USAGE: &str = "usage: check_log [FILE]   checks the log in FILE, or on standard input, and prints its report\n";

fn called(arguments: &[&OsStr]) -> Output {
    let mut call = program();
    call.args(arguments);
    ended(call)
}

fn with_file(path: &Path) -> Output {
    called(&[path.as_os_str()])
}

fn with_word(word: &str) -> Output {
    called(&[OsStr::new(word)])
}

fn assert_checks(path: &Path, log: &[u8]) {
    let output = with_file(path);
    assert_says(&output, "");
    assert!(output.stdout == check(log), "{}", path.display());
}

#[test]
fn named_logs() {
    for (path, log) in samples() {
        assert_checks(&path, &log);
    }
}

/// A file that is longer than a log may be is refused as such.
#[test]
fn named_log_that_is_too_long() {
    let path = Path::new(env!("CARGO_TARGET_TMPDIR")).join("too-long.log");
    let log = vec![0; LONGEST + 1];
    fs::write(&path, &log).expect("a file");
    assert_checks(&path, &log);
    assert_eq!(check(&log), b"log 30\n");
}

/// Standard input counts for nothing where a file is named.
#[test]
fn named_log_and_input() {
    let mut call = program();
    call.arg(sample("damaged.log"));
    call.stdin(File::open(sample("whole-case.log")).expect("a log"));
    let output = ended(call);
    assert_says(&output, "");
    assert_eq!(output.stdout, b"log 29\n");
}

#[test]
fn usage() {
    let output = with_word("--help");
    assert_says(&output, "");
    assert_eq!(String::from_utf8_lossy(&output.stdout), USAGE);
}

/// Only `--help` itself asks for the line of use; any other word is a name.
#[test]
fn nearly_usage() {
    for word in ["--hel", "--helps", "--Help", "-help", "--"] {
        let output = with_word(word);
        assert_only_says(&output, &format!("check_log: {word} can't be opened\n"));
    }
}

#[test]
fn too_many_arguments() {
    let log = sample("whole-case.log");
    let log = log.as_os_str();
    let help = OsStr::new("--help");
    for arguments in [&[log, log][..], &[help, log], &[log, help, log]] {
        assert_only_says(&called(arguments), USAGE);
    }
}

#[test]
fn missing_file() {
    let path = sample("no-such.log");
    let sentence = format!("check_log: {} can't be opened\n", path.display());
    assert_only_says(&with_file(&path), &sentence);
}

/// A folder opens, and then can't be read.
#[test]
fn folder() {
    let path = at("examples");
    let sentence = format!("check_log: {} can't be read\n", path.display());
    assert_only_says(&with_file(&path), &sentence);
}

/// A name of 4,096 bytes or more is never opened by its beginning. From 4,097
/// bytes up the sentence does not repeat it.
#[test]
fn long_names() {
    let name = "a".repeat(4096);
    let sentence = format!("check_log: {name} can't be opened\n");
    assert_only_says(&with_word(&name), &sentence);
    for length in [4097, 5000] {
        let output = with_word(&"a".repeat(length));
        assert_only_says(&output, "check_log: the file's name is too long\n");
    }
    let log = sample("whole-case.log");
    let log = log.to_str().expect("a name");
    let name = format!("{}{log}", "/".repeat(5000));
    let output = with_word(&name);
    assert_only_says(&output, "check_log: the file's name is too long\n");
}

#[test]
fn empty_name() {
    let output = with_word("");
    assert_only_says(&output, "check_log: the file's name is empty\n");
}

/// The program opens files by names that are text; any other name it repeats as it
/// was given.
#[test]
fn name_that_is_no_text() {
    let log = fs::read(sample("whole-case.log")).expect("a sample log");
    let name = OsStr::from_bytes(b"no-text-\xFF.log");
    let folder = std::env::temp_dir();
    let path = folder.join(name);
    fs::write(&path, &log).expect("a file of that name");
    let output = with_file(&path);
    fs::remove_file(&path).expect("the file is gone");
    let sentence = [
        b"check_log: ",
        path.as_os_str().as_bytes(),
        b" can't be opened\n",
    ]
    .concat();
    assert_eq!(output.stderr, sentence);
    assert_eq!(output.stdout, b"");
}
