//! The tool as it is called.

mod slips;

use super::cases;
use skovarnek_compare::check;
use skovarnek_compare::packed::read_log;
use std::fs;
use std::io::Write;
use std::path::{Path, PathBuf};
use std::process::{Command, Output, Stdio};

/// What the tool says to an input.
pub fn logtool(arguments: &[&str], input: &[u8]) -> Output {
    let mut child = Command::new(env!("CARGO_BIN_EXE_logtool"))
        .args(arguments)
        .stdin(Stdio::piped())
        .stdout(Stdio::piped())
        .stderr(Stdio::piped())
        .spawn()
        .expect("the tool starts");
    let mut stdin = child.stdin.take().expect("a pipe");
    // Where the arguments are wrong, the tool ends without reading.
    let _ = stdin.write_all(input);
    drop(stdin);
    child.wait_with_output().expect("the tool ends")
}

fn words(bytes: &[u8]) -> String {
    String::from_utf8_lossy(bytes).into_owned()
}

#[test]
fn text_and_log() {
    let whole = cases::all().swap_remove(0).log;
    let text = logtool(&["text"], &whole);
    assert!(text.status.success());
    let start = "offices 3\ntrusted 0 1 2\nleaders 0 0 0\npropose 0 0 7\n";
    assert!(words(&text.stdout).starts_with(start));
    let log = logtool(&["log"], &text.stdout);
    assert!(log.status.success());
    assert_eq!(log.stdout, whole);
}

#[test]
fn explained() {
    let whole = cases::all().swap_remove(0).log;
    let explained = logtool(&["explain"], &whole);
    assert!(explained.status.success());
    let explained = words(&explained.stdout);
    let lines: Vec<String> = explained.lines().map(single_spaced).collect();
    let has = |wanted: &str| assert!(lines.iter().any(|line| line == wanted), "{wanted}");
    has("epoch 1, led by office 0");
    has(
        "4 21 0 finalise 1 1 not final: naming block 1 makes its parent final, and that is genesis",
    );
    has("19 0 2 finalise 1 3 accepted: block 2, the parent of block 3, is now final for office 1");
    has("office 1 2 2 2 final block 2, a chain of 2 blocks, signed by 2 of 3");
}

/// A file of the sample logs.
fn sample(name: &str) -> PathBuf {
    let folder = Path::new(env!("CARGO_MANIFEST_DIR")).join("../examples/sample-logs");
    folder.join(name)
}

#[test]
fn going_back_explained() {
    let log = fs::read(sample("going-back.log")).expect("a log");
    let explained = words(&logtool(&["explain"], &log).stdout);
    let lines: Vec<String> = explained.lines().map(single_spaced).collect();
    let wanted = [
        "8 0 3 finalise 0 4 accepted: block 3, the parent of block 4, is now final for office 0",
        "newly final: blocks 1, 2, 3; final before: genesis",
        "9 32 0 finalise 0 3 behind: for office 0 block 3 is final, a chain of 3 blocks; that of block 2 has 2",
        "10 0 3 finalise 0 4 accepted: block 3, the parent of block 4, is final for office 0, as before",
        "",
        "at the end",
        "office 0 3 3 1 final block 3, a chain of 3 blocks, signed by 1 of 1",
    ];
    let first = lines.iter().position(|line| line.starts_with("8 0 3"));
    assert_eq!(lines[first.expect("step 8")..], wanted);
}

/// The finalise steps of the log, and what is final in the end.
#[test]
fn from_genesis_explained() {
    let log = fs::read(sample("from-genesis.log")).expect("a log");
    let explained = words(&logtool(&["explain"], &log).stdout);
    let lines = explained.lines().map(single_spaced);
    let is_office = |line: &String| line.starts_with("office") && line.contains("final");
    let about_final = |line: &String| line.contains("finalise") || is_office(line);
    let lines: Vec<String> = lines.filter(about_final).collect();
    let wanted = [
        "4 21 0 finalise 1 1 not final: naming block 1 makes its parent final, and that is genesis",
        "13 0 1 finalise 1 2 accepted: block 1, the parent of block 2, is now final for office 1",
        "18 21 0 finalise 0 3 not final: genesis, block 1 and block 3 are of epochs 0, 1, 3, not consecutive",
        "21 0 1 finalise 0 2 accepted: block 1, the parent of block 2, is now final for office 0",
        "office 0 1 1 2 final block 1, a chain of 1 block, signed by 2 of 3",
        "office 1 1 1 2 final block 1, a chain of 1 block, signed by 2 of 3",
        "office 2 0 0 3 nothing final but genesis",
    ];
    assert_eq!(lines, wanted);
}

/// Each sample log has its text and its report beside it. One that reads can be
/// had back from its text. Only a damaged one makes `logtool text` fail.
#[test]
fn sample_logs() {
    let files = fs::read_dir(sample("")).expect("a folder");
    let paths = files.map(|file| file.expect("a file").path());
    let is_log = |path: &PathBuf| path.extension().is_some_and(|end| end == "log");
    let logs: Vec<PathBuf> = paths.filter(is_log).collect();
    assert!(logs.len() >= 7, "{logs:?}");
    for path in logs {
        let beside = |end: &str| fs::read(path.with_extension(end)).expect("a file");
        let log = beside("log");
        let text = logtool(&["text"], &log);
        assert_eq!(words(&text.stdout), words(&beside("txt")), "{path:?}");
        assert_eq!(words(&check(&log)), words(&beside("report")), "{path:?}");
        let reads = read_log(&log).is_ok();
        let damaged = !reads && !log.is_empty();
        assert_eq!(text.status.success(), !damaged, "{path:?}");
        if reads {
            assert_eq!(logtool(&["log"], &text.stdout).stdout, log, "{path:?}");
        }
    }
}

fn single_spaced(line: &str) -> String {
    line.split_whitespace().collect::<Vec<&str>>().join(" ")
}

#[test]
fn a_log_that_does_not_read() {
    // Two bits set in the pad of a log without steps.
    let log = [0x0F, 0x80, 0xC0, 0x00, 0x03];
    let explained = logtool(&["explain"], &log);
    assert!(explained.status.success());
    let wanted = "log 29 ending: a pad bit set, or bytes after the pad (at bit 33, after 0 steps)";
    assert_eq!(single_spaced(&words(&explained.stdout)), wanted);
    let text = logtool(&["text"], &log);
    assert!(!text.status.success());
    assert!(words(&text.stdout).contains("leaders 0 0 0\n# log 29, ending: "));
}

/// A log of no bytes is no failure. Its text says nothing that a log could be
/// written from.
#[test]
fn no_log_yet() {
    let log = fs::read(sample("no-log-yet.log")).expect("a log");
    assert!(log.is_empty());
    let explained = logtool(&["explain"], &log);
    let wanted = "empty    a log of no bytes: there is no log yet\n";
    assert_eq!(words(&explained.stdout), wanted);
    let text = logtool(&["text"], &log);
    let wanted = "# empty, a log of no bytes: there is no log yet\n";
    assert_eq!(words(&text.stdout), wanted);
    for output in [&explained, &text] {
        assert!(output.status.success());
        assert!(output.stderr.is_empty());
    }
    let back = logtool(&["log"], &text.stdout);
    assert!(!back.status.success());
    assert!(back.stdout.is_empty());
    let wanted = "line 2: the text ends where `offices` is due\n";
    assert_eq!(words(&back.stderr), wanted);
}

#[test]
fn bad_input() {
    let log = logtool(&["log"], b"offices 3\ntrusted 0 1 2\nleaders 0\nvote 1\n");
    assert!(!log.status.success());
    assert!(log.stdout.is_empty());
    let message = words(&log.stderr);
    assert_eq!(message, "line 4: vote needs a message after office 1\n");
    assert!(!logtool(&["dance"], b"").status.success());
    let slip = logtool(
        &["explain"],
        b"offices 3\ntrusted 0 1 2\nleaders 0\nvoet 1 0\n",
    );
    assert!(!slip.status.success());
    assert!(slip.stdout.is_empty());
    let message = "line 4: no step `voet`; did you mean `vote`?\n";
    assert_eq!(words(&slip.stderr), message);
}

/// A log where a text is due, and the other way round.
#[test]
fn the_other_form() {
    let whole = cases::all().swap_remove(0).log;
    let log = logtool(&["log"], &whole);
    assert!(!log.status.success());
    assert_eq!(words(&log.stderr), "this is a packed log, not text\n");
    let text = logtool(
        &["text"],
        &fs::read(sample("whole-case.txt")).expect("a text"),
    );
    assert!(!text.status.success());
    assert!(text.stdout.is_empty());
    assert_eq!(words(&text.stderr), "this is text, not a packed log\n");
}
