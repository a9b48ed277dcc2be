//! `logtool mistake` as it is called.

use super::super::logtool::logtool;
use super::{lessons, words};
use skovarnek_compare::mistaken::MISTAKES;
use skovarnek_compare::packed::write_log;
use std::process::Output;

fn mistake(name: &str, input: &[u8]) -> Output {
    logtool(&["mistake", name], input)
}

fn told(name: &str, input: &[u8]) -> String {
    let output = mistake(name, input);
    assert!(output.status.success(), "{output:?}");
    words(&output.stdout)
}

/// Text and packed log give the same.
#[test]
fn each_lesson() {
    for lesson in lessons() {
        let row = MISTAKES.iter().find(|row| row.0 == lesson.mistake);
        let &(_, name, thought, reason) = row.expect("a row");
        let text = told(name, lesson.text.as_bytes());
        let packed = write_log(&lesson.log.opening, &lesson.log.steps);
        assert_eq!(told(name, &packed), text);
        assert!(text.contains(thought) && text.contains(reason), "{text}");
        let parts = text.contains("final chains part");
        assert_eq!(parts, lesson.said("Two offices part: ").is_some(), "{text}");
        let all = told("all", lesson.text.as_bytes());
        assert_eq!(all.lines().count(), MISTAKES.len() + 1);
        let line = all.lines().find(|line| line.starts_with(name));
        let differs = line.expect("a line").contains(" | ");
        assert!(differs, "{all}");
    }
}

const VOTED: &str = "offices 3\ntrusted 0 1 2\nleaders 0\npropose 0 0 7\ndeliver 0 1\nvote 1 0\n";

#[test]
fn the_first_line_that_differs() {
    let log = format!("{VOTED}finalise 1 1\n");
    let wanted = "votes-are-final: the student thinks that a block with two thirds of the votes is final.\n\
        Step 4: finalise 1 1\n  \
        right: 4 21 0       not final: finalise condition unmet\n  \
        wrong: 4 0 1        accepted\n\
        Two thirds of the votes make a block notarised";
    let told = told("votes-are-final", log.as_bytes());
    assert!(told.starts_with(wanted), "{told}");
}

#[test]
fn no_difference() {
    let told = told("skip-20", VOTED.as_bytes());
    assert!(told.contains("No difference"), "{told}");
}

/// Where all steps get the same answers, the offices' lines may still differ:
/// here the vote of office 2 never comes to office 1.
const ONE_VOTE_LATE: &str = "offices 4\ntrusted 0 1 2\nleaders 0 0\n\
    propose 0 0 7\ndeliver 0 1\nvote 1 0\ndeliver 0 2\nvote 2 0\nbad-send 3 vote 3 1\n\
    deliver 3 1\nregister 1 3\ndeliver 1 0\nregister 0 1\ndeliver 2 0\nregister 0 2\n\
    advance\npropose 0 1 8\ndeliver 4 1\nvote 1 4\nbad-send 3 vote 3 2\n\
    deliver 6 1\nregister 1 6\nfinalise 1 2\n";

#[test]
fn only_an_office_differs() {
    let told = told("history-for-view", ONE_VOTE_LATE.as_bytes());
    let wanted = "All steps get the same answers; the offices' lines differ.\n  \
        right: office 1 1 1 3\n  wrong: office 1 1 1 4\n";
    assert!(told.contains(wanted), "{told}");
}

#[test]
fn unknown_names_and_bad_input() {
    let unknown = mistake("no-such", VOTED.as_bytes());
    assert!(!unknown.status.success());
    assert!(unknown.stdout.is_empty());
    for (_, name, ..) in MISTAKES {
        assert!(words(&unknown.stderr).contains(name));
    }
    let slips = [
        ("vote 1 0", "vtoe 1 0", "line 6"),
        ("deliver 0 1", "deliver 0", "line 5"),
        ("leaders 0", "leaders 3", "line 3"),
        ("trusted 0 1 2", "trusted 0 1 4", "line 2"),
    ];
    for (good, slip, line) in slips {
        let bad = mistake("all", VOTED.replace(good, slip).as_bytes());
        assert!(!bad.status.success(), "{slip}");
        assert!(bad.stdout.is_empty(), "{slip}");
        assert!(words(&bad.stderr).contains(line), "{slip}: {bad:?}");
    }
    for damaged in [&b""[..], &[0x0F, 0x80, 0xC0, 0x00, 0x03]] {
        let output = mistake("all", damaged);
        assert!(!output.status.success() && output.stdout.is_empty());
        assert!(!output.stderr.is_empty());
    }
}
