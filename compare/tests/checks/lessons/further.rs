//! The exercises of docs/LESSONS.md that go on from a lesson: their answers are
//! steps, in a fenced piece with the word `steps` and the lesson's name.

use super::{Lesson, at, lessons, words};
use skovarnek_compare::mistaken::{Difference, MISTAKES, difference, parted};
use skovarnek_compare::packed::Log;
use skovarnek_compare::register::{Block, Office, Register};
use skovarnek_compare::report::{check_with, run_with};
use skovarnek_compare::text::parse;
use std::fs;

fn document() -> String {
    fs::read_to_string(at("docs/LESSONS.md")).expect("a document")
}

fn named(name: &str) -> Lesson {
    let mut lessons = lessons().into_iter();
    let is_it = |lesson: &Lesson| lesson.path.file_stem().is_some_and(|stem| stem == name);
    lessons.find(is_it).expect("a lesson")
}

/// The steps of the answer with this title.
fn answer(title: &str) -> String {
    let document = document();
    let start = format!("```steps {title}\n");
    let (_, behind) = document.split_once(&start).expect("an answer");
    let (steps, _) = behind.split_once("```").expect("its end");
    steps.to_string()
}

/// A lesson's log with the answer's steps behind it.
fn gone_on(lesson: &Lesson, title: &str) -> Log {
    let text = format!("{}{}", lesson.text, answer(title));
    parse(&text).unwrap_or_else(|bad| panic!("{title}: {bad}"))
}

/// The right checker's answer to the last step of a lesson that goes on.
fn last_line(name: &str, title: &str) -> String {
    let log = gone_on(&named(name), title);
    let report = words(&check_with(&log, None));
    let line = report.lines().nth(log.steps.len() - 1);
    line.expect("a step").to_string()
}

/// The registers of the right and the wrong checker at the end.
fn registers(name: &str) -> [Register; 2] {
    let lesson = named(name);
    let log = gone_on(&lesson, name);
    [None, Some(lesson.mistake)].map(|mistake| run_with(&log, mistake).1)
}

#[test]
fn two_offices_part_at_last() {
    for name in ["messages-for-signers", "block-itself"] {
        let [right, wrong] = registers(name);
        assert_eq!(parted(&right), None, "{name}");
        assert!(parted(&wrong).is_some(), "{name}");
    }
}

#[test]
fn final_for_the_right_one_alone() {
    let [right, wrong] = registers("skip-20");
    assert_eq!(right.final_block(Office(1)), Block(1));
    assert_eq!(wrong.final_block(Office(1)), Block(0));
}

#[test]
fn late_and_twice() {
    let last = last_line("votes-are-not-final", "votes-are-not-final");
    assert_eq!(last, "27 0 3");
    let last = last_line("votes-are-not-final", "votes-are-not-final-late");
    assert_eq!(last, "31 21 0");
    assert_eq!(last_line("replay-forged", "replay-forged"), "22 18 0");
}

/// The lines that exercise 3 asks for.
#[test]
fn lines_that_differ() {
    let lesson = named("history-for-view");
    let (right, wrong) = (lesson.beside("report"), lesson.beside("wrong"));
    let pairs = right.lines().zip(wrong.lines());
    let differ = pairs.filter(|(right, wrong)| right != wrong);
    let starts: Vec<&str> = differ
        .map(|(right, _)| &right[..right.len().min(8)])
        .collect();
    let wanted = ["5 19 0", "7 19 0", "9 0 2", "13 21 0", "14 21 0", "16 0 4"];
    assert_eq!(starts[..6], wanted);
    assert_eq!(starts[6..], ["office 0", "office 2"]);
}

/// The document has each lesson, and in its table the lines that differ.
#[test]
fn all_are_in_the_document() {
    let document = document();
    for lesson in lessons() {
        let name = lesson.path.file_stem().expect("a name").to_string_lossy();
        let link = format!("[{name}]: ../examples/lessons/{name}.txt\n");
        assert!(document.contains(&link), "{link}");
        let row = MISTAKES.iter().find(|row| row.0 == lesson.mistake);
        let mistake = row.expect("a row").1;
        let Difference { right, wrong, .. } =
            difference(&lesson.log, lesson.mistake).expect("a difference");
        let cells = format!("| `{mistake}` | [{name}] | `{right}` | `{wrong}` |");
        assert!(document.contains(&cells), "{cells}");
    }
}
