//! `logtool draw` as it is called, and the pictures of the documents.

use super::super::logtool::logtool;
use super::{assert_text_fits, seen_by_default};
use skovarnek_compare::draw::{Choice, choose, draw, layout};
use skovarnek_compare::text::parse;
use std::fs;
use std::path::Path;

/// The office and the step that a picture's title names.
fn choice_in(picture: &str) -> Choice {
    let title = picture.split("</title>").next().expect("a title");
    let title = title.rsplit('>').next().expect("a title");
    let numbers = title.split(|c: char| !c.is_ascii_digit());
    let numbers: Vec<usize> = numbers.filter_map(|word| word.parse().ok()).collect();
    let (step, office) = match numbers[..] {
        [office] => (0, office),
        [step, _, office] => (step, office),
        _ => panic!("{title}"),
    };
    Choice {
        office: Some(office),
        step: Some(step),
    }
}

/// The lessons that the documents have pictures of.
const PICTURES: [&str; 2] = ["votes-are-not-final", "late-finaliser"];

/// Each picture of the documents is what is drawn of the lesson of its name, for
/// the office and after the step that its title names.
#[test]
fn the_pictures_of_the_documents_are_drawn_so() {
    let root = Path::new(env!("CARGO_MANIFEST_DIR")).join("..");
    for name in PICTURES {
        let lesson = root.join(format!("examples/lessons/{name}.txt"));
        let log = fs::read(lesson).expect("a lesson");
        let path = root.join(format!("docs/pictures/{name}.svg"));
        let picture = fs::read_to_string(path).expect("a picture");
        let again = draw(&choice_in(&picture), &log);
        assert!(
            again.as_ref() == Ok(&picture),
            "{name} is to be drawn again"
        );
    }
}

/// What the tool draws; it must not fail.
fn drawn(arguments: &[&str], input: &[u8]) -> String {
    let output = logtool(&[&["draw"], arguments].concat(), input);
    let message = String::from_utf8_lossy(&output.stderr);
    assert!(output.status.success(), "{message}");
    assert!(output.stderr.is_empty());
    String::from_utf8(output.stdout).expect("a picture is text")
}

/// Why the tool draws nothing.
fn fault(arguments: &[&str], input: &[u8]) -> String {
    let output = logtool(&[&["draw"], arguments].concat(), input);
    assert!(!output.status.success());
    assert!(output.stdout.is_empty());
    let message = String::from_utf8(output.stderr).expect("a message is text");
    message.trim_end().to_string()
}

const FORK_LOG: &[u8] = include_bytes!("../../../../examples/sample-logs/a-fork.log");
const FORK_TEXT: &[u8] = include_bytes!("../../../../examples/sample-logs/a-fork.txt");

#[test]
fn packed_and_text_give_the_same_picture() {
    let picture = drawn(&[], FORK_LOG);
    assert_eq!(picture, drawn(&[], FORK_LOG));
    assert_eq!(picture, drawn(&[], FORK_TEXT));
    let title = "Block tree after step 29 of 29, as office 0 sees it";
    assert!(picture.contains(&format!("<title id=\"title\">{title}</title>")));
    let wanted = [
        "Block 0: genesis, notarised, on a longest chain, final; final for 1.",
        "Block 1 on block 0: epoch 1, leader 0, payload 1, signers 0, 1, notarised.",
        "Block 3 on block 2: epoch 3, leader 0, payload 3, signers 0, 2, notarised, \
         on a longest chain, final; final for 2.",
    ];
    for line in wanted {
        assert!(picture.contains(&format!("\n{line}\n")), "{line}");
    }
}

#[test]
fn office_and_step_are_chosen() {
    let by_office = |office: &str| drawn(&["--office", office], FORK_LOG);
    assert_eq!(by_office("0"), drawn(&[], FORK_LOG));
    assert_ne!(by_office("0"), by_office("1"));
    let early = drawn(&["--step", "8", "--office", "1"], FORK_LOG);
    assert_eq!(early, drawn(&["--office", "1", "--step", "8"], FORK_LOG));
    assert!(early.contains("Block tree after step 8 of 29, as office 1 sees it"));
    assert_eq!(early.matches("<g>").count(), 3);
    let opening = drawn(&["--step", "0"], FORK_LOG);
    assert!(opening.contains("Block tree after the opening, as office 0 sees it"));
    assert_eq!(opening.matches("<g>").count(), 1);
    assert_eq!(drawn(&["--step", "29"], FORK_LOG), drawn(&[], FORK_LOG));
}

#[test]
fn the_lowest_trusted_office_is_drawn_if_none_is_chosen() {
    let text = b"offices 4\ntrusted 1 2 3\nleaders 0\n";
    assert!(drawn(&[], text).contains("as office 1 sees it"));
    let message = fault(&["--office", "0"], text);
    assert_eq!(message, "office 0 is untrusted: it has no view to draw");
}

#[test]
fn wrong_choices_get_a_sentence() {
    let message = |arguments: &[&str]| fault(arguments, FORK_LOG);
    let none = "there is no office 3: the log has 3, from 0 up";
    assert_eq!(message(&["--office", "3"]), none);
    assert!(message(&["--office", "256"]).starts_with("there is no office 256"));
    let none = "there is no step 30: the log has 29";
    assert_eq!(message(&["--step", "30"]), none);
    assert_eq!(message(&["--step", "x"]), "--step takes a number, not `x`");
    assert_eq!(
        message(&["--office", "+1"]),
        "--office takes a number, not `+1`"
    );
    assert_eq!(message(&["--office"]), "a number is due behind --office");
    let twice = message(&["--step", "1", "--step", "2"]);
    assert_eq!(twice, "--step is given twice");
    let unknown = "draw takes --office Q and --step K, not `--view`";
    assert_eq!(message(&["--view", "1"]), unknown);
    assert_eq!(choose(&[]), Ok(Choice::default()));
}

/// A log that does not read gives its fault and no picture.
#[test]
fn what_does_not_read_is_not_drawn() {
    assert!(fault(&[], b"").contains("there is no log yet"));
    let damaged = include_bytes!("../../../../examples/sample-logs/damaged.log");
    assert!(fault(&[], damaged).contains("29"));
    let slip = b"offices 3\ntrusted 0 1 2\nleaders 0\npropose 0 0\n";
    assert!(fault(&[], slip).contains("line 4: "));
}

/// What `0-3, 5` stands for is drawn on as many lines as it needs.
#[test]
fn many_offices_are_listed_in_short() {
    let every: Vec<String> = (0..32).map(|office| office.to_string()).collect();
    let text = format!("offices 32\ntrusted {}\nleaders 0\n", every.join(" "));
    let picture = drawn(&["--office", "5"], text.as_bytes());
    assert!(picture.contains(">final for 0-4, 6-31</text>"));
    let even: Vec<String> = (0..32)
        .filter(|q| q % 3 != 1 || *q == 31)
        .map(|q| q.to_string())
        .collect();
    let text = format!("offices 32\ntrusted {}\nleaders 1\n", even.join(" "));
    let log = parse(&text).expect("a text");
    assert_text_fits("32 offices", &layout(&seen_by_default(&log)).boxes[0]);
}
