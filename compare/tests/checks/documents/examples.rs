//! The examples of both documents, run.

use super::numbers::NUMBERS;
use super::{FORMAT, RULES, from_hex, number, quoted, report, slip_answer, table, text_of};
use skovarnek_compare::packed::{LONGEST_LOG, write_log};
use skovarnek_compare::refusal::{Refusal, TABLE};
use skovarnek_compare::register::{Epoch, GENESIS, Office, Opening, Register};
use skovarnek_compare::text::parse;

/// The numbers whose examples are in words: 5, 9 and 31 come from no log, and the
/// logs of the others are long.
const IN_WORDS: [usize; 6] = [5, 9, 25, 26, 30, 31];

/// The number of a report of one line, `log` and a number.
fn log_number(report: &str) -> Option<usize> {
    let number = report.strip_prefix("log ")?.strip_suffix('\n')?;
    number.parse().ok()
}

/// The refusals of the steps, 0 for those accepted.
fn step_numbers(report: &str) -> Vec<usize> {
    let lines = report.lines().filter(|line| !line.starts_with("office "));
    let refusal = |line: &str| number(line.split(' ').nth(1).expect("a line of a step"));
    lines.map(refusal).collect()
}

/// The last step of a text gets this number, and the steps before it are
/// accepted. Where the reader of texts refuses the opening, it is with this
/// number; there is then no log. Says whether there is one.
fn text_shows(wanted: usize, text: &str) -> bool {
    let log = match parse(&text.replace(';', "\n")) {
        Ok(log) => log,
        Err(bad) => {
            let start = format!("refusal {wanted}, {}: ", TABLE[wanted - 1].0);
            assert!(bad.message.starts_with(&start), "{wanted}: {text}: {bad}");
            return false;
        }
    };
    let report = report(&write_log(&log.opening, &log.steps));
    let mut steps = vec![0; log.steps.len()];
    *steps.last_mut().expect("a step") = wanted;
    assert_eq!(step_numbers(&report), steps, "{wanted}: {text}");
    true
}

/// A slip gets this number at the end of a text, all of whose steps are accepted.
fn slip_shows(wanted: usize, text: &str, hex: &str) {
    let log = parse(&text.replace(';', "\n")).expect("a good text");
    let bytes = write_log(&log.opening, &log.steps);
    let accepted = vec![0; log.steps.len()];
    assert_eq!(step_numbers(&report(&bytes)), accepted, "{text}");
    let answer = slip_answer(&bytes, &from_hex(hex));
    assert_eq!(answer, (wanted, 0), "{text}; slip: {hex}");
}

/// The same of an example in text, in bytes, whose log gets the number, or with a
/// slip.
fn shows(wanted: usize, example: &str) -> bool {
    if let Some((text, hex)) = example.split_once("; slip:") {
        slip_shows(wanted, text, hex);
        return true;
    }
    let Some(hex) = example.strip_prefix("hex: ") else {
        return text_shows(wanted, example);
    };
    let report = report(&from_hex(hex));
    assert_eq!(
        log_number(&report),
        Some(wanted),
        "{wanted}: {hex}: {report}"
    );
    true
}

/// Each number has an example that is a log, but for those in words.
#[test]
fn every_number() {
    let mut in_words = Vec::new();
    for row in table(RULES, &NUMBERS) {
        let wanted = number(&row[0]);
        let examples = quoted(&row[3]);
        let logs = examples
            .iter()
            .filter(|example| shows(wanted, example))
            .count();
        match (examples.len(), logs) {
            (0, _) => in_words.push(wanted),
            (_, 0) => panic!("{wanted}: no example is a log"),
            _ => (),
        }
    }
    assert_eq!(in_words, IN_WORDS);
}

#[test]
fn blocks_full() {
    let drafts: String = (0..=255)
        .map(|payload| format!("; draft 0 1 {payload}"))
        .collect();
    assert!(text_shows(
        25,
        &format!("offices 1; trusted 0; leaders 0{drafts}")
    ));
}

#[test]
fn messages_full() {
    let sends = "; bad-send 3 vote 3 1".repeat(1025);
    let opening = "offices 4; trusted 0 1 2; leaders 0; draft 0 1 5";
    assert!(text_shows(26, &format!("{opening}{sends}")));
}

#[test]
fn long_log() {
    for byte in [0x00, 0x06, 0xFF] {
        assert_eq!(log_number(&report(&[byte; LONGEST_LOG + 1])), Some(30));
        assert_ne!(log_number(&report(&[byte; LONGEST_LOG])), Some(30));
    }
}

/// 9 through the step call, which no log can bring.
#[test]
fn wide_draft() {
    let (n, trust, schedule) = (1, 1, vec![Office(0)]);
    let opening = Opening { n, trust, schedule };
    let mut register = Register::open(&opening).expect("a good opening");
    let wide = register.draft(GENESIS, Epoch(512), 0);
    assert_eq!(wide, Err(Refusal::Wide));
}

/// The faults of a log. Each example is refused as its row says.
#[test]
fn faults() {
    let mut in_words = Vec::new();
    for row in table(FORMAT, &["place", "number", "when", "example"]) {
        let wanted = number(&row[1]);
        let examples = quoted(&row[3]);
        if examples.is_empty() {
            in_words.push(wanted);
        }
        for example in examples {
            assert!(example.starts_with("hex: "), "{row:?}");
            assert!(shows(wanted, example));
        }
    }
    assert_eq!(in_words, [30]);
}

/// Each line of a report stands in that of its sample log.
#[test]
fn lines_of_reports() {
    let columns = ["line", "what it says", "example", "from the sample log"];
    let rows = table(RULES, &columns);
    assert_eq!(rows.len(), 5);
    for row in rows {
        let sample = text_of(&format!("examples/sample-logs/{}.report", row[3]));
        let examples = quoted(&row[2]);
        let [example] = examples[..] else {
            panic!("{row:?}");
        };
        assert!(sample.lines().any(|line| line == example), "{row:?}");
    }
}
