//! The text form: there and back, and what is said of bad text.

use super::{cases, seeds};
use skovarnek_compare::explain::explain;
use skovarnek_compare::generate;
use skovarnek_compare::packed::{read_log, write_log};
use skovarnek_compare::refusal::Refusal;
use skovarnek_compare::text::{log_text, parse, text_so_far};

fn assert_round_trip(name: &str, bytes: &[u8]) {
    let Ok(log) = read_log(bytes) else {
        return;
    };
    let text = log_text(&log);
    assert_eq!(text_so_far(bytes), (text.clone(), None), "{name}");
    let back = parse(&text).unwrap_or_else(|bad| panic!("{name}: {bad}"));
    assert_eq!(back, log, "{name}");
    assert_eq!(write_log(&back.opening, &back.steps), bytes, "{name}");
}

#[test]
fn every_log_that_reads_goes_there_and_back() {
    for case in cases::all() {
        assert_round_trip(&case.name, &case.log);
    }
    for seed in seeds().take(1000) {
        assert_round_trip(&format!("seed {seed}"), &generate::log(seed));
    }
}

#[test]
fn words_of_a_text() {
    let text = "offices 4\ntrusted 0 1 2\nleaders 3 0\ndraft 0 1 5\nbad-send 3 proposal 3 1\n\
                bad-send 3 vote 3 1\ndeliver 0 1\nvote 1 0\nregister 1 1\nfinalise 1 1\n\
                advance\npropose 0 0 65535\n";
    let log = parse(text).expect("a good text");
    assert_eq!(log.steps.len(), 9);
    assert_eq!(log_text(&log), text);
}

#[test]
fn comments_and_blanks_say_nothing() {
    let plain = "offices 1\ntrusted 0\nleaders 0\nadvance\n";
    let loose = "# a log\n\n offices   1\ntrusted 0 # all\nleaders 0\r\n\n\tadvance#\n";
    assert_eq!(parse(loose), parse(plain));
}

/// Texts with a bad opening.
const BAD_OPENINGS: &[(&str, &str)] = &[
    ("", "line 1: the text ends where `offices` is due"),
    (
        "offices 4\n",
        "line 2: the text ends where `trusted` is due",
    ),
    (
        "vote 1 2\n",
        "line 1: `offices` is due here, not `vote`: a text starts with offices, trusted, leaders",
    ),
    (
        "ofices 3\n",
        "line 1: `offices` is due here, not `ofices`: a text starts with offices, trusted, leaders",
    ),
    (
        "offices 3\nleaders 0\ntrusted 0 1 2\n",
        "line 2: `trusted` is due here, not `leaders`: a text starts with offices, trusted, leaders",
    ),
    (
        "offices 1\ntrusted 0\npropose 0 0 7\n",
        "line 3: `leaders` is due here, not `propose`: a text starts with offices, trusted, leaders",
    ),
    (
        "offices\n",
        "line 1: offices takes one number, 1 to 32, not 0",
    ),
    (
        "offices 3 4\n",
        "line 1: offices takes one number, 1 to 32, not 2",
    ),
    (
        "offices three\n",
        "line 1: offices `three` isn't a number from 1 to 32",
    ),
    (
        "offices 64\n",
        "line 1: refusal 1, count: 64 offices, but there can be 1 to 32",
    ),
    (
        "offices 33\n",
        "line 1: refusal 1, count: 33 offices, but there can be 1 to 32",
    ),
    (
        "offices 99999999999999999999\n",
        "line 1: refusal 1, count: 99999999999999999999 offices, but there can be 1 to 32",
    ),
    (
        "\noffices 3\ntrusted 0 3\n",
        "line 3: office 3, but there are 3 offices: 0 to 2",
    ),
    (
        "offices 3\ntrusted 0 1 2 40\n",
        "line 2: office 40, but there are 3 offices: 0 to 2",
    ),
    (
        "offices 3\ntrusted 0, 1, 2\n",
        "line 2: office `0,` isn't a number from 0 to 2; numbers are parted by spaces",
    ),
    (
        "offices 1\ntrusted all\n",
        "line 2: office `all` isn't a number from 0 to 0",
    ),
    (
        "offices 3\ntrusted 0 0\n",
        "line 2: office 0 stands here twice",
    ),
    (
        "offices 3\ntrusted 0 1\n",
        "line 2: refusal 4, third: 1 of 3 offices are not trusted here; at most 0 may be so",
    ),
    (
        "offices 1\ntrusted 0\nleaders\n",
        "line 3: refusal 2, schedule: 0 leaders, but there can be 1 to 256, one for each epoch",
    ),
    (
        "offices 1\ntrusted 0\nleaders 0 1\n",
        "line 3: refusal 3, stray leader: office 1, but there is 1 office: 0",
    ),
    (
        "offices 3\ntrusted 0 1 2\nleaders 0 50\n",
        "line 3: refusal 3, stray leader: office 50, but there are 3 offices: 0 to 2",
    ),
];

/// Bad steps behind an opening of three lines.
const BAD_STEPS: &[(&str, &str)] = &[
    (
        "end",
        "line 4: no step `end`; the steps are propose, vote, register, finalise, deliver, bad-send, \
         draft, advance",
    ),
    (
        "bad send 3 vote 3 1",
        "line 4: no step `bad`; did you mean `bad-send`?",
    ),
    (
        "porpose 0 0 7",
        "line 4: no step `porpose`; did you mean `propose`?",
    ),
    (
        "finalize 0 1",
        "line 4: no step `finalize`; did you mean `finalise`?",
    ),
    ("Vote 0 1", "line 4: no step `Vote`; did you mean `vote`?"),
    (
        "\n# why\nproposal 0 0 7",
        "line 6: no step `proposal`; did you mean `propose`?",
    ),
    (
        "trusted 3",
        "line 4: `trusted` stands in the opening, once, and no step has this word",
    ),
    (
        "advance\nvote 1",
        "line 5: vote needs a message after office 1",
    ),
    (
        "deliver 3",
        "line 4: deliver needs an office after message 3",
    ),
    ("deliver", "line 4: deliver needs a message and an office"),
    (
        "propose 0",
        "line 4: propose needs a parent and a payload after office 0",
    ),
    (
        "draft 0",
        "line 4: draft needs an epoch and a payload after parent 0",
    ),
    (
        "bad-send 3 vote 3",
        "line 4: bad-send needs a block after signer 3",
    ),
    (
        "bad-send 3 3 1",
        "line 4: kind `3` is neither proposal nor vote",
    ),
    (
        "bad-send 3 propsal 3 1",
        "line 4: no kind `propsal`; did you mean `proposal`?",
    ),
    (
        "advance 1",
        "line 4: advance takes no number, so `1` is too much",
    ),
    (
        "deliver 0 1 2 3",
        "line 4: deliver takes a message and an office, so `2 3` is too much",
    ),
    (
        "vote 32 0",
        "line 4: office `32` isn't a number from 0 to 31",
    ),
    (
        "vote 0 1024",
        "line 4: message `1024` isn't a number from 0 to 1023",
    ),
    (
        "draft 256 0 0",
        "line 4: parent `256` isn't a number from 0 to 255",
    ),
    (
        "draft 0 512 0",
        "line 4: epoch `512` isn't a number from 0 to 511",
    ),
    (
        "draft 0 0 65536",
        "line 4: payload `65536` isn't a number from 0 to 65535",
    ),
    (
        "vote +1 0",
        "line 4: office `+1` isn't a number from 0 to 31",
    ),
    (
        "vote one 0",
        "line 4: office `one` isn't a number from 0 to 31",
    ),
    (
        "bad-send 3 1 3 1",
        "line 4: kind `1` is neither proposal nor vote",
    ),
];

#[test]
fn bad_texts() {
    for (text, message) in BAD_OPENINGS {
        assert_eq!(parse(text).expect_err(text).to_string(), *message);
    }
    for (step, message) in BAD_STEPS {
        let text = format!("offices 4\ntrusted 0 1 2\nleaders 0\n{step}\n");
        assert_eq!(parse(&text).expect_err(step).to_string(), *message);
    }
}

#[test]
fn a_text_of_too_many_steps() {
    let start = "offices 1\ntrusted 0\nleaders 0\n".to_string();
    let most = start + &"advance\n".repeat(131_065);
    let log = parse(&most).expect("65,536 bytes");
    assert_eq!(write_log(&log.opening, &log.steps).len(), 65_536);
    let bad = parse(&(most + "advance\n")).expect_err("65,537 bytes");
    assert_eq!(
        bad.to_string(),
        "line 131069: refusal 30, long log: the log gets longer than 65,536 bytes"
    );
}

/// A line of the explained report that starts with one of the report.
fn is_reported(line: &&str) -> bool {
    line.starts_with(|first: char| first.is_ascii_digit())
        || ["office ", "log ", "empty"]
            .iter()
            .any(|start| line.starts_with(start))
}

/// The explained report has the report's lines in their order, each with its
/// note behind it.
#[test]
fn explained_reports_hold_the_report() {
    let small = cases::all()
        .into_iter()
        .filter(|case| case.report.len() < 100_000);
    for case in small {
        let explained = explain(&case.log).expect("a packed log");
        let lines: Vec<&str> = explained.lines().filter(is_reported).collect();
        assert_eq!(lines.len(), case.report.lines().count(), "{}", case.name);
        for (long, short) in lines.iter().zip(case.report.lines()) {
            assert!(
                long.starts_with(&format!("{short} ")),
                "{}: {long}",
                case.name
            );
        }
    }
}

#[test]
fn faults_in_a_phrase() {
    let long = vec![0; 65_537];
    let cases: [(&[u8], &str); 5] = [
        (
            // n 3 and two trust bits.
            &[0x0F],
            "log 27 cut: log ends before or inside a field that is due (in the opening)",
        ),
        (&[0], "log 1 count: n not 1 to 32 (in the opening)"),
        (
            // n 1, untrusted, leader 0.
            &[0x04, 0x01, 0x00],
            "log 4 third: a third or more of the offices are untrusted (in the opening)",
        ),
        (
            // n 1, leader 0, two advances and kind 15.
            &[0x06, 0x01, 0x04, 0x47, 0x80],
            "log 28 no such step: kind 9 to 15 (at bit 29, after 2 steps)",
        ),
        (&long, "log 30 long log: over 65,536 bytes"),
    ];
    for (log, phrase) in cases {
        let explained = explain(log).expect("a packed log");
        let words: Vec<&str> = explained.split_whitespace().collect();
        assert_eq!(words.join(" "), phrase);
    }
}

/// A log of no bytes is not called damaged, though the readers find it cut.
#[test]
fn no_bytes_in_a_phrase() {
    let wanted = "empty    a log of no bytes: there is no log yet\n";
    assert_eq!(explain(&[]).as_deref(), Ok(wanted));
    let (text, fault) = text_so_far(&[]);
    assert_eq!(text, "");
    assert_eq!(fault.map(|fault| fault.refusal), Some(Refusal::Cut));
}
