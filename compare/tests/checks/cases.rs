//! Hand-written cases with their exact reports.

mod counts;
mod empty;
mod full;
mod packing;
mod readings;
mod signers;
mod steps;
mod whole;

use skovarnek_compare::check;
use skovarnek_compare::packed::write_log;
use skovarnek_compare::text::parse;

/// A log and its report.
pub struct Case {
    pub name: String,
    pub log: Vec<u8>,
    pub report: String,
}

/// All cases.
pub fn all() -> Vec<Case> {
    let groups = [
        whole::cases(),
        steps::cases(),
        readings::cases(),
        signers::cases(),
        counts::cases(),
        full::cases(),
        packing::cases(),
        empty::cases(),
    ];
    groups.into_iter().flatten().collect()
}

/// Three offices, all trusted, led by office 0, 1 and 2 in turn.
const THREE: &str = "offices 3; trusted 0 1 2; leaders 0 1 2";
/// Four offices; office 3 is untrusted and leads the first epoch.
const BAD_LEADER: &str = "offices 4; trusted 0 1 2; leaders 3 0 1 2";
/// Four offices; office 3 is untrusted and leads no epoch.
const BAD_OFFICE: &str = "offices 4; trusted 0 1 2; leaders 0 1 2 0";
/// One office, so that its own proposals are notarised.
const ONE: &str = "offices 1; trusted 0; leaders 0 0 0 0 0";

/// 32 offices, all trusted, and these leaders.
fn opening_of_32(leaders: &str) -> String {
    let all: Vec<String> = (0..32).map(|office: usize| office.to_string()).collect();
    let trusted = all.join(" ");
    format!("offices 32; trusted {trusted}; leaders {leaders}")
}

/// A case as the paper writes it: steps parted by semicolons, lines by commas.
fn case(name: &str, opening: &str, steps: &str, lines: &str, offices: &str) -> Case {
    let text = format!("{opening}; {steps}").replace(';', "\n");
    let log = parse(&text).unwrap_or_else(|bad| panic!("{name}: {bad}"));
    let report = match lines {
        "" => offices.to_string(),
        _ => format!("{lines}, {offices}"),
    };
    Case {
        name: name.to_string(),
        log: write_log(&log.opening, &log.steps),
        report: report.replace(", ", "\n") + "\n",
    }
}

/// A case in which no office gets anything final: genesis counts n signers.
fn no_final(name: &str, opening: &str, steps: &str, lines: &str) -> Case {
    let after = |word: &str| {
        let mut parts = opening.split(';');
        let numbers = parts.find_map(|part| part.trim().strip_prefix(word));
        numbers.expect("an opening")
    };
    let n = after("offices ");
    let offices: Vec<String> = after("trusted ")
        .split(' ')
        .map(|office| format!("office {office} 0 0 {n}"))
        .collect();
    case(name, opening, steps, lines, &offices.join(", "))
}

/// Steps, each with its answer.
#[derive(Default)]
struct Script(Vec<(String, String)>);

impl Script {
    /// Adds a step and its answer: 0 or the refusal, the value.
    fn take(&mut self, step: &str, answer: &str) {
        self.0.push((step.to_string(), answer.to_string()));
    }

    /// A message comes to an office.
    fn deliver(&mut self, message: usize, office: usize) {
        let step = format!("deliver {message} {office}");
        self.take(&step, &format!("0 {message}"));
    }

    /// An office registers a vote that it has.
    fn register(&mut self, office: usize, vote: usize) {
        let step = format!("register {office} {vote}");
        self.take(&step, &format!("0 {vote}"));
    }

    /// A vote comes into an office's view.
    fn enter(&mut self, vote: usize, office: usize) {
        self.deliver(vote, office);
        self.register(office, vote);
    }

    /// An office gets a proposal and votes for it; the vote has this number.
    fn vote(&mut self, office: usize, proposal: usize, vote: usize) {
        self.deliver(proposal, office);
        self.take(&format!("vote {office} {proposal}"), &format!("0 {vote}"));
    }

    fn steps(&self) -> String {
        let steps: Vec<&str> = self.0.iter().map(|(step, _)| step.as_str()).collect();
        steps.join("; ")
    }

    fn lines(&self) -> String {
        let answers = (1..).zip(&self.0);
        let lines: Vec<String> = answers
            .map(|(place, (_, answer))| format!("{place} {answer}"))
            .collect();
        lines.join(", ")
    }
}

/// A case given bit by bit; the last byte is filled up with zero bits.
fn bit_case(name: &str, log: &str, report: &str) -> Case {
    Case {
        name: name.to_string(),
        log: bits(log),
        report: report.replace(", ", "\n") + "\n",
    }
}

fn bits(text: &str) -> Vec<u8> {
    let bits: Vec<u8> = text.bytes().filter(|&byte| byte != b' ').collect();
    let byte = |eight: &[u8]| {
        let value = eight.iter().fold(0, |value, bit| value << 1 | (bit - b'0'));
        value << (8 - eight.len())
    };
    bits.chunks(8).map(byte).collect()
}

fn assert_cases(cases: Vec<Case>) {
    let mut wrong = Vec::new();
    for case in cases {
        let report = String::from_utf8(check(&case.log)).expect("a report is text");
        if report != case.report {
            let (name, wanted) = (case.name, case.report);
            wrong.push(format!("{name}\nwanted\n{wanted}found\n{report}"));
        }
    }
    assert!(wrong.is_empty(), "{}", wrong.join("\n"));
}

#[test]
fn the_whole_case() {
    assert_cases(whole::cases());
}

#[test]
fn every_refusal_of_every_step() {
    assert_cases(steps::cases());
}

#[test]
fn readings() {
    assert_cases(readings::cases());
}

#[test]
fn each_of_32_signers_decides() {
    assert_cases(signers::cases());
}

#[test]
fn counts_of_signers() {
    assert_cases(counts::cases());
}

#[test]
fn full_tables() {
    assert_cases(full::cases());
}

#[test]
fn packed_logs() {
    assert_cases(packing::cases());
}

#[test]
fn no_bytes_and_hardly_any() {
    assert_cases(empty::cases());
}
