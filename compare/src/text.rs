//! A log as readable text and back. The opening takes the first three lines,
//! each step one more, written as in the whole case of the paper:
//!
//! ```text
//! offices 3
//! trusted 0 1 2
//! leaders 0 0 0
//! propose 0 0 7
//! deliver 0 1
//! vote 1 0
//! ```
//!
//! The end is the text's end. Empty lines, and what stands behind a `#`, say
//! nothing.

mod given;
mod parse;
mod slips;

pub(crate) use given::given_text;
pub use given::{Form, Given, form, given};
pub use parse::{BadText, parse};

use crate::packed::{Item, Log, Reader};
use crate::refusal::Refusal;
use crate::register::{Kind, Office, Opening, Step};
use std::fmt::Write;

/// What a log of no bytes means.
pub const NO_LOG: &str = "a log of no bytes: there is no log yet";

/// The word and the fields of each kind.
const WORDS: [(&str, &[&str]); 9] = [
    ("end", &[]),
    ("propose", &["office", "parent", "payload"]),
    ("vote", &["office", "message"]),
    ("register", &["office", "message"]),
    ("finalise", &["office", "block"]),
    ("deliver", &["message", "office"]),
    ("bad-send", &["sender", KIND, "signer", "block"]),
    ("draft", &["parent", "epoch", "payload"]),
    ("advance", &[]),
];

/// The one field that is written as a word.
const KIND: &str = "kind";
const PROPOSAL: &str = "proposal";
const VOTE: &str = "vote";

/// The word of a step's kind.
pub fn step_word(kind: u8) -> &'static str {
    WORDS[usize::from(kind)].0
}

pub fn step_text(step: &Step) -> String {
    let (word, names) = WORDS[usize::from(step.kind())];
    let mut text = word.to_string();
    for (&name, field) in names.iter().zip(step.fields()) {
        text.push(' ');
        text.push_str(&field_text(name, field));
    }
    text
}

fn field_text(name: &str, field: u16) -> String {
    match name {
        KIND if field == Kind::Proposal.number() => PROPOSAL.to_string(),
        KIND => VOTE.to_string(),
        _ => field.to_string(),
    }
}

/// The three lines of an opening.
pub fn opening_text(opening: &Opening) -> String {
    let offices = (0..opening.n).map(Office);
    let trusted = offices.filter(|&office| opening.is_trusted(office));
    let mut text = format!("offices {}\n", opening.n);
    put_offices(&mut text, "trusted", trusted);
    put_offices(&mut text, "leaders", opening.schedule.iter().copied());
    text
}

fn put_offices(text: &mut String, word: &str, offices: impl Iterator<Item = Office>) {
    text.push_str(word);
    for office in offices {
        write!(text, " {}", office.0).expect("a string takes all");
    }
    text.push('\n');
}

/// The text of a log that reads.
pub fn log_text(log: &Log) -> String {
    let mut text = opening_text(&log.opening);
    for step in &log.steps {
        text.push_str(&step_text(step));
        text.push('\n');
    }
    text
}

/// Why a log doesn't read, and how far it does.
#[derive(Clone, Copy, Debug, PartialEq, Eq)]
pub struct Fault {
    pub refusal: Refusal,
    /// How many steps read.
    pub steps: usize,
    /// The bit at which the opening, step or end with the fault starts.
    pub bit: usize,
}

impl Fault {
    /// The refusal's word and meaning, and the place of the fault.
    pub fn phrase(&self) -> String {
        let (word, meaning) = (self.refusal.word(), self.refusal.meaning());
        let place = match (self.refusal, self.bit, self.steps) {
            (Refusal::LongLog, ..) => String::new(),
            (_, 0, _) => " (in the opening)".to_string(),
            (_, bit, 1) => format!(" (at bit {bit}, after 1 step)"),
            (_, bit, steps) => format!(" (at bit {bit}, after {steps} steps)"),
        };
        format!("{word}: {meaning}{place}")
    }
}

/// The text of a log as far as it reads, and the fault if it has one. A log of
/// no bytes is cut, as it is for every reader.
pub fn text_so_far(log: &[u8]) -> (String, Option<Fault>) {
    let mut reader = Reader::new(log);
    let mut text = String::new();
    let mut steps = 0;
    let refusal = match reader.opening() {
        Ok(opening) => {
            text.push_str(&opening_text(&opening));
            loop {
                match reader.item() {
                    Ok(Item::Step(step)) => {
                        text.push_str(&step_text(&step));
                        text.push('\n');
                        steps += 1;
                    }
                    Ok(Item::End) => return (text, None),
                    Err(refusal) => break refusal,
                }
            }
        }
        Err(refusal) => refusal,
    };
    let bit = reader.position();
    let fault = Fault {
        refusal,
        steps,
        bit,
    };
    (text, Some(fault))
}
