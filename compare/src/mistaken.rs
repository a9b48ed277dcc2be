//! A student's wrong checkers beside the right one: the first line in which the
//! reports differ, and why. What each gets wrong is in `register/mistake.rs`.

use crate::packed::Log;
use crate::refusal::TABLE;
use crate::register::{Block, GENESIS, Mistake, Office, Register};
use crate::report::{check_with, run_with};
use crate::text::step_text;
use std::fmt::Write;

/// The mistakes, each with its name, what the student thinks, and why that is
/// wrong.
pub const MISTAKES: [(Mistake, &str, &str, &str); 8] = [
    (
        Mistake::VotesAreFinal,
        "votes-are-final",
        "a block with two thirds of the votes is final",
        "Two thirds of the votes make a block notarised, and two blocks that exclude each \
         other can both be that; final is the middle one of three notarised blocks of \
         consecutive epochs.",
    ),
    (
        Mistake::MessagesForSigners,
        "messages-for-signers",
        "every message about a block counts, so 18 is not needed",
        "Two thirds of the offices must have signed, and an office that sends two messages \
         about a block has signed it once; 18 keeps its second message out of the view.",
    ),
    (
        Mistake::HistoryForView,
        "history-for-view",
        "all messages sent count for every office",
        "An office knows only what it has taken into its view; a message that is in transit \
         or in the inbox does not count for it yet.",
    ),
    (
        Mistake::MoreThanTwoThirds,
        "more-than-two-thirds",
        "a block needs more than two thirds of the offices",
        "Just two thirds are enough: 3 times the signers is at least 2 times n.",
    ),
    (
        Mistake::SkipTwenty,
        "skip-20",
        "a block may be of its parent's epoch, so 20 is not needed",
        "Each block of a valid chain has a greater epoch than its parent; a block of its \
         parent's epoch is on no valid chain, and an office that votes for it has thrown its \
         vote away.",
    ),
    (
        Mistake::BlockItself,
        "block-itself",
        "finalise makes the named block final",
        "Of three blocks of consecutive epochs the middle one becomes final, the named \
         block's parent; beside the newest one another block can still be notarised.",
    ),
    (
        Mistake::ReplayForged,
        "replay-forged",
        "an untrusted office that sends a trusted one's message has forged it",
        "A message that its signer did send is genuine, whoever sends it again; forged is \
         only what the signer never sent.",
    ),
    (
        Mistake::LateFinaliser,
        "late-finaliser",
        "three notarised blocks in a row will do, also where the newest comes epochs late",
        "The three must be of consecutive epochs; with a gap between them another chain as \
         long can be notarised, and whoever finalises late may end there.",
    ),
];

/// The mistake of a name.
pub fn named(name: &str) -> Option<Mistake> {
    let row = MISTAKES.iter().find(|row| row.1 == name)?;
    Some(row.0)
}

/// The names, parted by spaces.
pub fn names() -> String {
    MISTAKES.map(|row| row.1).join(" ")
}

/// The first line in which two reports differ.
#[derive(Clone, Debug, PartialEq, Eq)]
pub struct Difference {
    /// The line's place in the reports, from 0.
    pub index: usize,
    pub right: String,
    pub wrong: String,
}

/// Where a wrong checker's report first differs from the right one. Both have
/// as many lines.
pub fn difference(log: &Log, mistake: Mistake) -> Option<Difference> {
    first_difference(&check_with(log, None), &check_with(log, Some(mistake)))
}

fn first_difference(right: &[u8], wrong: &[u8]) -> Option<Difference> {
    let lines = |report: &[u8]| String::from_utf8_lossy(report).into_owned();
    let (right, wrong) = (lines(right), lines(wrong));
    let mut pairs = right.lines().zip(wrong.lines()).enumerate();
    let (index, (right, wrong)) = pairs.find(|(_, (right, wrong))| right != wrong)?;
    Some(Difference {
        index,
        right: right.to_string(),
        wrong: wrong.to_string(),
    })
}

/// Two trusted offices of whose final blocks neither is on the other's chain.
pub fn parted(register: &Register) -> Option<(Office, Office)> {
    let offices: Vec<Office> = register.trusted_offices().collect();
    for (place, &one) in offices.iter().enumerate() {
        for &other in &offices[place + 1..] {
            let (b, c) = (register.final_block(one), register.final_block(other));
            if !is_on_chain(register, b, c) && !is_on_chain(register, c, b) {
                return Some((one, other));
            }
        }
    }
    None
}

/// Whether a block is on the chain of another.
fn is_on_chain(register: &Register, block: Block, last: Block) -> bool {
    let mut at = last;
    while at != block && at != GENESIS {
        at = register.block(at).parent;
    }
    at == block
}

/// One wrong checker beside the right one, in words.
pub fn compare(log: &Log, mistake: Mistake) -> String {
    let row = MISTAKES.iter().find(|row| row.0 == mistake);
    let &(_, name, thought, reason) = row.expect("each mistake has its row");
    let mut text = format!("{name}: the student thinks that {thought}.\n");
    let (wrong, register) = run_with(log, Some(mistake));
    match first_difference(&check_with(log, None), &wrong) {
        None => text.push_str("No difference: both checkers give the same report of this log.\n"),
        Some(difference) => {
            put_difference(&mut text, log, &difference);
            text += &format!("{reason}\n");
        }
    }
    if let Some((one, other)) = parted(&register) {
        text += &parted_words(&register, one, other);
    }
    text
}

/// Where the reports differ, and both lines with the words of their refusals.
fn put_difference(text: &mut String, log: &Log, difference: &Difference) {
    match log.steps.get(difference.index) {
        Some(step) => *text += &format!("Step {}: {}\n", difference.index + 1, step_text(step)),
        None => text.push_str("All steps get the same answers; the offices' lines differ.\n"),
    }
    let is_step = difference.index < log.steps.len();
    for (who, line) in [("right", &difference.right), ("wrong", &difference.wrong)] {
        let words = if is_step {
            answer_words(line)
        } else {
            String::new()
        };
        let row = format!("  {who}: {line:<12} {words}");
        *text += &format!("{}\n", row.trim_end());
    }
}

/// What a step's line says: accepted, or the refusal's word and meaning.
fn answer_words(line: &str) -> String {
    let number = line.split(' ').nth(1);
    match number.and_then(|number| number.parse::<usize>().ok()) {
        None | Some(0) => "accepted".to_string(),
        Some(number) => {
            let (word, meaning) = TABLE[number - 1];
            format!("{word}: {meaning}")
        }
    }
}

fn parted_words(register: &Register, one: Office, other: Office) -> String {
    let block = |office| register.final_block(office).0;
    format!(
        "With the wrong checker final chains part: office {} holds block {} and office {} \
         holds block {}, neither on the other's chain.\n",
        one.0,
        block(one),
        other.0,
        block(other)
    )
}

/// All wrong checkers, a line for each.
pub fn compare_all(log: &Log) -> String {
    let mut text = format!("{:<22} {:<15} | wrong\n", "mistake", "right");
    for (mistake, name, ..) in MISTAKES {
        let end = match difference(log, mistake) {
            Some(Difference { right, wrong, .. }) => format!("{right:<15} | {wrong}"),
            None => "no difference".to_string(),
        };
        writeln!(text, "{name:<22} {end}").expect("a string takes all");
    }
    text
}
