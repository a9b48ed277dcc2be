//! The report explained: beside each line the step's text and why it was refused
//! in this run, or what it changed and for whom. Epochs are headings, and the
//! comments of a text stand before their steps. Slips are explained too.

mod chains;
mod changed;
mod refused;
mod rows;
mod slips;
mod words;

pub use slips::{explain_slip, why_not_written};

use crate::packed::read_log;
use crate::refusal::Refusal;
use crate::register::{Office, Register, Step};
use crate::report::{EMPTY, put_office, put_step};
use crate::text::{Form, Given, NO_LOG, form, given_text, step_text, text_so_far};
use changed::{Before, changed};
use refused::refused;
use rows::Rows;

/// The report on a packed log or on a text, explained. A text with a slip of the
/// pen has no report: that is the error, with the line's number.
pub fn explain(bytes: &[u8]) -> Result<String, String> {
    match form(bytes) {
        Form::Packed => Ok(explain_packed(bytes)),
        Form::Text => explain_text(bytes),
    }
}

fn explain_text(bytes: &[u8]) -> Result<String, String> {
    const LONG: Refusal = Refusal::LongLog;
    match given_text(bytes) {
        Ok(given) => Ok(explain_run(&given)),
        Err(bad) if bad.refusal == Some(LONG) => {
            let (number, word, meaning) = (LONG.number(), LONG.word(), LONG.meaning());
            let line = bad.line;
            Ok(format!(
                "log {number}    {word}: {meaning} (from line {line} on)\n"
            ))
        }
        Err(bad) => Err(bad.to_string()),
    }
}

fn explain_packed(bytes: &[u8]) -> String {
    if bytes.is_empty() {
        return format!("{EMPTY}    {NO_LOG}\n");
    }
    if let (_, Some(fault)) = text_so_far(bytes) {
        return format!("log {}    {}\n", fault.refusal.number(), fault.phrase());
    }
    let log = read_log(bytes).expect("no fault was found");
    let comments = vec![Vec::new(); log.steps.len() + 1];
    explain_run(&Given { log, comments })
}

/// A log that reads, step by step.
fn explain_run(given: &Given) -> String {
    let log = &given.log;
    let mut register = Register::open(&log.opening).expect("the opening was read");
    let mut rows = Rows::new();
    // What a text says before its first step is mostly about all of it.
    rows.comments(&given.comments[0]);
    rows.heading(&epoch_heading(&register));
    for (index, step) in log.steps.iter().enumerate() {
        if index > 0 {
            rows.comments(&given.comments[index]);
        }
        explain_step(&mut rows, &mut register, index + 1, step);
    }
    if !log.steps.is_empty() {
        rows.comments(&given.comments[log.steps.len()]);
    }
    rows.heading("at the end");
    for office in register.trusted_offices() {
        let mut line = Vec::new();
        put_office(&mut line, &register, office);
        rows.office(&line, &office_note(&register, office));
    }
    rows.into_text()
}

fn explain_step(rows: &mut Rows, register: &mut Register, place: usize, step: &Step) {
    let before = Before::of(register, step);
    let answer = register.step(step);
    let mut line = Vec::new();
    put_step(&mut line, place, answer);
    let notes = match answer {
        Ok(value) => changed(step, value, &before, register),
        Err(refusal) => vec![format!(
            "{}: {}",
            refusal.word(),
            refused(step, refusal, register)
        )],
    };
    rows.step(&line, &step_text(step), &notes);
    if *step == Step::Advance && answer.is_ok() {
        rows.heading(&epoch_heading(register));
    }
}

fn epoch_heading(register: &Register) -> String {
    let (epoch, leader) = (register.epoch().0, register.leader());
    let untrusted = match register.is_trusted(leader) {
        true => "",
        false => ", untrusted",
    };
    format!("epoch {epoch}, led by office {}{untrusted}", leader.0)
}

/// What is final for an office, and how many have signed it in its view.
fn office_note(register: &Register, office: Office) -> String {
    let last = register.final_block(office);
    let blocks = match register.chain_length(last) {
        0 => return "nothing final but genesis".to_string(),
        length => words::blocks(length),
    };
    let signers = register.view(office).notarised(last).signers;
    let (block, n) = (last.0, register.n());
    format!("final block {block}, a chain of {blocks}, signed by {signers} of {n}")
}
