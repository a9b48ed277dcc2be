//! The whole check: log bytes in, report bytes out.

use crate::packed::{LONGEST_LOG, Log, read_log};
use crate::refusal::Refusal;
use crate::register::{Answer, Mistake, Office, Register};

/// The only line on a log of no bytes: whoever sends it has no log yet.
pub const EMPTY: &str = "empty";

/// A step takes half a byte of a log or more. The proved checker leaves three
/// digits for a refusal and for a count, and five for a value.
const LONGEST_STEP: usize = "131072 255 65535\n".len();
const LONGEST_OFFICE: usize = "office 31 255 255 255\n".len();

/// No report on a log of this many bytes is longer, as the C header's
/// `SKOVARNEK_REPORT_BOUND` says.
pub fn report_bound(log_len: usize) -> usize {
    2 * log_len.min(LONGEST_LOG) * LONGEST_STEP + 32 * LONGEST_OFFICE
}

/// The report on a log.
pub fn check(log: &[u8]) -> Vec<u8> {
    let mut report = Vec::new();
    check_onto(log, &mut report);
    report
}

/// Puts the report on a log behind what is in `report`. A fault anywhere in the
/// log suppresses all lines but `log` and its number. A log of no bytes is not
/// read at all, so that it has no fault.
pub fn check_onto(log: &[u8], report: &mut Vec<u8>) {
    if log.is_empty() {
        return put_line(report, EMPTY.as_bytes(), []);
    }
    match open(log) {
        Ok((log, mut register)) => run(&log, &mut register, report),
        Err(refusal) => put_line(report, b"log ", [refusal.number().into()]),
    }
}

fn open(log: &[u8]) -> Result<(Log, Register), Refusal> {
    let log = read_log(log)?;
    let register = Register::open(&log.opening)?;
    Ok((log, register))
}

/// The report on a log that reads, by a checker that gets one rule wrong.
pub fn check_with(log: &Log, mistake: Option<Mistake>) -> Vec<u8> {
    run_with(log, mistake).0
}

/// The same, and the register after the last step.
pub fn run_with(log: &Log, mistake: Option<Mistake>) -> (Vec<u8>, Register) {
    let opened = Register::open_with(&log.opening, mistake);
    let mut register = opened.expect("a log that reads opens");
    let mut report = Vec::new();
    run(log, &mut register, &mut report);
    (report, register)
}

/// A line per step, then a line per trusted office, ascending.
fn run(log: &Log, register: &mut Register, report: &mut Vec<u8>) {
    for (index, step) in log.steps.iter().enumerate() {
        put_step(report, index + 1, register.step(step));
    }
    for office in register.trusted_offices() {
        put_office(report, register, office);
    }
}

/// Its place from 1, 0 or the refusal, the value.
pub fn put_step(report: &mut Vec<u8>, place: usize, answer: Answer) {
    let (refusal, value) = match answer {
        Ok(value) => (0, value),
        Err(refusal) => (refusal.number(), 0),
    };
    put_line(report, b"", [place, refusal.into(), value.into()]);
}

/// The office's number, its final block, the length of that block's chain and
/// how many have signed the block in the office's view.
pub fn put_office(report: &mut Vec<u8>, register: &Register, office: Office) {
    let last = register.final_block(office);
    let length = register.chain_length(last);
    let signers = register.view(office).notarised(last).signers;
    let numbers = [office.index(), last.index(), length, signers as usize];
    put_line(report, b"office ", numbers);
}

/// How the line starts, then numbers parted by single spaces.
fn put_line<const N: usize>(report: &mut Vec<u8>, start: &[u8], numbers: [usize; N]) {
    report.extend_from_slice(start);
    for (place, number) in numbers.into_iter().enumerate() {
        if place > 0 {
            report.push(b' ');
        }
        put_number(report, number);
    }
    report.push(b'\n');
}

/// A number without leading zeros.
fn put_number(report: &mut Vec<u8>, number: usize) {
    let mut digits = [0; 20];
    let mut first = digits.len();
    let mut rest = number;
    loop {
        first -= 1;
        digits[first] = b'0' + (rest % 10) as u8;
        rest /= 10;
        if rest == 0 {
            break;
        }
    }
    report.extend_from_slice(&digits[first..]);
}
