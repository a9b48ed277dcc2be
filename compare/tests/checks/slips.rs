//! Slips: hand-written cases, what the generated slips bring, what is written is
//! accepted, accepted slips and final chains agree, and (feature `proved`) the
//! proved calls beside this package.

mod agreement;
pub mod cases;
mod coverage;
#[cfg(feature = "proved")]
mod proved;
mod written;

use skovarnek_compare::packed::read_log;
use skovarnek_compare::refusal::Refusal;
use skovarnek_compare::register::{Block, Office, Register};
use skovarnek_compare::report::run_with;
use skovarnek_compare::slip;

/// What a call gives: 0 or the refusal, and the answer.
pub type Answer = (u8, usize);

/// The register that a log leads to, or why it doesn't read.
pub fn register_after(log: &[u8]) -> Result<Register, Refusal> {
    read_log(log).map(|log| run_with(&log, None).1)
}

fn answer(result: Result<usize, Refusal>) -> Answer {
    match result {
        Ok(value) => (0, value),
        Err(refusal) => (refusal.number(), 0),
    }
}

/// What this package says of a slip, by the register after a log.
pub fn check(register: &Result<Register, Refusal>, bytes: &[u8]) -> Answer {
    let checked = match register {
        Ok(register) => slip::check(register, bytes),
        Err(refusal) => Err(*refusal),
    };
    answer(checked.map(Block::index))
}

/// What it writes into a buffer.
pub fn write(
    register: &Result<Register, Refusal>,
    office: u8,
    block: u8,
    buffer: &mut [u8],
) -> Answer {
    answer(match register {
        Ok(register) => slip::write_into(register, Office(office), Block(block), buffer),
        Err(refusal) => Err(*refusal),
    })
}
