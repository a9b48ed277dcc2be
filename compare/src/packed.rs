//! The packed log. Fields go most significant bit first, without gaps: the
//! opening, the steps, the end, and zero bits to the byte's end.

mod reader;
mod writer;

pub use reader::{Item, Reader};
pub use writer::{BitWriter, opening_bits, step_bits, write_log};

use crate::refusal::Refusal;
use crate::register::{Opening, Step};

/// A log may have this many bytes.
pub const LONGEST_LOG: usize = 65_536;

pub const COUNT_WIDTH: usize = 6;
pub const LENGTH_WIDTH: usize = 9;
pub const KIND_WIDTH: usize = 4;
pub const OFFICE_WIDTH: usize = 5;
pub const BLOCK_WIDTH: usize = 8;
const PAYLOAD_WIDTH: usize = 16;
const MESSAGE_WIDTH: usize = 10;
const MESSAGE_KIND_WIDTH: usize = 1;
const EPOCH_WIDTH: usize = 9;

/// The widths of the fields by kind.
pub const WIDTHS: [&[usize]; 9] = [
    // 0 end
    &[],
    // 1 propose: office, parent, payload
    &[OFFICE_WIDTH, BLOCK_WIDTH, PAYLOAD_WIDTH],
    // 2 vote: office, message
    &[OFFICE_WIDTH, MESSAGE_WIDTH],
    // 3 register: office, message
    &[OFFICE_WIDTH, MESSAGE_WIDTH],
    // 4 finalise: office, block
    &[OFFICE_WIDTH, BLOCK_WIDTH],
    // 5 deliver: message, office
    &[MESSAGE_WIDTH, OFFICE_WIDTH],
    // 6 bad send: sender, kind, signer, block
    &[OFFICE_WIDTH, MESSAGE_KIND_WIDTH, OFFICE_WIDTH, BLOCK_WIDTH],
    // 7 draft: parent, epoch, payload
    &[BLOCK_WIDTH, EPOCH_WIDTH, PAYLOAD_WIDTH],
    // 8 advance
    &[],
];

/// What a log says.
#[derive(Clone, Debug, PartialEq, Eq)]
pub struct Log {
    pub opening: Opening,
    pub steps: Vec<Step>,
}

/// Reads a whole log; the leftmost fault decides.
pub fn read_log(log: &[u8]) -> Result<Log, Refusal> {
    let mut reader = Reader::new(log);
    let opening = reader.opening()?;
    let mut steps = Vec::new();
    loop {
        match reader.item()? {
            Item::Step(step) => steps.push(step),
            Item::End => return Ok(Log { opening, steps }),
        }
    }
}
