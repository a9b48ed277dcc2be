//! Words for blocks, offices, messages and signers.

use crate::register::{Block, GENESIS, Kind, Message, Office, Place, Register};
use std::fmt::Display;

/// So many blocks of a list are named.
const MOST_LISTED: usize = 8;

pub fn block_name(block: Block) -> String {
    match block {
        GENESIS => "genesis".to_string(),
        Block(number) => format!("block {number}"),
    }
}

/// So many blocks.
pub fn blocks(count: usize) -> String {
    match count {
        1 => "1 block".to_string(),
        _ => format!("{count} blocks"),
    }
}

/// Numbers with commas between them.
pub fn listed(numbers: impl Iterator<Item = impl Display>) -> String {
    let numbers: Vec<String> = numbers.map(|number| number.to_string()).collect();
    match numbers.is_empty() {
        true => "none".to_string(),
        false => numbers.join(", "),
    }
}

/// `block 1`, or `blocks 1, 2`; of many only the first.
pub fn block_list(blocks: &[Block]) -> String {
    let (first, more) = blocks.split_at(blocks.len().min(MOST_LISTED));
    let numbers = listed(first.iter().map(|block| block.0));
    match (blocks.len(), more.len()) {
        (1, _) => format!("block {numbers}"),
        (_, 0) => format!("blocks {numbers}"),
        (_, more) => format!("blocks {numbers} and {more} more"),
    }
}

/// `office 1`, or `offices 1, 2`.
pub fn offices(offices: &[Office]) -> String {
    let numbers = listed(offices.iter().map(|office| office.0));
    match offices {
        [] => "no office".to_string(),
        [_] => format!("office {numbers}"),
        _ => format!("offices {numbers}"),
    }
}

/// The offices whose bits are set.
pub fn of_word(word: u32) -> String {
    listed((0..u32::BITS).filter(|office| word >> office & 1 == 1))
}

pub fn kind_name(kind: Kind) -> &'static str {
    match kind {
        Kind::Proposal => "a proposal",
        Kind::Vote => "a vote",
    }
}

/// What a message says.
pub fn said(register: &Register, message: Message) -> String {
    let record = register.message(message);
    let (kind, signer) = (kind_name(record.kind), record.signer.0);
    format!("{kind} of office {signer} for block {}", record.block.0)
}

/// The offices to which a message is on its way.
pub fn in_transit_to(register: &Register, message: Message) -> String {
    let trusted = register.trusted_offices();
    let to: Vec<Office> = trusted
        .filter(|&office| register.place(message, office) == Place::InTransit)
        .collect();
    match to.is_empty() {
        true => "in transit to nobody".to_string(),
        false => format!("in transit to {}", offices(&to)),
    }
}

pub fn all_messages(register: &Register) -> impl Iterator<Item = Message> {
    (0..register.sent() as u16).map(Message)
}
