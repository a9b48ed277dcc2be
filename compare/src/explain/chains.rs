//! What an office's view says of chains.

use super::words::{all_messages, block_name, blocks, listed, of_word};
use crate::register::{Block, Office, Place, Register, View, fewest_signers};

/// A longer chain is named by its newest block alone.
const LISTED_CHAIN: usize = 8;
/// So many blocks that fail are named.
const NAMED_FAULTS: usize = 2;

/// What an office's view says of all blocks at a moment.
pub struct Standing {
    /// By block.
    notarised: Vec<bool>,
    /// By block, the length of its chain if that is notarised.
    lengths: Vec<Option<usize>>,
}

impl Standing {
    pub fn of(register: &Register, office: Office) -> Standing {
        let view = register.view(office);
        let mut standing = Standing {
            notarised: vec![true],
            lengths: vec![Some(0)],
        };
        for block in (1..=register.last_block().0).map(Block) {
            let parent = register.block(block).parent;
            let is_link = view.is_notarised_link(block);
            let below = standing.lengths[parent.index()].filter(|_| is_link);
            standing.notarised.push(view.notarised(block).holds);
            standing.lengths.push(below.map(|length| length + 1));
        }
        standing
    }

    /// A block that has not been made is not notarised.
    pub fn notarised(&self, block: Block) -> bool {
        self.notarised.get(block.index()) == Some(&true)
    }

    pub fn longest_length(&self) -> usize {
        let lengths = self.lengths.iter().flatten();
        lengths.copied().max().expect("genesis has a length")
    }

    /// The newest blocks of all longest chains.
    pub fn longest(&self) -> Vec<Block> {
        let longest = Some(self.longest_length());
        let blocks = (0..self.lengths.len()).filter(|&block| self.lengths[block] == longest);
        blocks.map(|block| Block(block as u8)).collect()
    }
}

/// `chain 1, 2 (2 blocks)`, without its blocks if they are many.
pub fn chain_name(register: &Register, last: Block) -> String {
    let chain = register.chain(last);
    match chain.len() {
        0 => "chain of genesis".to_string(),
        length if length > LISTED_CHAIN => {
            format!("chain of block {} ({})", last.0, blocks(length))
        }
        length => {
            let numbers = listed(chain.iter().map(|block| block.0));
            format!("chain {numbers} ({})", blocks(length))
        }
    }
}

/// Which signers a block lacks, who has signed it in the view, and whose
/// signatures have been sent but are not in the view.
pub fn lack(register: &Register, office: Office, block: Block) -> String {
    lack_in(&register.view(office), register, office, block)
}

fn lack_in(view: &View, register: &Register, office: Office, block: Block) -> String {
    let needed = fewest_signers(register.n());
    let lacks = needed - view.notarised(block).signers;
    let word = view.signers(block);
    let mut text = format!(
        "block {} lacks {lacks} of the {needed} signers needed (signers: {}",
        block.0,
        of_word(word)
    );
    let outside = signed_outside(register, office, block) & !word;
    if outside != 0 {
        let them = of_word(outside);
        text.push_str(&format!("; sent, but not in the view: {them}"));
    }
    text + ")"
}

/// The signers of a block in messages that are not in the office's view.
fn signed_outside(register: &Register, office: Office, block: Block) -> u32 {
    let mut word = 0;
    for message in all_messages(register) {
        let record = register.message(message);
        if record.block == block && register.place(message, office) != Place::View {
            word |= 1 << record.signer.0;
        }
    }
    word
}

/// What keeps a chain from being notarised in an office's view, the newest
/// blocks first; nothing if it is. In a run of the right rules it is always
/// signers: a block that is not of a greater epoch than its parent is never
/// notarised, since no trusted office signs it.
pub fn chain_faults(register: &Register, office: Office, last: Block) -> Option<String> {
    let view = register.view(office);
    let mut failing = register.chain(last);
    failing.retain(|&block| !view.is_notarised_link(block));
    failing.reverse();
    let more = failing.len().saturating_sub(NAMED_FAULTS);
    failing.truncate(NAMED_FAULTS);
    let fault = |&block: &Block| link_fault(&view, register, office, block);
    let mut named: Vec<String> = failing.iter().map(fault).collect();
    match more {
        0 => (),
        1 => named.push("1 more block fails".to_string()),
        _ => named.push(format!("{more} more blocks fail")),
    }
    match named.is_empty() {
        true => None,
        false => Some(named.join("; ")),
    }
}

fn link_fault(view: &View, register: &Register, office: Office, block: Block) -> String {
    if !view.notarised(block).holds {
        return lack_in(view, register, office, block);
    }
    let record = register.block(block);
    format!(
        "block {} is of epoch {}, not above that of {}, {}",
        block.0,
        record.epoch.0,
        block_name(record.parent),
        register.block(record.parent).epoch.0
    )
}
