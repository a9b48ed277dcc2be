//! The rules: offices, blocks, views, the opening and the eight steps. The
//! register is changed in place.

mod mistake;
mod numbers;
mod opening;
mod step;
mod steps;
mod view;

#[cfg(test)]
mod any_fit;
#[cfg(test)]
mod by_hand;

pub use mistake::Mistake;
pub use numbers::{Block, Epoch, GENESIS, Message, Office};
pub use opening::{Opening, check_count, check_leader, check_length, check_third};
pub use step::{MOST_FIELDS, STEP_KINDS, Step};
pub use steps::Answer;
pub use view::{Notarised, Signers, View, fewest_signers, is_quorum};

pub const MOST_OFFICES: u8 = 32;
pub const LONGEST_SCHEDULE: usize = 256;
pub const LAST_BLOCK: u8 = 255;
pub const LAST_EPOCH: Epoch = Epoch(511);
pub const MOST_MESSAGES: usize = 1024;

/// The kind of a message.
#[derive(Clone, Copy, Debug, PartialEq, Eq)]
pub enum Kind {
    Proposal,
    Vote,
}

/// What a block holds.
#[derive(Clone, Copy, Debug, PartialEq, Eq)]
pub struct BlockRecord {
    /// A smaller block number (genesis, which has none, stores itself).
    pub parent: Block,
    pub epoch: Epoch,
    pub payload: u16,
}

/// What a message holds.
#[derive(Clone, Copy, Debug, PartialEq, Eq)]
pub struct MessageRecord {
    pub kind: Kind,
    pub signer: Office,
    pub block: Block,
}

/// Where a message is for an office.
#[derive(Clone, Copy, Debug, PartialEq, Eq)]
pub enum Place {
    Absent,
    InTransit,
    Inbox,
    View,
}

/// Whether an office has proposed or voted in this epoch.
#[derive(Clone, Copy, Debug, PartialEq, Eq)]
pub enum Mark {
    Ready,
    Acted,
}

/// What an office has of its own. Untrusted offices keep nothing: every
/// message stays absent for them.
#[derive(Clone, Debug, PartialEq, Eq)]
struct LocalState {
    mark: Mark,
    final_block: Block,
    /// By message.
    places: Vec<Place>,
}

/// The register of all offices.
#[derive(Clone, Debug, PartialEq, Eq)]
pub struct Register {
    /// By office, n entries.
    trusted: Vec<bool>,
    schedule: Vec<Office>,
    epoch: Epoch,
    /// By block, genesis first.
    blocks: Vec<BlockRecord>,
    /// All sent messages, by number.
    history: Vec<MessageRecord>,
    /// By office, n entries.
    local: Vec<LocalState>,
    /// The one rule that is got wrong, to show what comes of it; none if the
    /// checker is right.
    mistake: Option<Mistake>,
}

impl Register {
    pub fn n(&self) -> u8 {
        self.trusted.len() as u8
    }

    pub fn is_trusted(&self, office: Office) -> bool {
        self.trusted[office.index()]
    }

    /// The trusted offices, ascending.
    pub fn trusted_offices(&self) -> impl Iterator<Item = Office> {
        let offices = (0..self.n()).map(Office);
        offices.filter(|&office| self.is_trusted(office))
    }

    pub fn epoch(&self) -> Epoch {
        self.epoch
    }

    /// The last epoch of the schedule.
    pub fn last_epoch(&self) -> Epoch {
        Epoch(self.schedule.len() as u16)
    }

    /// The leader of the current epoch; epochs start at 1.
    pub fn leader(&self) -> Office {
        self.schedule[usize::from(self.epoch.0) - 1]
    }

    pub fn last_block(&self) -> Block {
        Block((self.blocks.len() - 1) as u8)
    }

    pub fn block(&self, block: Block) -> &BlockRecord {
        &self.blocks[block.index()]
    }

    /// The number of messages sent.
    pub fn sent(&self) -> usize {
        self.history.len()
    }

    pub fn message(&self, message: Message) -> &MessageRecord {
        &self.history[message.index()]
    }

    pub fn place(&self, message: Message, office: Office) -> Place {
        self.local[office.index()].places[message.index()]
    }

    pub fn mark(&self, office: Office) -> Mark {
        self.local[office.index()].mark
    }

    pub fn final_block(&self, office: Office) -> Block {
        self.local[office.index()].final_block
    }

    /// The chain of a block, genesis not among it, the oldest block first.
    pub fn chain(&self, last: Block) -> Vec<Block> {
        let mut chain = Vec::new();
        let mut block = last;
        while block != GENESIS {
            chain.push(block);
            block = self.block(block).parent;
        }
        chain.reverse();
        chain
    }

    /// The chain of a block runs from genesis to it; its length counts the
    /// blocks without genesis.
    pub fn chain_length(&self, last: Block) -> usize {
        let mut length = 0;
        let mut block = last;
        while block != GENESIS {
            length += 1;
            block = self.block(block).parent;
        }
        length
    }
}
