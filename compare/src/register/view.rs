//! Views: signatures, notarised blocks and chains, the longest of them.

use super::{Block, Epoch, GENESIS, LAST_BLOCK, Office, Place, Register};

/// What an office's view says of each block: who has signed it.
pub struct View<'a> {
    register: &'a Register,
    /// Those whose signatures are in the view.
    signers: Signers,
}

/// By block, a bit for each office that has signed it.
pub type Signers = [u32; LAST_BLOCK as usize + 1];

/// What the notarised test gives back.
#[derive(Clone, Copy, Debug, PartialEq, Eq)]
pub struct Notarised {
    pub holds: bool,
    /// How many different offices have signed, also if they are too few.
    pub signers: u32,
}

/// 3 × (number of different signers) ≥ 2 × n.
pub fn is_quorum(signers: u32, n: u8) -> bool {
    3 * signers >= 2 * u32::from(n)
}

/// The fewest signers that are a quorum.
pub fn fewest_signers(n: u8) -> u32 {
    let enough = (0..=u32::from(n)).find(|&signers| is_quorum(signers, n));
    enough.expect("all offices are a quorum")
}

impl Register {
    /// The view of an office below n, by one pass over the messages.
    pub fn view(&self, office: Office) -> View<'_> {
        let mut signers = [0; LAST_BLOCK as usize + 1];
        let places = &self.local[office.index()].places;
        for (message, &place) in self.history.iter().zip(places) {
            if place == Place::View {
                signers[message.block.index()] |= 1 << message.signer.0;
            }
        }
        self.miscount(office, &mut signers);
        View {
            register: self,
            signers,
        }
    }

    /// Who has signed which block in the history: in a message of either kind,
    /// wherever it is.
    pub fn signed(&self) -> Signers {
        let mut signers = [0; LAST_BLOCK as usize + 1];
        for message in &self.history {
            signers[message.block.index()] |= 1 << message.signer.0;
        }
        signers
    }

    /// A block from 1 up that can stand in a valid chain: of a greater epoch than
    /// its parent.
    pub fn is_valid_link(&self, block: Block) -> bool {
        let record = self.block(block);
        record.epoch > self.block(record.parent).epoch
    }

    /// Whether b, its parent c and c's parent d, which may be genesis, are of
    /// epochs k+2, k+1, k. The epochs alone keep genesis from being b or c: its
    /// epoch is 0, which is no k+1 and no k+2.
    pub fn ends_three_in_a_row(&self, b: Block) -> bool {
        let c = self.block(b).parent;
        let d = self.block(c).parent;
        let Epoch(k) = self.block(d).epoch;
        self.block(c).epoch == Epoch(k + 1) && self.block(b).epoch == Epoch(k + 2)
    }
}

impl View<'_> {
    /// The different signers of a block as a word: bit q for office q.
    pub fn signers(&self, block: Block) -> u32 {
        self.signers[block.index()]
    }

    /// Office q's signature on b is in a view if a message there has signer q
    /// and block b, whatever its kind.
    pub fn has_signature(&self, q: Office, b: Block) -> bool {
        self.signers(b) >> q.0 & 1 == 1
    }

    /// A block is notarised if its different signers are a quorum. Genesis
    /// always is: for it all n count, who are a quorum.
    pub fn notarised(&self, block: Block) -> Notarised {
        let n = self.register.n();
        let signers = match block {
            GENESIS => n.into(),
            _ => self.signers(block).count_ones(),
        };
        Notarised {
            holds: is_quorum(signers, n) && !self.register.wants_more(signers),
            signers,
        }
    }

    /// A chain is valid if each epoch is greater than its parent's, and
    /// notarised if it is valid and all its blocks are.
    pub fn is_notarised_chain(&self, last: Block) -> bool {
        let mut block = last;
        while block != GENESIS {
            if !self.is_notarised_link(block) {
                return false;
            }
            block = self.register.block(block).parent;
        }
        true
    }

    /// A notarised chain than which no notarised chain of this view is longer.
    pub fn is_longest(&self, last: Block) -> bool {
        self.is_notarised_chain(last) && !self.has_longer(self.register.chain_length(last))
    }

    /// A block that can stand in a notarised chain: notarised itself, and of a
    /// greater epoch than its parent.
    pub fn is_notarised_link(&self, block: Block) -> bool {
        self.notarised(block).holds && self.register.is_valid_link(block)
    }

    /// Whether a notarised chain is longer than `length`. A parent's number is
    /// smaller than its child's, so one walk over the blocks meets each chain
    /// after the chain that it extends. It stops at the first longer one.
    fn has_longer(&self, length: usize) -> bool {
        let mut lengths = [None; LAST_BLOCK as usize + 1];
        lengths[GENESIS.index()] = Some(0);
        for block in (1..=self.register.last_block().0).map(Block) {
            let parent = self.register.block(block).parent;
            if let Some(shorter) = lengths[parent.index()]
                && self.is_notarised_link(block)
            {
                if shorter + 1 > length {
                    return true;
                }
                lengths[block.index()] = Some(shorter + 1);
            }
        }
        false
    }
}
