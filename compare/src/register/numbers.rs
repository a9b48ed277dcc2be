//! Office, epoch, block and message numbers are four sorts of number, and one
//! sort never passes for another.

/// An office, from 0 to n-1.
#[derive(Clone, Copy, Debug, PartialEq, Eq, PartialOrd, Ord, Hash)]
pub struct Office(pub u8);

/// An epoch: from 1 for the register, from 0 (genesis) for a block.
#[derive(Clone, Copy, Debug, PartialEq, Eq, PartialOrd, Ord, Hash)]
pub struct Epoch(pub u16);

/// A block, from 0 (genesis) to 255.
#[derive(Clone, Copy, Debug, PartialEq, Eq, PartialOrd, Ord, Hash)]
pub struct Block(pub u8);

/// A message, from 0 to 1,023, numbered as sent.
#[derive(Clone, Copy, Debug, PartialEq, Eq, PartialOrd, Ord, Hash)]
pub struct Message(pub u16);

pub const GENESIS: Block = Block(0);

impl Office {
    pub fn index(self) -> usize {
        usize::from(self.0)
    }
}

impl Block {
    pub fn index(self) -> usize {
        usize::from(self.0)
    }
}

impl Message {
    pub fn index(self) -> usize {
        usize::from(self.0)
    }
}
