//! The form of a slip. Bits go as in a log, most significant first and without
//! gaps: the block in 8 bits; then for each block of its chain but genesis,
//! oldest first, n bits, one per office, office 0 first; then zero bits to the
//! byte's end.

use crate::packed::{BLOCK_WIDTH, BitWriter};
use crate::refusal::{Refusal, ensure};
use crate::register::{Block, LAST_BLOCK, MOST_OFFICES, Register};

/// A chain of 255 blocks among 32 offices.
pub const LONGEST_SLIP: usize = slip_bytes(MOST_OFFICES, LAST_BLOCK as usize);

/// A slip of the right form.
#[derive(Clone, Debug, PartialEq, Eq)]
pub struct Slip {
    pub block: Block,
    /// For each block of the chain but genesis, oldest first, a word: bit q is set
    /// if office q is marked.
    pub marks: Vec<u32>,
}

/// How many bits of a slip say something, for a chain of so many blocks.
pub const fn slip_bits(n: u8, blocks: usize) -> usize {
    BLOCK_WIDTH + n as usize * blocks
}

/// How many bytes such a slip has.
pub const fn slip_bytes(n: u8, blocks: usize) -> usize {
    slip_bits(n, blocks).div_ceil(8)
}

impl Slip {
    /// [7 33]. The block stands in the first byte, where there is one. It says how
    /// long the slip has to be.
    pub fn read(register: &Register, bytes: &[u8]) -> Result<Slip, Refusal> {
        let first = bytes.first().ok_or(Refusal::SlipForm)?;
        let block = Block(*first);
        register.check_block(block)?;
        let (n, blocks) = (register.n(), register.chain_length(block));
        ensure(bytes.len() == slip_bytes(n, blocks), Refusal::SlipForm)?;
        let pad = set_pad_bit(register, block, bytes);
        ensure(pad.is_none(), Refusal::SlipForm)?;
        let marks = (0..blocks).map(|place| marks_at(bytes, slip_bits(n, place), n));
        let marks = marks.collect();
        Ok(Slip { block, marks })
    }

    /// The slip of a register of n offices, in bytes.
    pub fn bytes(&self, n: u8) -> Vec<u8> {
        let mut writer = BitWriter::new();
        writer.put(self.block.index(), BLOCK_WIDTH);
        for marks in &self.marks {
            for office in 0..n {
                writer.put((marks >> office & 1) as usize, 1);
            }
        }
        writer.into_bytes()
    }
}

/// The first bit behind all marks that is set.
pub fn set_pad_bit(register: &Register, block: Block, bytes: &[u8]) -> Option<usize> {
    let first = slip_bits(register.n(), register.chain_length(block));
    (first..8 * bytes.len()).find(|&position| is_set(bytes, position))
}

/// The word of the n marks that start at a bit position.
fn marks_at(bytes: &[u8], position: usize, n: u8) -> u32 {
    let marked = (0..n).filter(|&office| is_set(bytes, position + usize::from(office)));
    marked.fold(0, |word, office| word | 1 << office)
}

fn is_set(bytes: &[u8], position: usize) -> bool {
    bytes[position / 8] >> (7 - position % 8) & 1 == 1
}
