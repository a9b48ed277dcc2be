//! Slips, for those who hold no office. A slip names a block and marks, for each
//! block of its chain but genesis, offices that have signed it. It shows that the
//! block's parent is final. The marks are held against the history, not against
//! a view. 5 is never met: no register here is unfit.
//!
//! The slips are those of the right checker: no register that makes a student's
//! mistake is asked.

mod form;

pub use form::{LONGEST_SLIP, Slip, slip_bytes};
pub(crate) use form::{set_pad_bit, slip_bits};

use crate::refusal::{Refusal, ensure};
use crate::register::{Block, Office, Register, is_quorum};

/// [5 7 33 34 21]: every marked signature is in the history, each block has
/// enough marked signers, and the chain and the epochs are those of a block that
/// can be finalised. The answer is the block's parent.
pub fn check(register: &Register, bytes: &[u8]) -> Result<Block, Refusal> {
    let slip = Slip::read(register, bytes)?;
    ensure(slip.unsigned(register).is_empty(), Refusal::UnsignedMark)?;
    ensure(slip.has_enough_marks(register.n()), Refusal::NotFinal)?;
    let chain = register.chain(slip.block);
    let valid = chain.iter().all(|&block| register.is_valid_link(block));
    ensure(valid, Refusal::NotFinal)?;
    ensure(register.ends_three_in_a_row(slip.block), Refusal::NotFinal)?;
    Ok(register.block(slip.block).parent)
}

/// [5 6 7 10 21]: the slip of a block that meets the finalise rule in a trusted
/// office's view, with every signature that is there.
pub fn write(register: &Register, office: Office, block: Block) -> Result<Slip, Refusal> {
    register.check_office(office)?;
    register.check_block(block)?;
    register.check_trusted(office)?;
    ensure(register.ends_three_in_a_row(block), Refusal::NotFinal)?;
    let view = register.view(office);
    ensure(view.is_notarised_chain(block), Refusal::NotFinal)?;
    let chain = register.chain(block);
    let marks = chain.iter().map(|&block| view.signers(block)).collect();
    Ok(Slip { block, marks })
}

/// [5 6 7 10 21 31]: writes that slip into the buffer and gives its length in
/// bytes; later bytes are untouched. A refusal changes no byte.
pub fn write_into(
    register: &Register,
    office: Office,
    block: Block,
    buffer: &mut [u8],
) -> Result<usize, Refusal> {
    let bytes = write(register, office, block)?.bytes(register.n());
    let room = buffer.get_mut(..bytes.len());
    room.ok_or(Refusal::ShortBuffer)?.copy_from_slice(&bytes);
    Ok(bytes.len())
}

impl Slip {
    /// The marks for which there is no message of that signer about that block,
    /// of either kind: the block and a bit for each such office.
    pub fn unsigned(&self, register: &Register) -> Vec<(Block, u32)> {
        let signed = register.signed();
        let marked = register.chain(self.block).into_iter().zip(&self.marks);
        let stray = marked.map(|(block, marks)| (block, marks & !signed[block.index()]));
        stray.filter(|&(_, stray)| stray != 0).collect()
    }

    /// Whether each block has enough marks to be notarised.
    fn has_enough_marks(&self, n: u8) -> bool {
        let mut marks = self.marks.iter();
        marks.all(|marks| is_quorum(marks.count_ones(), n))
    }
}
