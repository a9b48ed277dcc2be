//! Slips, and calls of their writer, over the register that a seed's log leads
//! to: right ones, and ones with every kind of fault.

mod damage;
mod writings;

pub use writings::Writing;

use super::random::Random;
use crate::packed::read_log;
use crate::register::{Block, Office, Register, Signers, is_quorum};
use crate::report::run_with;
use crate::slip::{Slip, write};

/// So many slips are checked where some block has one that is accepted, and half
/// as many written.
const SLIPS: usize = 12;
/// So many else.
const FEW_SLIPS: usize = 4;

/// What is asked after the last step of a log.
pub struct SlipCalls {
    pub log: Vec<u8>,
    /// The register then, if the log reads.
    pub register: Option<Register>,
    /// Slips to check.
    pub slips: Vec<Vec<u8>>,
    /// Slips to write.
    pub writings: Vec<Writing>,
}

/// The calls of a seed: the same seed always gives the same.
pub fn slip_calls(seed: u64) -> SlipCalls {
    let log = super::log(seed);
    // Other numbers than those that the log is made with.
    let mut random = Random::new(!seed);
    let register = read_log(&log).ok().map(|log| run_with(&log, None).1);
    let (slips, writings) = match &register {
        Some(register) => calls_on(register, &mut random),
        None => calls_on_no_register(&mut random),
    };
    SlipCalls {
        log,
        register,
        slips,
        writings,
    }
}

fn calls_on(register: &Register, random: &mut Random) -> (Vec<Vec<u8>>, Vec<Writing>) {
    let known = Known::of(register);
    let count = match known.provable.is_empty() {
        true => FEW_SLIPS,
        false => SLIPS,
    };
    let slips = (0..count).map(|_| damage::slip(&known, random));
    let slips = slips.collect();
    let writings = (0..count / 2).map(|_| writings::writing(&known, random));
    (slips, writings.collect())
}

/// The log is refused, whatever is asked.
fn calls_on_no_register(random: &mut Random) -> (Vec<Vec<u8>>, Vec<Writing>) {
    let slip = damage::random_bytes(random);
    let writing = writings::any_writing(random);
    (vec![slip], vec![writing])
}

/// What is known of a register.
struct Known<'a> {
    register: &'a Register,
    /// Who has signed which block in the history.
    signed: Signers,
    /// The offices with the blocks that meet the finalise rule in their views.
    writable: Vec<(Office, Block)>,
    /// The blocks of which a slip is accepted.
    provable: Vec<Block>,
    /// The blocks that end three of consecutive epochs.
    in_a_row: Vec<Block>,
}

impl<'a> Known<'a> {
    fn of(register: &'a Register) -> Known<'a> {
        let signed = register.signed();
        let blocks = (1..=register.last_block().0).map(Block);
        let mut in_a_row: Vec<Block> = blocks.collect();
        in_a_row.retain(|&block| register.ends_three_in_a_row(block));
        let mut writable = Vec::new();
        for office in register.trusted_offices() {
            let view = register.view(office);
            let notarised = in_a_row.iter().filter(|&&b| view.is_notarised_chain(b));
            writable.extend(notarised.map(|&block| (office, block)));
        }
        let is_link = |&block: &Block| {
            let signers = signed[block.index()].count_ones();
            register.is_valid_link(block) && is_quorum(signers, register.n())
        };
        let mut provable = in_a_row.clone();
        provable.retain(|&block| register.chain(block).iter().all(is_link));
        Known {
            register,
            signed,
            writable,
            provable,
            in_a_row,
        }
    }

    /// A slip without faults where there can be one: as an office writes it, or
    /// with all signatures of the history. Sometimes of any block.
    fn slip(&self, random: &mut Random) -> Slip {
        match random.below(10) {
            0..4 if !self.writable.is_empty() => {
                let (office, block) = random.pick(&self.writable);
                write(self.register, office, block).expect("the rule is met")
            }
            0..7 if !self.provable.is_empty() => self.with_history(random.pick(&self.provable)),
            7 if !self.in_a_row.is_empty() => self.with_history(random.pick(&self.in_a_row)),
            _ => self.with_history(self.any_block(random)),
        }
    }

    fn any_block(&self, random: &mut Random) -> Block {
        let last = self.register.last_block().index();
        Block(random.between(0, last) as u8)
    }

    /// A slip in which every signature of the history is marked.
    fn with_history(&self, block: Block) -> Slip {
        let chain = self.register.chain(block);
        let marks = chain.iter().map(|block| self.signed[block.index()]);
        Slip {
            block,
            marks: marks.collect(),
        }
    }
}
