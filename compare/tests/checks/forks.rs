//! Forks in the view of an office.

use skovarnek_compare::packed::read_log;
use skovarnek_compare::register::{Block, GENESIS, Office, Register};

/// The register that a log leads to, if it reads.
pub fn register_after(log: &[u8]) -> Option<Register> {
    let log = read_log(log).ok()?;
    let mut register = Register::open(&log.opening).ok()?;
    for step in &log.steps {
        let _ = register.step(step);
    }
    Some(register)
}

/// The blocks of a chain, genesis first.
pub fn chain(register: &Register, last: Block) -> Vec<Block> {
    let mut chain = vec![last];
    let mut block = last;
    while block != GENESIS {
        block = register.block(block).parent;
        chain.push(block);
    }
    chain.reverse();
    chain
}

/// The last blocks of the notarised chains that no notarised chain goes on from.
pub fn notarised_tips(register: &Register, office: Office) -> Vec<Block> {
    let view = register.view(office);
    let blocks = (0..=register.last_block().0).map(Block);
    let notarised: Vec<Block> = blocks.filter(|&b| view.is_notarised_chain(b)).collect();
    let is_tip = |tip: &&Block| {
        let goes_on = |&b: &Block| b != GENESIS && register.block(b).parent == **tip;
        !notarised.iter().any(goes_on)
    };
    notarised.iter().filter(is_tip).copied().collect()
}

/// The greatest number of blocks that two notarised chains of an office's view
/// both have after their last common block.
pub fn chains_after_fork(register: &Register, office: Office) -> usize {
    let tips = notarised_tips(register, office);
    let chains: Vec<Vec<Block>> = tips.iter().map(|&tip| chain(register, tip)).collect();
    let mut most = 0;
    for (place, one) in chains.iter().enumerate() {
        for other in &chains[..place] {
            let common = one.iter().zip(other).take_while(|(a, b)| a == b).count();
            most = most.max(one.len().min(other.len()) - common);
        }
    }
    most
}
