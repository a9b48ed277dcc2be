//! Accepted slips and final chains agree: of the chain of an accepted slip's
//! answer and a trusted office's final chain, at any two moments, one begins the
//! other; and so do those of two accepted slips.

use crate::forks::chain;
use crate::seeds;
use skovarnek_compare::generate;
use skovarnek_compare::packed::read_log;
use skovarnek_compare::register::{Block, GENESIS, Register};
use skovarnek_compare::slip::{self, Slip};
use std::collections::BTreeSet;

/// What is final at some moment of a run.
struct Finals {
    /// For some trusted office.
    offices: BTreeSet<Block>,
    /// By an accepted slip: its block and its answer.
    slips: BTreeSet<(Block, Block)>,
}

impl Finals {
    /// Looks at the register between two steps. A block has a slip that is accepted
    /// if the one with all signatures of the history is accepted. It is so from
    /// then on, since the history only grows.
    fn look(&mut self, register: &Register) {
        let offices = register.trusted_offices();
        self.offices
            .extend(offices.map(|office| register.final_block(office)));
        let signed = register.signed();
        for block in (1..=register.last_block().0).map(Block) {
            let known = self.slips.iter().any(|&(known, _)| known == block);
            if known || !register.ends_three_in_a_row(block) {
                continue;
            }
            let chain = register.chain(block);
            let marks = chain.iter().map(|block| signed[block.index()]);
            let marks = marks.collect();
            let bytes = Slip { block, marks }.bytes(register.n());
            if let Ok(answer) = slip::check(register, &bytes) {
                self.slips.insert((block, answer));
            }
        }
    }
}

/// Gives how many blocks have a slip that is accepted. Where chains are sorted by
/// their lengths, it is enough that each begins the next.
fn assert_agreement(seed: u64) -> usize {
    let Ok(log) = read_log(&generate::log(seed)) else {
        return 0;
    };
    let mut register = Register::open(&log.opening).expect("a log that reads opens");
    let mut finals = Finals {
        offices: BTreeSet::from([GENESIS]),
        slips: BTreeSet::new(),
    };
    for step in &log.steps {
        if register.step(step).is_ok() {
            finals.look(&register);
        }
    }
    let answers = finals.slips.iter().map(|&(_, answer)| answer);
    let blocks: BTreeSet<Block> = finals.offices.iter().copied().chain(answers).collect();
    let blocks = blocks.into_iter();
    let mut chains: Vec<Vec<Block>> = blocks.map(|last| chain(&register, last)).collect();
    chains.sort_by_key(Vec::len);
    for pair in chains.windows(2) {
        assert!(pair[1].starts_with(&pair[0]), "seed {seed}: {pair:?}");
    }
    finals.slips.len()
}

#[test]
fn slips_and_final_chains_begin_each_other() {
    let seeds = seeds();
    let logs = seeds.clone().take(1200).count();
    let slips: usize = seeds.take(1200).map(assert_agreement).sum();
    println!("blocks with a slip that is accepted: {slips} in {logs} logs");
    assert!(logs < 100 || slips > logs, "{slips} in {logs} logs");
}
