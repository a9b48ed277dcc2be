//! Final chains agree: what is final for a trusted office at any moment begins
//! every chain at least as long that is notarised in a trusted office's view at
//! any moment.

use super::forks::{chain, notarised_tips};
use super::seeds;
use skovarnek_compare::generate;
use skovarnek_compare::packed::{Log, read_log};
use skovarnek_compare::register::{Block, Register};
use std::collections::BTreeSet;

/// The register after all steps of a log, and the blocks that are final for some
/// trusted office at some moment.
fn run(log: &Log) -> (Register, BTreeSet<Block>) {
    let mut register = Register::open(&log.opening).expect("a log that reads opens");
    let mut finals = BTreeSet::new();
    for step in &log.steps {
        let _ = register.step(step);
        let offices = register.trusted_offices();
        finals.extend(offices.map(|office| register.final_block(office)));
    }
    (register, finals)
}

/// Nothing leaves a view, so that the views after the last step have the chains
/// of all moments. Each of these begins one that ends at a tip, so that looking
/// at the tips is enough.
fn assert_agreement(seed: u64) {
    let Ok(log) = read_log(&generate::log(seed)) else {
        return;
    };
    let (register, finals) = run(&log);
    let offices = register.trusted_offices();
    let tips: BTreeSet<Block> = offices
        .flat_map(|office| notarised_tips(&register, office))
        .collect();
    let tips: Vec<Vec<Block>> = tips.iter().map(|&tip| chain(&register, tip)).collect();
    for last in finals {
        let final_chain = chain(&register, last);
        let mut long = tips.iter().filter(|tip| tip.len() >= final_chain.len());
        let parted = long.find(|tip| !tip.starts_with(&final_chain));
        assert_eq!(parted, None, "seed {seed}: {final_chain:?} is final");
    }
}

#[test]
fn final_chains_begin_notarised_chains() {
    for seed in seeds() {
        assert_agreement(seed);
    }
}
