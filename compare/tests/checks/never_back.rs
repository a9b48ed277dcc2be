//! A final chain never goes back: what is final for an office before a step is
//! the beginning of what is final for it after the step.

use super::forks::chain;
use super::seeds;
use skovarnek_compare::generate;
use skovarnek_compare::packed::read_log;
use skovarnek_compare::register::{Block, Register};

/// The final chains of the trusted offices, ascending, each genesis first.
fn final_chains(register: &Register) -> Vec<Vec<Block>> {
    let offices = register.trusted_offices();
    let last_blocks = offices.map(|office| register.final_block(office));
    last_blocks.map(|last| chain(register, last)).collect()
}

/// Takes the steps of a seed's log, if it reads.
fn assert_never_back(seed: u64) {
    let Ok(log) = read_log(&generate::log(seed)) else {
        return;
    };
    let mut register = Register::open(&log.opening).expect("a log that reads opens");
    let mut before = final_chains(&register);
    for step in &log.steps {
        let _ = register.step(step);
        let after = final_chains(&register);
        let mut chains = before.iter().zip(&after);
        let begin = chains.all(|(before, after)| after.starts_with(before));
        assert!(begin, "seed {seed}, {step:?}: {before:?}, then {after:?}");
        before = after;
    }
}

#[test]
fn final_chains_begin_the_next() {
    for seed in seeds().take(600) {
        assert_never_back(seed);
    }
}
