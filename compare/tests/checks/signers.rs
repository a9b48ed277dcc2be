//! The word of signers and the notarised test against their plain definitions:
//! office q's signature on b is in a view if a message there has signer q and
//! block b.

use super::forks::register_after;
use super::seeds;
use skovarnek_compare::generate;
use skovarnek_compare::packed::{Log, read_log};
use skovarnek_compare::refusal::Refusal;
use skovarnek_compare::register::{Block, GENESIS, Message, Notarised, Office, Place, Register};
use std::collections::BTreeSet;

/// The signers of the messages about a block in an office's view, one for each
/// message. Untrusted offices keep nothing.
fn signers_of_messages(register: &Register, office: Office, block: Block) -> Vec<u8> {
    let mut signers = Vec::new();
    if register.is_trusted(office) {
        for message in (0..register.sent() as u16).map(Message) {
            let record = register.message(message);
            if register.place(message, office) == Place::View && record.block == block {
                signers.push(record.signer.0);
            }
        }
    }
    signers
}

/// How many different offices below n have signed a block in an office's view;
/// n for genesis.
pub fn count_of_signers(register: &Register, office: Office, block: Block) -> u32 {
    if block == GENESIS {
        return register.n().into();
    }
    let signers = signers_of_messages(register, office, block);
    (0..register.n()).filter(|q| signers.contains(q)).count() as u32
}

/// What the notarised test gives back of a block in the view of an office below
/// n: the count, and whether it is enough.
fn assert_notarised(name: &str, register: &Register, office: Office, block: Block) {
    let signers = count_of_signers(register, office, block);
    let holds = block == GENESIS || 3 * signers >= 2 * u32::from(register.n());
    let wanted = Notarised { holds, signers };
    assert_eq!(register.view(office).notarised(block), wanted, "{name}");
}

/// The word of a block in the view of an office below n.
fn assert_word(name: &str, register: &Register, office: Office, block: Block) {
    let word = register.view(office).signers(block);
    let messages = signers_of_messages(register, office, block);
    let signers: BTreeSet<u8> = messages.into_iter().collect();
    for q in 0..32 {
        let set = word >> q & 1 == 1;
        assert_eq!(set, signers.contains(&q), "{name}, bit {q}");
    }
    assert_eq!(word.count_ones() as usize, signers.len(), "{name}");
    assert_eq!(u64::from(word) >> register.n(), 0, "{name}");
    assert!(block != GENESIS || word == 0, "{name}");
}

/// The signers of all blocks for all offices. A number from n up is no office's:
/// there is no view, and a step that names it is refused with 6.
fn assert_signers(seed: u64, register: &mut Register) {
    for office in (0..32).map(Office) {
        if office.0 >= register.n() {
            let refused = Err(Refusal::NoOffice);
            assert_eq!(register.finalise(office, GENESIS), refused, "seed {seed}");
            continue;
        }
        for block in (0..=register.last_block().0).map(Block) {
            let name = format!("seed {seed}: {office:?}, {block:?}");
            assert_word(&name, register, office, block);
            assert_notarised(&name, register, office, block);
        }
    }
}

/// Looks at the register at the opening, after each quarter of the steps and at
/// the end.
fn at_moments(log: &Log, mut look: impl FnMut(&mut Register)) {
    let mut register = Register::open(&log.opening).expect("a log that reads opens");
    let quarter = log.steps.len().div_ceil(4).max(1);
    look(&mut register);
    for steps in log.steps.chunks(quarter) {
        for step in steps {
            let _ = register.step(step);
        }
        look(&mut register);
    }
}

#[test]
fn words_and_counts_are_those_of_the_signers() {
    for seed in seeds().take(800) {
        if let Ok(log) = read_log(&generate::log(seed)) {
            at_moments(&log, |register| assert_signers(seed, register));
        }
    }
}

/// Of one signer at most one message about a block comes into a view: 18 keeps
/// a second one out, and a trusted office signs a block once. So no log tells
/// counted messages from counted signers.
#[test]
fn no_signature_is_twice_in_a_view() {
    for seed in seeds().take(800) {
        let Some(register) = register_after(&generate::log(seed)) else {
            continue;
        };
        for office in register.trusted_offices() {
            for block in (1..=register.last_block().0).map(Block) {
                let messages = signers_of_messages(&register, office, block);
                let signers: BTreeSet<&u8> = messages.iter().collect();
                assert_eq!(messages.len(), signers.len(), "seed {seed}: {block:?}");
            }
        }
    }
}
