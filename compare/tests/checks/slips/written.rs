//! Every slip that is written is accepted, marks what the view has, and is written
//! just where finalise has no 21.

use super::register_after;
use crate::seeds;
use skovarnek_compare::generate;
use skovarnek_compare::refusal::Refusal;
use skovarnek_compare::register::{Block, Message, Office, Place, Register};
use skovarnek_compare::slip::{self, LONGEST_SLIP, slip_bytes};

/// The offices whose signatures on a block are in an office's view: a bit for each.
fn signers(register: &Register, office: Office, block: Block) -> u32 {
    let messages = (0..register.sent() as u16).map(Message);
    let seen = messages.filter(|&message| register.place(message, office) == Place::View);
    let records = seen.map(|message| register.message(message));
    let about = records.filter(|record| record.block == block);
    about.fold(0, |word, record| word | 1 << record.signer.0)
}

/// Asks for a slip of each block from each trusted office's view. Gives how many
/// are written.
fn assert_written(seed: u64) -> usize {
    let Ok(register) = register_after(&generate::log(seed)) else {
        return 0;
    };
    let mut written = 0;
    for office in register.trusted_offices() {
        for block in (0..=register.last_block().0).map(Block) {
            let name = format!("seed {seed}, {office:?}, {block:?}");
            let finalised = register.clone().finalise(office, block);
            let Ok(slip) = slip::write(&register, office, block) else {
                assert_eq!(finalised, Err(Refusal::NotFinal), "{name}");
                continue;
            };
            let parent = register.block(block).parent;
            assert!(
                [Ok(parent), Err(Refusal::Behind)].contains(&finalised),
                "{name}"
            );
            let chain = register.chain(block).into_iter();
            let wanted: Vec<u32> = chain.map(|b| signers(&register, office, b)).collect();
            assert_eq!((slip.block, &slip.marks), (block, &wanted), "{name}");
            let bytes = slip.bytes(register.n());
            assert_eq!(slip::check(&register, &bytes), Ok(parent), "{name}");
            written += 1;
        }
    }
    written
}

#[test]
fn written_slips_are_accepted() {
    let seeds = seeds();
    let logs = seeds.clone().take(600).count();
    let written: usize = seeds.take(600).map(assert_written).sum();
    println!("slips written: {written} from {logs} logs");
    assert!(logs < 100 || written > logs, "{written} from {logs} logs");
}

#[test]
fn lengths() {
    for (n, blocks, bytes) in [(3, 0, 1), (1, 1, 2), (1, 8, 2), (1, 9, 3), (32, 255, 1021)] {
        assert_eq!(slip_bytes(n, blocks), bytes, "{n} offices, {blocks} blocks");
    }
    assert_eq!(LONGEST_SLIP, 1021);
}
