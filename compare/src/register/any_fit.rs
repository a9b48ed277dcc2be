//! Signers, their count and slips on fit registers of any content. In most of them
//! a view has several messages of one signer about one block, which no log can
//! bring.

use super::{Block, BlockRecord, Epoch, Kind, MessageRecord, Notarised, Office, Opening, Place};
use super::{GENESIS, Register};
use crate::generate::Random;
use crate::slip;
use std::collections::BTreeSet;

/// n offices, n often 32, and anything in the tables that keeps to its range.
fn any_fit(random: &mut Random) -> Register {
    let n = random.pick(&[1, 3, 4, 7, 31, 32, 32, 32]);
    let untrusted = Office(random.below(n.into()) as u8);
    let trust = match n {
        1 | 3 => u32::MAX,
        _ => !(1 << untrusted.0),
    };
    let schedule = vec![Office(n - 1)];
    let opening = Opening { n, trust, schedule };
    let mut register = Register::open(&opening).expect("a good opening");
    for parent in 0..random.between(1, 6) as u8 {
        register.blocks.push(BlockRecord {
            parent: Block(parent),
            epoch: Epoch(random.below(3) as u16),
            payload: 0,
        });
    }
    for _ in 0..random.between(0, 300) {
        add_message(&mut register, random);
    }
    register
}

/// Any message, anywhere for each trusted office.
fn add_message(register: &mut Register, random: &mut Random) {
    let block = random.between(1, register.last_block().index());
    register.history.push(MessageRecord {
        kind: random.pick(&[Kind::Proposal, Kind::Vote]),
        signer: Office(random.below(register.n().into()) as u8),
        block: Block(block as u8),
    });
    let places = [Place::Absent, Place::InTransit, Place::Inbox, Place::View];
    for (local, &trusted) in register.local.iter_mut().zip(&register.trusted) {
        local.places.push(match trusted {
            true => random.pick(&places),
            false => Place::Absent,
        });
    }
}

/// The messages in an office's view about a block, by their signers.
fn signers_of_messages(register: &Register, office: Office, block: Block) -> Vec<u8> {
    let places = &register.local[office.index()].places;
    let mut signers = Vec::new();
    for (message, place) in register.history.iter().zip(places) {
        if *place == Place::View && message.block == block {
            signers.push(message.signer.0);
        }
    }
    signers
}

#[test]
fn words_of_any_fit_register() {
    let mut random = Random::new(3);
    let mut repeated = 0;
    for _ in 0..400 {
        let register = any_fit(&mut random);
        for office in (0..register.n()).map(Office) {
            let view = register.view(office);
            for block in (0..=register.last_block().0).map(Block) {
                let messages = signers_of_messages(&register, office, block);
                let signers: BTreeSet<u8> = messages.iter().copied().collect();
                let word = view.signers(block);
                let set: BTreeSet<u8> = (0..32).filter(|q| word >> q & 1 == 1).collect();
                assert_eq!(set, signers);
                assert_eq!(word.count_ones() as usize, signers.len());
                repeated += usize::from(signers.len() < messages.len());
            }
        }
    }
    assert!(repeated > 10_000, "{repeated}");
}

/// Too few signers don't make a block notarised, however many their messages,
/// and the count that the test gives back is one of signers.
#[test]
fn messages_of_one_signer_count_once() {
    let mut random = Random::new(4);
    let mut misled = 0;
    for _ in 0..400 {
        let register = any_fit(&mut random);
        let n = u32::from(register.n());
        for office in (0..register.n()).map(Office) {
            let view = register.view(office);
            for block in (1..=register.last_block().0).map(Block) {
                let messages = signers_of_messages(&register, office, block);
                let signers: BTreeSet<u8> = messages.iter().copied().collect();
                let signers = signers.len() as u32;
                let holds = 3 * signers >= 2 * n;
                assert_eq!(view.notarised(block), Notarised { holds, signers });
                misled += usize::from(!holds && 3 * messages.len() as u32 >= 2 * n);
            }
            let (holds, signers) = (true, n);
            assert_eq!(view.notarised(GENESIS), Notarised { holds, signers });
        }
    }
    assert!(misled > 500, "{misled}");
}

/// Every slip that is written is accepted, also where no log leads.
#[test]
fn slips_of_any_fit_register() {
    let mut random = Random::new(5);
    let mut written = 0;
    for _ in 0..2000 {
        let register = any_fit(&mut random);
        for office in register.trusted_offices() {
            for block in (0..=register.last_block().0).map(Block) {
                if let Ok(slip) = slip::write(&register, office, block) {
                    let answer = slip::check(&register, &slip.bytes(register.n()));
                    assert_eq!(answer, Ok(register.block(block).parent));
                    written += 1;
                }
            }
        }
    }
    assert!(written > 100, "{written}");
}
