//! Tests on registers made by hand, for what no log can show.

use super::{Block, BlockRecord, Epoch, GENESIS, Kind, MessageRecord, Office, Opening, Place};
use super::{Notarised, Register};
use crate::refusal::Refusal;
use crate::slip;

/// Three trusted offices, led by office 0, with these blocks (parent, epoch)
/// and these messages (signer, block), all in the view of office 0.
fn made(blocks: &[(u8, u16)], messages: &[(u8, u8)]) -> Register {
    let opening = Opening {
        n: 3,
        trust: 7,
        schedule: vec![Office(0); 9],
    };
    let mut register = Register::open(&opening).expect("a good opening");
    for &(parent, epoch) in blocks {
        register.blocks.push(BlockRecord {
            parent: Block(parent),
            epoch: Epoch(epoch),
            payload: 0,
        });
    }
    for &(signer, block) in messages {
        register.history.push(MessageRecord {
            kind: Kind::Vote,
            signer: Office(signer),
            block: Block(block),
        });
        register.local[0].places.push(Place::View);
        register.local[1].places.push(Place::Inbox);
        register.local[2].places.push(Place::InTransit);
    }
    register
}

/// What the test gives back of a block with enough signers.
fn enough(signers: u32) -> Notarised {
    let holds = true;
    Notarised { holds, signers }
}

/// What the test gives back of a block with too few signers.
fn too_few(signers: u32) -> Notarised {
    let holds = false;
    Notarised { holds, signers }
}

#[test]
fn signers_are_counted_not_messages() {
    let register = made(&[(0, 1)], &[(1, 1), (1, 1)]);
    assert_eq!(register.view(Office(0)).notarised(Block(1)), too_few(1));
    let register = made(&[(0, 1)], &[(1, 1), (1, 1), (2, 1)]);
    assert_eq!(register.view(Office(0)).notarised(Block(1)), enough(2));
}

#[test]
fn only_the_view_counts() {
    let register = made(&[(0, 1)], &[(0, 1), (1, 1), (2, 1)]);
    assert_eq!(register.view(Office(0)).notarised(Block(1)), enough(3));
    assert_eq!(register.view(Office(1)).notarised(Block(1)), too_few(0));
    assert_eq!(register.view(Office(2)).notarised(Block(1)), too_few(0));
}

#[test]
fn all_offices_count_for_genesis() {
    let register = made(&[(0, 1)], &[(0, 1), (1, 1)]);
    for office in [0, 1, 2].map(Office) {
        assert_eq!(register.view(office).notarised(GENESIS), enough(3));
    }
}

#[test]
fn a_notarised_chain_is_valid() {
    // Block 2 has the epoch of its parent: signed by all, it makes no chain.
    let signed = [(0, 1), (1, 1), (0, 2), (1, 2), (0, 3), (1, 3)];
    let register = made(&[(0, 5), (1, 5), (2, 6)], &signed);
    let view = register.view(Office(0));
    assert!(view.notarised(Block(2)).holds);
    assert!(!view.is_notarised_chain(Block(2)));
    assert!(!view.is_notarised_chain(Block(3)));
    assert!(view.is_longest(Block(1)));
    let register = made(&[(0, 5), (1, 6), (2, 7)], &signed);
    let view = register.view(Office(0));
    assert!(view.is_notarised_chain(Block(3)));
    assert!(!view.is_longest(Block(1)));
    assert!(view.is_longest(Block(3)));
}

#[test]
fn a_block_of_epoch_0_makes_no_chain() {
    let register = made(&[(0, 0)], &[(0, 1), (1, 1)]);
    assert!(!register.view(Office(0)).is_notarised_chain(Block(1)));
}

#[test]
fn a_gap_in_the_chain_hides_what_is_above() {
    let register = made(&[(0, 1), (1, 2)], &[(0, 2), (1, 2)]);
    let view = register.view(Office(0));
    assert!(view.notarised(Block(2)).holds);
    assert!(view.is_longest(GENESIS));
}

#[test]
fn a_proposal_on_a_block_of_its_own_epoch() {
    let mut register = made(&[(0, 1)], &[(1, 1), (2, 1)]);
    let refused = Err(Refusal::Epochs);
    assert_eq!(register.propose(Office(0), Block(1), 7), refused);
    assert_eq!(register.advance(), Ok(Epoch(2)));
    assert!(register.propose(Office(0), Block(1), 7).is_ok());
}

/// The signatures of offices 0 and 1 on the blocks from 1 up to this one.
fn signed_up_to(last: u8) -> Vec<(u8, u8)> {
    (1..=last)
        .flat_map(|block| [(0, block), (1, block)])
        .collect()
}

/// Two chains that part at genesis: blocks 1 to 4, of epochs 1 to 4, and blocks
/// 5 to 7, of epochs 5 to 7. The shorter one has the higher numbers.
fn lower_and_longer(messages: &[(u8, u8)]) -> Register {
    let blocks = [(0, 1), (1, 2), (2, 3), (3, 4), (0, 5), (5, 6), (6, 7)];
    made(&blocks, messages)
}

#[test]
fn a_final_chain_as_long_through_another_block() {
    // Blocks 1 to 3 and 4 to 6 are two chains that part at genesis.
    let blocks = [(0, 1), (1, 2), (2, 3), (0, 4), (4, 5), (5, 6)];
    let mut register = made(&blocks, &signed_up_to(6));
    for (b, c) in [(3, 2), (6, 5), (6, 5), (3, 2)] {
        assert_eq!(register.finalise(Office(0), Block(b)), Ok(Block(c)));
        assert_eq!(register.final_block(Office(0)), Block(c));
    }
}

#[test]
fn the_same_final_block_through_another_child() {
    // Blocks 3 and 4 both stand on block 2 and are of one epoch.
    let blocks = [(0, 1), (1, 2), (2, 3), (2, 3)];
    let mut register = made(&blocks, &signed_up_to(4));
    for b in [3, 4, 3] {
        assert_eq!(register.finalise(Office(0), Block(b)), Ok(Block(2)));
    }
}

#[test]
fn a_shorter_chain_of_higher_blocks_is_behind() {
    let mut register = lower_and_longer(&signed_up_to(7));
    assert_eq!(register.finalise(Office(0), Block(4)), Ok(Block(3)));
    let before = register.clone();
    let refused = Err(Refusal::Behind);
    assert_eq!(register.finalise(Office(0), Block(7)), refused);
    assert_eq!(register.finalise(Office(0), Block(3)), refused);
    assert_eq!(register, before);
}

#[test]
fn a_longer_chain_of_lower_blocks_is_not_behind() {
    let mut register = lower_and_longer(&signed_up_to(7));
    assert_eq!(register.finalise(Office(0), Block(7)), Ok(Block(6)));
    // As long as the present chain, then longer.
    assert_eq!(register.finalise(Office(0), Block(3)), Ok(Block(2)));
    assert_eq!(register.finalise(Office(0), Block(7)), Ok(Block(6)));
    assert_eq!(register.finalise(Office(0), Block(4)), Ok(Block(3)));
    assert_eq!(register.final_block(Office(0)), Block(3));
}

#[test]
fn not_final_before_behind() {
    // The shorter chain is behind, but its last block isn't signed.
    let mut register = lower_and_longer(&signed_up_to(6));
    assert_eq!(register.finalise(Office(0), Block(4)), Ok(Block(3)));
    let refused = Err(Refusal::NotFinal);
    assert_eq!(register.finalise(Office(0), Block(7)), refused);
    assert_eq!(register.final_block(Office(0)), Block(3));
}

#[test]
fn genesis_is_the_only_oldest_block_of_epoch_0() {
    // Blocks 1 and 2, of epochs 1 and 2, stand on genesis; blocks 4 and 5, of
    // the same epochs, on block 3 of epoch 0. All are notarised.
    let blocks = [(0, 1), (1, 2), (0, 0), (3, 1), (4, 2)];
    let mut register = made(&blocks, &signed_up_to(5));
    let view = register.view(Office(0));
    assert!((0..=5).map(Block).all(|block| view.notarised(block).holds));
    let refused = Err(Refusal::NotFinal);
    for _ in 0..2 {
        assert_eq!(register.finalise(Office(0), Block(5)), refused);
        assert_eq!(register.finalise(Office(0), Block(2)), Ok(Block(1)));
        assert_eq!(register.final_block(Office(0)), Block(1));
    }
}

#[test]
fn as_long_from_genesis_through_another_block() {
    // Two chains of epochs 1 and 2 that part at genesis.
    let blocks = [(0, 1), (1, 2), (0, 1), (3, 2)];
    let mut register = made(&blocks, &signed_up_to(4));
    for (b, c) in [(2, 1), (4, 3), (2, 1)] {
        assert_eq!(register.finalise(Office(0), Block(b)), Ok(Block(c)));
    }
}

#[test]
fn from_genesis_behind() {
    // The shorter chain has the higher numbers, and genesis is the oldest of
    // its three.
    let blocks = [(0, 3), (1, 4), (2, 5), (0, 1), (4, 2)];
    let mut register = made(&blocks, &signed_up_to(5));
    assert_eq!(register.finalise(Office(0), Block(3)), Ok(Block(2)));
    let refused = Err(Refusal::Behind);
    assert_eq!(register.finalise(Office(0), Block(5)), refused);
    assert_eq!(register.final_block(Office(0)), Block(2));
}

/// The slip of block 4 on blocks 1 to 3, marked for offices 0 and 1.
const SLIP_OF_4: [u8; 3] = [0x04, 0xDB, 0x60];

#[test]
fn a_slip_of_a_chain_that_is_not_valid() {
    // Block 2 has the epoch of its parent. Blocks 2 to 4 are a run of three.
    let register = made(&[(0, 3), (1, 3), (2, 4), (3, 5)], &signed_up_to(4));
    let refused = Err(Refusal::NotFinal);
    assert_eq!(slip::check(&register, &SLIP_OF_4), refused);
    let written = slip::write(&register, Office(0), Block(4));
    assert_eq!(written, Err(Refusal::NotFinal));
    let register = made(&[(0, 2), (1, 3), (2, 4), (3, 5)], &signed_up_to(4));
    assert_eq!(slip::check(&register, &SLIP_OF_4), Ok(Block(3)));
    let written = slip::write(&register, Office(0), Block(4)).expect("a right chain");
    assert_eq!(written.bytes(3), SLIP_OF_4);
}

#[test]
fn a_slip_over_a_block_of_epoch_0() {
    let register = made(&[(0, 0), (1, 1), (2, 2)], &signed_up_to(3));
    let refused = Err(Refusal::NotFinal);
    assert_eq!(slip::check(&register, &[0x03, 0xDB, 0x00]), refused);
}

#[test]
fn a_slip_of_repeated_signatures() {
    // Both offices sign both blocks, one of them twice.
    let messages = [(0, 1), (0, 1), (1, 1), (0, 2), (1, 2), (1, 2)];
    let register = made(&[(0, 1), (1, 2)], &messages);
    let written = slip::write(&register, Office(0), Block(2)).expect("a right chain");
    assert_eq!(written.bytes(3), [0x02, 0xD8]);
    // One office twice is one mark, and not enough.
    let register = made(&[(0, 1), (1, 2)], &[(0, 1), (0, 1), (0, 2), (1, 2)]);
    let written = slip::write(&register, Office(0), Block(2));
    assert_eq!(written, Err(Refusal::NotFinal));
}
