//! Calls on registers, without packed logs.

use super::seeds;
use skovarnek_compare::generate;
use skovarnek_compare::packed::read_log;
use skovarnek_compare::refusal::Refusal;
use skovarnek_compare::register::{Block, Epoch, Office, Opening, Register, is_quorum};

fn open(n: u8, trust: u32, leaders: &[u8]) -> Result<Register, Refusal> {
    let schedule = leaders.iter().copied().map(Office).collect();
    Register::open(&Opening { n, trust, schedule })
}

#[test]
fn quorums() {
    let cases = [
        (1, 1, true),
        (1, 3, false),
        (2, 3, true),
        (2, 4, false),
        (3, 4, true),
        (21, 32, false),
        (22, 32, true),
    ];
    for (signers, n, notarised) in cases {
        assert_eq!(is_quorum(signers, n), notarised, "{signers} of {n}");
    }
}

#[test]
fn openings_are_refused_in_order() {
    let refusal = |n, trust, leaders: &[u8]| open(n, trust, leaders).err();
    assert_eq!(refusal(0, 0, &[]), Some(Refusal::Count));
    assert_eq!(refusal(33, u32::MAX, &[0]), Some(Refusal::Count));
    assert_eq!(refusal(3, 0, &[]), Some(Refusal::Schedule));
    assert_eq!(refusal(3, 7, &[0; 257]), Some(Refusal::Schedule));
    assert_eq!(refusal(3, 0, &[0, 3]), Some(Refusal::StrayLeader));
    assert_eq!(refusal(3, 0b011, &[0]), Some(Refusal::Third));
    assert_eq!(refusal(4, 0b0111, &[0; 256]), None);
    assert_eq!(refusal(32, u32::MAX << 10, &[31]), None);
    assert_eq!(refusal(32, u32::MAX << 11, &[31]), Some(Refusal::Third));
}

#[test]
fn trust_bits_from_n_up_are_dropped() {
    assert_eq!(open(3, u32::MAX, &[0]), open(3, 0b111, &[0]));
}

#[test]
fn a_wide_draft() {
    let mut register = open(3, 7, &[0]).expect("a good opening");
    assert_eq!(register.draft(Block(0), Epoch(512), 0), Err(Refusal::Wide));
    assert_eq!(
        register.draft(Block(1), Epoch(512), 0),
        Err(Refusal::NoBlock)
    );
    assert_eq!(register.draft(Block(0), Epoch(511), 0), Ok(Block(1)));
}

/// A refused step leaves the register equal to what it was; an accepted one,
/// but for some drafts and finalisations, doesn't.
#[test]
fn refused_steps_change_nothing() {
    for seed in seeds().take(400) {
        let Ok(log) = read_log(&generate::log(seed)) else {
            continue;
        };
        let mut register = Register::open(&log.opening).expect("a log that reads opens");
        for step in log.steps.iter().take(300) {
            let before = register.clone();
            let accepted = register.step(step).is_ok();
            let idle = matches!(step.kind(), 4 | 7);
            assert!(accepted || register == before, "seed {seed}: {step:?}");
            assert!(
                !accepted || idle || register != before,
                "seed {seed}: {step:?}"
            );
        }
    }
}

#[test]
fn numbers_and_words() {
    let words = [
        (Refusal::Count, 1, "count"),
        (Refusal::Third, 4, "third"),
        (Refusal::Wide, 9, "wide"),
        (Refusal::TrustedSender, 11, "trusted sender"),
        (Refusal::LeaderVotes, 14, "leader votes"),
        (Refusal::OffEpoch, 17, "off epoch"),
        (Refusal::NotLongest, 19, "not longest"),
        (Refusal::Spent, 24, "spent"),
        (Refusal::Ending, 29, "ending"),
        (Refusal::ShortBuffer, 31, "short buffer"),
        (Refusal::Behind, 32, "behind"),
        (Refusal::SlipForm, 33, "slip form"),
        (Refusal::UnsignedMark, 34, "unsigned mark"),
    ];
    for (refusal, number, word) in words {
        assert_eq!((refusal.number(), refusal.word()), (number, word));
    }
}
