//! The logs to measure with are what they are said to be.

use super::forks::{chains_after_fork, notarised_tips, register_after};
use skovarnek_compare::check;
use skovarnek_compare::generate::{Row, rows, slip_rows};
use skovarnek_compare::packed::read_log;
use skovarnek_compare::register::{Block, Message, Office, Place, Register, Step};
use skovarnek_compare::slip;
use std::collections::{BTreeMap, BTreeSet};
use std::sync::LazyLock;

/// A row's name, the bytes and steps of its log, and how many steps of the
/// report have which refusal. All others are accepted.
type Counts = (&'static str, usize, usize, &'static [(usize, usize)]);

#[rustfmt::skip]
const COUNTS: [Counts; 16] = [
    ("deliveries", 65_535, 27_374, &[]),
    ("votes, full tables", 65_536, 27_483, &[(26, 23_661)]),
    ("votes on a fork", 65_536, 27_375, &[(26, 24_345)]),
    ("the dearest votes", 65_536, 27_429, &[(26, 23_629)]),
    ("votes, 32 offices", 65_535, 27_384, &[(26, 14_514)]),
    ("proposals refused with 19", 65_535, 17_364, &[(19, 13_807)]),
    ("proposals on a fork", 65_533, 16_961, &[(25, 14_206)]),
    ("the growing of a fork", 6_910, 2_750, &[]),
    ("finalise, two offices", 65_535, 30_360, &[]),
    ("finalise, 100 blocks apart", 65_535, 30_360, &[(32, 13_402)]),
    ("finalise, crowded blocks", 65_536, 30_473, &[(21, 29_413)]),
    ("registers refused with 18", 65_536, 27_376, &[(18, 25_326)]),
    ("bad sends refused with 22", 65_535, 22_793, &[(22, 21_769)]),
    ("drafts of the last block", 65_535, 14_169, &[]),
    ("131,065 advances", 65_536, 131_065, &[(24, 131_065)]),
    ("a usual run, 7 offices", 65_535, 28_573, &[(21, 3_087), (23, 6_132)]),
];

/// The refusals (0 if there is none) and values of the steps in a row's report.
fn answers(row: &Row) -> Vec<(usize, usize)> {
    let report = String::from_utf8(check(&row.log)).expect("a report is text");
    let steps = report.lines().filter(|line| !line.starts_with("office"));
    let answer = |line: &str| {
        let words = line.split(' ').map(|word| word.parse().expect("a number"));
        let numbers: Vec<usize> = words.collect();
        (numbers[1], numbers[2])
    };
    steps.map(answer).collect()
}

/// All rows, made once.
static ROWS: LazyLock<Vec<Row>> = LazyLock::new(rows);

fn row(name: &str) -> &'static Row {
    let row = ROWS.iter().find(|row| row.name == name);
    row.expect("a row's name")
}

#[test]
fn rows_hold() {
    for row in ROWS.iter() {
        assert!(row.holds(), "{}: {:?}", row.name, row.count());
    }
}

#[test]
fn refusals_in_the_reports() {
    assert_eq!(ROWS.len(), COUNTS.len());
    for (row, (name, bytes, steps, refusals)) in ROWS.iter().zip(COUNTS) {
        let answers = answers(row);
        let mut counts = BTreeMap::new();
        for &(refusal, _) in answers.iter().filter(|answer| answer.0 > 0) {
            *counts.entry(refusal).or_default() += 1;
        }
        let counts: Vec<(usize, usize)> = counts.into_iter().collect();
        assert_eq!(row.name, name);
        assert_eq!((row.log.len(), answers.len()), (bytes, steps), "{name}");
        assert_eq!(counts, refusals, "{name}");
    }
}

/// The two chains are equally long in an office's view whenever it votes.
#[test]
fn forks_are_even_at_each_vote() {
    let log = read_log(&row("the growing of a fork").log).expect("a log that reads");
    let mut register = Register::open(&log.opening).expect("a log that reads opens");
    for step in &log.steps {
        if let Step::Vote { office, .. } = *step {
            let tips = notarised_tips(&register, office);
            let lengths: Vec<usize> = tips.iter().map(|&tip| register.chain_length(tip)).collect();
            assert!(lengths.iter().all(|&length| length == lengths[0]));
        }
        register.step(step).expect("a step that is accepted");
    }
}

/// Two chains of 125 blocks from genesis on, with all blocks of the fork.
#[test]
fn forks_are_long() {
    for name in [
        "the growing of a fork",
        "votes on a fork",
        "proposals on a fork",
    ] {
        let register = register_after(&row(name).log).expect("a log that reads");
        for office in [Office(0), Office(1)] {
            let tips = notarised_tips(&register, office);
            assert_eq!(tips, [Block(249), Block(250)], "{name}");
            assert_eq!(chains_after_fork(&register, office), 125, "{name}");
        }
    }
}

/// Two chains of 251 blocks that part below their last blocks. On both, a block
/// never has the signers of its parent.
#[test]
fn dearest_votes_count_signers() {
    let register = register_after(&row("the dearest votes").log).expect("a log that reads");
    for office in register.trusted_offices() {
        let tips = notarised_tips(&register, office);
        assert_eq!(tips, [Block(251), Block(252)]);
        let view = register.view(office);
        let signers = |block| [0, 1, 2, 3].map(|q| view.has_signature(Office(q), block));
        assert!(tips.iter().all(|&tip| register.chain_length(tip) == 251));
        assert_eq!(chains_after_fork(&register, office), 1);
        for block in (1..=252).map(Block) {
            let parent = register.block(block).parent;
            assert_ne!(signers(block), signers(parent), "{block:?}");
        }
    }
}

/// In each chunk of 64 messages one is the proposer's about the block that is
/// voted for, and some are in the view of each voter.
#[test]
fn dearest_votes_read_all_messages() {
    let register = register_after(&row("the dearest votes").log).expect("a log that reads");
    let messages: Vec<Message> = (0..1024).map(Message).collect();
    assert_eq!(register.sent(), messages.len());
    for chunk in messages.chunks(64) {
        let signs = |&&message: &&Message| {
            let message = register.message(message);
            (message.signer, message.block) == (Office(3), Block(253))
        };
        assert_eq!(chunk.iter().filter(signs).count(), 1);
        for office in register.trusted_offices() {
            let seen = |&message: &Message| register.place(message, office) == Place::View;
            assert!(chunk.iter().any(seen));
        }
    }
}

/// All 32 offices are trusted, and the tables are full. 21 offices vote in turn.
/// Each sees a chain of 12 blocks, signed by just enough offices, the last among
/// them, and no other notarised block.
#[test]
fn votes_of_many_offices() {
    let log = &row("votes, 32 offices").log;
    let register = register_after(log).expect("a log that reads");
    assert_eq!(register.trusted_offices().count(), 32);
    assert_eq!((register.last_block(), register.sent()), (Block(255), 1024));
    let steps = read_log(log).expect("a log that reads").steps;
    let last_votes = steps.iter().rev().take(21).map(|step| match *step {
        Step::Vote { office, .. } => office,
        _ => panic!("{step:?}"),
    });
    let voters: BTreeSet<Office> = last_votes.collect();
    assert_eq!(voters.len(), 21);
    for office in voters {
        let tips = notarised_tips(&register, office);
        assert_eq!(tips, [Block(12)]);
        assert_eq!(register.chain_length(Block(12)), 12);
        let view = register.view(office);
        for block in (1..=12).map(Block) {
            assert_eq!(view.signers(block), u32::MAX << 10);
        }
    }
}

/// In each chunk of 64 messages some are about each of the two newest blocks.
#[test]
fn crowded_blocks_are_in_every_chunk() {
    let register = register_after(&row("finalise, crowded blocks").log).expect("a log that reads");
    let messages: Vec<Message> = (0..1024).map(Message).collect();
    assert_eq!(register.sent(), messages.len());
    for chunk in messages.chunks(64) {
        for block in [Block(2), Block(3)] {
            let about = |&message: &Message| register.message(message).block == block;
            assert!(chunk.iter().any(about));
        }
    }
}

#[test]
fn messages_are_about_one_block() {
    for name in ["registers refused with 18", "bad sends refused with 22"] {
        let register = register_after(&row(name).log).expect("a log that reads");
        assert_eq!(register.sent(), 1024, "{name}");
        let about = |message| register.message(Message(message)).block;
        assert!(
            (0..1024).all(|message| about(message) == Block(1)),
            "{name}"
        );
    }
}

/// The steps of the row's kind, after so many of them, have these answers in turn.
#[test]
fn answers_in_the_reports() {
    let cases = [
        ("finalise, two offices", 0, [(0, 253), (0, 253)]),
        ("finalise, 100 blocks apart", 0, [(0, 253), (32, 0)]),
        ("drafts of the last block", 254, [(0, 255), (0, 255)]),
    ];
    for (name, before, wanted) in cases {
        let row = row(name);
        let steps = read_log(&row.log).expect("a log that reads").steps;
        let answers = steps.iter().zip(answers(row));
        let of_kind = answers.filter(|(step, _)| row.kinds.contains(&step.kind()));
        for (turn, (_, answer)) in of_kind.skip(before).enumerate() {
            assert_eq!(answer, wanted[turn % 2], "{name}");
        }
    }
}

#[test]
fn two_offices_finalise() {
    let register = register_after(&row("finalise, two offices").log).expect("a log that reads");
    let finals = [0, 1, 2].map(|office| register.final_block(Office(office)));
    assert_eq!(finals, [Block(253), Block(253), Block(0)]);
}

/// The slips to measure with are of the longest chains, on full tables. In the logs
/// no step is refused.
#[test]
fn slips_of_the_longest_chains() {
    let rows = slip_rows();
    let wanted = [
        ("255 blocks, 4 offices", 255, 129),
        ("46 blocks, 32 offices", 46, 185),
    ];
    assert_eq!(rows.len(), wanted.len());
    for (row, (name, blocks, bytes)) in rows.iter().zip(wanted) {
        assert_eq!((row.name, row.slip.len()), (name, bytes));
        let log = read_log(&row.log).expect("a log that reads");
        let mut register = Register::open(&log.opening).expect("a log that reads opens");
        assert!(log.steps.iter().all(|step| register.step(step).is_ok()));
        assert_eq!((register.last_block(), register.sent()), (Block(255), 1024));
        assert_eq!(register.chain_length(row.block), blocks, "{name}");
        let parent = register.block(row.block).parent;
        assert_eq!(slip::check(&register, &row.slip), Ok(parent), "{name}");
    }
}
