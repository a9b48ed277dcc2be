//! Slips to measure with: of the longest chains, on full tables.

use super::new_run;
use crate::generate::random::Random;
use crate::generate::run::Run;
use crate::packed::LONGEST_LOG;
use crate::register::{Block, Epoch, GENESIS, Kind, LAST_BLOCK, MOST_MESSAGES, MOST_OFFICES};
use crate::register::{Message, MessageRecord, Office, Opening, fewest_signers};
use crate::slip::write;

/// A slip, and the log at whose end an office writes it.
pub struct SlipRow {
    pub name: &'static str,
    pub log: Vec<u8>,
    pub office: Office,
    pub block: Block,
    pub slip: Vec<u8>,
}

/// All 255 blocks in one chain, signed by all of 4 offices; and with 32 offices as
/// long a chain as 1,024 messages allow.
pub fn slip_rows() -> Vec<SlipRow> {
    vec![
        row("255 blocks, 4 offices", longest_chain()),
        row("46 blocks, 32 offices", most_offices()),
    ]
}

/// Office 0 writes the slip of the chain's last block.
fn row(name: &'static str, (run, block): (Run, Block)) -> SlipRow {
    let office = Office(0);
    let slip = write(&run.register, office, block).expect("three in a row, notarised");
    SlipRow {
        name,
        log: run.log(),
        office,
        block,
        slip: slip.bytes(run.register.n()),
    }
}

/// Three offices lead in turn; the fourth is untrusted and votes for each block.
fn longest_chain() -> (Run, Block) {
    let schedule = (0..=LAST_BLOCK).map(|epoch| Office(epoch % 3)).collect();
    let mut run = new_run(4, true, schedule);
    let voters = run.trusted();
    for _ in 0..LAST_BLOCK {
        epoch(&mut run, &voters);
        run.advance();
    }
    let tip = run.register.last_block();
    fill_messages(&mut run, tip);
    (run, tip)
}

/// Ten offices are untrusted, and sign what twelve others sign: just enough. So
/// few trusted ones have to see the votes that the log is not too long.
fn most_offices() -> (Run, Block) {
    let enough = fewest_signers(MOST_OFFICES) as usize;
    let blocks = MOST_MESSAGES / enough;
    let untrusted = usize::from((MOST_OFFICES - 1) / 3);
    let active: Vec<Office> = (0..enough - untrusted).map(|q| Office(q as u8)).collect();
    let leaders = active.iter().copied().cycle().take(blocks + 1);
    let opening = Opening {
        n: MOST_OFFICES,
        trust: u32::MAX >> untrusted,
        schedule: leaders.collect(),
    };
    let mut run = Run::new(Random::new(1), opening, LONGEST_LOG);
    for _ in 0..blocks {
        epoch(&mut run, &active);
        run.advance();
    }
    let tip = run.register.last_block();
    for payload in 1.. {
        if run.register.last_block() == Block(LAST_BLOCK) {
            break;
        }
        run.draft(GENESIS, Epoch(1), payload);
    }
    fill_messages(&mut run, tip);
    (run, tip)
}

/// A block on the last one, by the epoch's leader. The others of these offices and
/// all untrusted ones vote for it, and these offices see all votes.
fn epoch(run: &mut Run, offices: &[Office]) {
    let (leader, tip) = (run.register.leader(), run.register.last_block());
    let proposal = run.propose(leader, tip, 0).expect("the tip is longest");
    let block = run.register.last_block();
    let mut votes = Vec::new();
    for &voter in offices.iter().filter(|&&voter| voter != leader) {
        run.deliver(proposal, voter);
        votes.push(run.vote(voter, proposal).expect("the tip is longest"));
    }
    for bad in run.untrusted() {
        let vote = run.bad_send(bad, Kind::Vote, bad, block);
        votes.push(vote.expect("there is room"));
    }
    for vote in votes {
        enter(run, vote, offices);
    }
}

/// The vote comes into the views of these offices, but for its signer's.
fn enter(run: &mut Run, vote: Message, offices: &[Office]) {
    let MessageRecord { signer, .. } = *run.register.message(vote);
    for &office in offices.iter().filter(|&&office| office != signer) {
        run.deliver(vote, office);
        run.register(office, vote);
    }
}

/// An untrusted office votes for a block again, up to the last message.
fn fill_messages(run: &mut Run, block: Block) {
    let bad = Office(run.register.n() - 1);
    while run.register.sent() < MOST_MESSAGES {
        let sent = run.bad_send(bad, Kind::Vote, bad, block);
        sent.expect("there is room");
    }
}
