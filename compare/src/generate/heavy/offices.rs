//! Votes among 32 offices, all of them trusted.

use super::new_run;
use crate::generate::run::Run;
use crate::register::{Block, GENESIS, LAST_BLOCK, MOST_MESSAGES, MOST_OFFICES, Message, Office};

/// So many take part, from the last office down: just enough to notarise.
const ACTIVE: u8 = 22;

/// The blocks of the chain. Each takes 882 deliveries and registrations, so that
/// with more of them less than half of the steps would be such votes.
const CHAIN: usize = 12;

/// There are 255 blocks and 1,024 messages, and each vote is refused with 26,
/// after a search that finds no longer chain.
pub fn votes() -> Run {
    let epochs = MOST_MESSAGES / usize::from(ACTIVE) + 2;
    let leaders = active().cycle().take(epochs);
    let mut run = new_run(MOST_OFFICES, false, leaders.collect());
    let mut tip = GENESIS;
    for _ in 0..CHAIN {
        let votes = ballot(&mut run, tip);
        tip = run.register.last_block();
        register(&mut run, votes);
        run.advance();
    }
    // One message is left for the last proposal.
    while run.register.sent() + 1 < MOST_MESSAGES {
        ballot(&mut run, tip);
        run.advance();
    }
    for payload in 1.. {
        if run.register.last_block() == Block(LAST_BLOCK - 1) {
            break;
        }
        run.draft(tip, run.register.epoch(), payload);
    }
    let proposal = offer(&mut run, tip);
    let voters = voters(&run);
    run.fill(|run, turn| {
        run.vote(voters[turn % voters.len()], proposal);
    });
    run
}

fn active() -> impl Iterator<Item = Office> + Clone {
    (MOST_OFFICES - ACTIVE..MOST_OFFICES).map(Office)
}

/// The active offices but the leader.
fn voters(run: &Run) -> Vec<Office> {
    let leader = run.register.leader();
    active().filter(|&office| office != leader).collect()
}

/// The leader proposes a block on the tip, and the voters get it.
fn offer(run: &mut Run, tip: Block) -> Message {
    let proposal = run.propose(run.register.leader(), tip, 0);
    let proposal = proposal.expect("the tip is longest");
    for voter in voters(run) {
        run.deliver(proposal, voter);
    }
    proposal
}

/// A block on the tip, and votes for it, in any order, while there is more than
/// one message left. Gives the votes.
fn ballot(run: &mut Run, tip: Block) -> Vec<Message> {
    let proposal = offer(run, tip);
    let left = MOST_MESSAGES - 1 - run.register.sent();
    let mut voters = voters(run);
    run.random.shuffle(&mut voters);
    let voters = voters.into_iter().take(left);
    let vote = |voter| run.vote(voter, proposal).expect("the tip is longest");
    voters.map(vote).collect()
}

/// All active offices register these votes.
fn register(run: &mut Run, votes: Vec<Message>) {
    for vote in votes {
        let signer = run.register.message(vote).signer;
        for office in active().filter(|&office| office != signer) {
            run.deliver(vote, office);
            run.register(office, vote);
        }
    }
}
