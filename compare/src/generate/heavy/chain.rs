//! Logs on one long chain, notarised in the views of all trusted offices.

use super::new_run;
use crate::generate::run::Run;
use crate::register::{Block, Kind, LAST_BLOCK, MOST_MESSAGES, Message, Office};

/// The last block of the long chain.
const TIP: Block = Block(254);

/// A notarised chain of 254 blocks in the views of three offices, by one block
/// an epoch. The fourth office is bad and leads the last epoch or nothing.
fn long_chain(last_leader: Office) -> Run {
    let mut schedule: Vec<Office> = (0..TIP.0).map(|epoch| Office(epoch % 3)).collect();
    schedule.push(last_leader);
    let mut run = new_run(4, true, schedule);
    for tip in 0..TIP.0 {
        honest_epoch(&mut run, Block(tip));
        run.advance();
    }
    run
}

/// The leader proposes on the tip; all others vote, and all see the votes.
fn honest_epoch(run: &mut Run, tip: Block) {
    let leader = run.register.leader();
    let proposal = run.propose(leader, tip, 0).expect("the tip is longest");
    for voter in run.trusted().into_iter().filter(|&voter| voter != leader) {
        run.deliver(proposal, voter);
        let vote = run.vote(voter, proposal).expect("the tip is longest");
        for office in run.trusted().into_iter().filter(|&office| office != voter) {
            run.deliver(vote, office);
            run.register(office, vote);
        }
    }
}

/// 255 blocks and 1,024 messages; each vote is refused with 26, which is judged
/// after a search that finds no longer chain.
pub fn votes() -> Run {
    let bad = Office(3);
    let mut run = long_chain(bad);
    let block = run.draft(TIP, run.register.epoch(), 0);
    let block = block.expect("the last block");
    let proposal = run.bad_send(bad, Kind::Proposal, bad, block);
    let proposal = proposal.expect("there is room");
    while run.register.sent() < MOST_MESSAGES {
        run.bad_send(bad, Kind::Vote, bad, block);
    }
    for office in run.trusted() {
        run.deliver(proposal, office);
    }
    run.fill(|run, turn| {
        run.vote(Office(turn as u8 % 3), proposal);
    });
    run
}

/// 255 blocks, and proposals on each of them but the tip.
pub fn proposals() -> Run {
    let mut run = long_chain(Office(0));
    run.draft(TIP, run.register.epoch(), 1);
    let blocks = (0..=LAST_BLOCK).map(Block);
    let others: Vec<Block> = blocks.filter(|&block| block != TIP).collect();
    run.fill(|run, turn| {
        run.propose(Office(0), others[turn % others.len()], turn as u16);
    });
    run
}

/// Two offices finalise the tip in turn.
pub fn two_offices_finalise() -> Run {
    let mut run = long_chain(Office(0));
    run.fill(|run, turn| run.finalise(Office(turn as u8 % 2), TIP));
    run
}

/// One office names the tip and a block a hundred blocks before it in turn. The
/// second is refused with 32 each time: the final chain would be shorter.
pub fn finalise_far_apart() -> Run {
    let blocks = [TIP, Block(TIP.0 - 100)];
    let mut run = long_chain(Office(0));
    run.fill(|run, turn| run.finalise(Office(0), blocks[turn % 2]));
    run
}

/// Seven offices that lead in turn. The network repeats what it delivers, and
/// an office tries to finalise whenever it has a new signature.
pub fn usual_run() -> Run {
    let schedule = (0..=255).map(|epoch| Office(epoch % 7)).collect();
    let mut run = new_run(7, false, schedule);
    while run.register.sent() + 7 <= MOST_MESSAGES {
        usual_epoch(&mut run);
        run.advance();
    }
    let tip = run.register.last_block();
    run.fill(|run, turn| run.finalise(Office(turn as u8 % 7), tip));
    run
}

fn usual_epoch(run: &mut Run) {
    let leader = run.register.leader();
    let tip = run.register.last_block();
    let proposal = run.propose(leader, tip, 0).expect("the tip is longest");
    let block = run.register.last_block();
    let mut votes = Vec::new();
    for voter in run.trusted().into_iter().filter(|&voter| voter != leader) {
        deliver_twice(run, proposal, voter);
        let vote = run.vote(voter, proposal).expect("the tip is longest");
        run.finalise(voter, block);
        votes.push((voter, vote));
    }
    for (voter, vote) in votes {
        for office in run.trusted().into_iter().filter(|&office| office != voter) {
            deliver_twice(run, vote, office);
            run.register(office, vote);
            run.finalise(office, block);
        }
    }
}

fn deliver_twice(run: &mut Run, message: Message, office: Office) {
    run.deliver(message, office);
    run.deliver(message, office);
}
