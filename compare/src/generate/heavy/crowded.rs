//! Finalise steps of an office where nearly all messages are about the two
//! newest blocks of the chain, in no order.

use super::new_run;
use crate::generate::run::Run;
use crate::register::{Block, Kind, MOST_MESSAGES, Message, Office};

const OLDEST: Block = Block(1);
const MIDDLE: Block = Block(2);
const NEWEST: Block = Block(3);

/// The office that tries to finalise.
const READER: Office = Office(0);
const VOTERS: [Office; 2] = [Office(1), Office(2)];
/// It leads all epochs.
const BAD: Office = Office(3);

/// The two newest blocks are notarised in the reader's view and the oldest is
/// not, so that each step is refused with 21 once all three have been looked at.
pub fn finalise() -> Run {
    let mut run = new_run(4, true, vec![BAD; 4]);
    for block in [OLDEST, MIDDLE, NEWEST] {
        grow(&mut run, block);
        run.advance();
    }
    while run.register.sent() < MOST_MESSAGES {
        let block = run.random.pick(&[MIDDLE, NEWEST]);
        run.bad_send(BAD, Kind::Vote, BAD, block);
    }
    run.fill(|run, _| run.finalise(READER, NEWEST));
    run
}

/// A block that both voters vote for, and see notarised.
fn grow(run: &mut Run, block: Block) {
    run.draft(Block(block.0 - 1), run.register.epoch(), 0);
    let proposal = run.bad_send(BAD, Kind::Proposal, BAD, block);
    let proposal = proposal.expect("there is room");
    let votes = VOTERS.map(|voter| {
        run.deliver(proposal, voter);
        run.vote(voter, proposal).expect("the parent is longest")
    });
    enter(run, votes[1], VOTERS[0]);
    enter(run, votes[0], VOTERS[1]);
    if block != OLDEST {
        let third = run.bad_send(BAD, Kind::Vote, BAD, block);
        for vote in [votes[0], votes[1], third.expect("there is room")] {
            enter(run, vote, READER);
        }
    }
}

/// The vote comes into the office's view.
fn enter(run: &mut Run, vote: Message, office: Office) {
    run.deliver(vote, office);
    run.register(office, vote);
}
