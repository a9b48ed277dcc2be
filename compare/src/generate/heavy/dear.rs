//! The dearest votes known. Each reads every message for a signature, gathers a
//! view of three signers for each block, and passes nearly every block, counting
//! its signers; a checker that climbs a chain for each search passes it twice.

use super::new_run;
use crate::generate::run::Run;
use crate::register::{Block, Epoch, Kind, Message, MessageRecord, Office};

/// The last block of a long chain.
const TIP: Block = Block(251);
/// A second block on the tip's parent, below which a search for a longer chain
/// would pass all blocks once more.
const TWIN: Block = Block(252);
/// The block on the tip that is voted for.
const OFFERED: Block = Block(253);

const BAD: Office = Office(3);

/// A signature is looked for in so many messages at once.
const CHUNK: usize = 64;

/// There are 1,024 messages, and each vote is refused with 26, after a search
/// that finds no longer chain.
pub fn votes() -> Run {
    let mut growth = Growth::new();
    for _ in 1..TIP.0 {
        let votes = growth.ballot();
        growth.register(votes);
        growth.run.advance();
    }
    let for_tip = growth.ballot();
    growth.run.advance();
    let for_twin = growth.ballot();
    growth.register(for_tip);
    growth.register(for_twin);
    growth.run.advance();

    let Growth { mut run, offer, .. } = growth;
    for voter in run.trusted() {
        run.deliver(offer, voter);
    }
    run.fill(|run, turn| {
        run.vote(Office(turn as u8 % 3), offer);
    });
    run
}

/// The chain and its twin in the making. The bad office leads all epochs.
struct Growth {
    run: Run,
    /// Those of the blocks from 1 up, some of them sent before their epochs.
    proposals: Vec<Message>,
    /// The proposal of the block that is voted for in the end.
    offer: Message,
    /// The messages about that block, the offer among them.
    offers: usize,
}

impl Growth {
    fn new() -> Growth {
        let mut run = new_run(4, true, vec![BAD; OFFERED.index()]);
        draft_blocks(&mut run);
        let offer = run.bad_send(BAD, Kind::Proposal, BAD, OFFERED);
        Growth {
            run,
            proposals: Vec::new(),
            offer: offer.expect("there is room"),
            offers: 1,
        }
    }

    /// The three trusted offices vote, in any order, for the block that has the
    /// epoch's number. The bad office's messages come between their votes, so
    /// that no rule says whose message comes next.
    fn ballot(&mut self) -> Vec<Message> {
        let mut voters = self.run.trusted();
        self.run.random.shuffle(&mut voters);
        let mut votes = Vec::new();
        for voter in voters {
            self.send_proposals();
            self.send_about_offered();
            let proposal = self.proposals[usize::from(self.run.register.epoch().0) - 1];
            self.run.deliver(proposal, voter);
            let vote = self.run.vote(voter, proposal);
            votes.push(vote.expect("the parent is longest"));
        }
        votes
    }

    /// The epoch's proposal, if it isn't sent yet, and by chance later ones.
    fn send_proposals(&mut self) {
        let due = usize::from(self.run.register.epoch().0);
        while self.proposals.len() < due
            || self.proposals.len() < TWIN.index() && self.run.random.chance(25)
        {
            let block = Block(self.proposals.len() as u8 + 1);
            let proposal = self.run.bad_send(BAD, Kind::Proposal, BAD, block);
            self.proposals.push(proposal.expect("there is room"));
        }
    }

    /// One message of each chunk is the bad office's about the block that is
    /// offered, so that a search for its signature there reads them all.
    fn send_about_offered(&mut self) {
        if self.run.register.sent() >= CHUNK * self.offers {
            self.run.bad_send(BAD, Kind::Vote, BAD, OFFERED);
            self.offers += 1;
        }
    }

    /// Each vote is registered by one other office: the next one or the next but
    /// one, in turn along a chain. With its own vote and the proposal, each
    /// office then has three signers of a block, and others than of its parent.
    fn register(&mut self, votes: Vec<Message>) {
        for vote in votes {
            let MessageRecord { signer, block, .. } = *self.run.register.message(vote);
            let parent = self.run.register.block(block).parent;
            let reader = Office((signer.0 + 1 + parent.0 % 2) % 3);
            self.run.deliver(vote, reader);
            self.run.register(reader, vote);
        }
    }
}

/// All blocks, each of the epoch that has its number.
fn draft_blocks(run: &mut Run) {
    for number in 1..=OFFERED.0 {
        let parent = match Block(number) {
            TWIN => Block(TIP.0 - 1),
            OFFERED => TIP,
            _ => Block(number - 1),
        };
        run.draft(parent, Epoch(number.into()), 0);
    }
}
