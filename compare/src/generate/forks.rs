//! Forks: two chains that grow in turn, both notarised in the same views.

use super::noise;
use super::openings::opening_led_by_bad;
use super::random::Random;
use super::run::Run;
use super::sensible::{finalise, go_back, smooth_epoch};
use crate::packed::LONGEST_LOG;
use crate::register::{Block, GENESIS, Kind, Message, MessageRecord, Office, is_quorum};

/// Two chains of a bad leader, and trusted offices that vote for both.
pub struct Fork {
    leader: Office,
    /// With the leader they are a quorum: at first not one too many.
    pub voters: Vec<Office>,
    /// The last blocks of the two chains.
    pub tips: [Block; 2],
}

impl Fork {
    /// No block yet. The leader of the current epoch is bad.
    pub fn new(run: &Run) -> Fork {
        let n = run.register.n();
        let mut voters = run.trusted();
        let enough = |&voters: &u32| is_quorum(voters + 1, n);
        let enough = (0..).find(enough).expect("all are a quorum");
        voters.truncate(enough as usize);
        Fork {
            leader: run.register.leader(),
            voters,
            tips: [GENESIS; 2],
        }
    }

    /// Two epochs, in which each chain gets a notarised block. The votes of the
    /// first are registered only after those for the second, so that the chains
    /// are equally long whenever an office votes.
    pub fn grow(&mut self, run: &mut Run) {
        let first = self.extend(run, 0);
        run.advance();
        let second = self.extend(run, 1);
        self.register(run, first);
        self.register(run, second);
        run.advance();
    }

    /// The leader proposes a block on the tip of a chain, and the voters get it.
    pub fn offer(&self, run: &mut Run, chain: usize) -> Option<Message> {
        let block = run.draft(self.tips[chain], run.register.epoch(), 0)?;
        let proposal = run.bad_send(self.leader, Kind::Proposal, self.leader, block)?;
        for &voter in &self.voters {
            run.deliver(proposal, voter);
        }
        Some(proposal)
    }

    /// A block for a chain and the votes for it. The tip stays if it gets none.
    fn extend(&mut self, run: &mut Run, chain: usize) -> Vec<Message> {
        let Some(proposal) = self.offer(run, chain) else {
            return Vec::new();
        };
        let vote = |&voter: &Office| run.vote(voter, proposal);
        let votes: Vec<Message> = self.voters.iter().filter_map(vote).collect();
        if !votes.is_empty() {
            self.tips[chain] = run.register.message(proposal).block;
        }
        votes
    }

    /// Each voter registers the others' votes, but of those that come after a
    /// quorum only some.
    fn register(&self, run: &mut Run, votes: Vec<Message>) {
        for vote in votes {
            for &voter in &self.voters {
                let MessageRecord { signer, block, .. } = *run.register.message(vote);
                let enough = run.register.view(voter).notarised(block).holds;
                if voter != signer && !(enough && run.random.chance(50)) {
                    run.deliver(vote, voter);
                    run.register(voter, vote);
                }
            }
        }
    }

    /// An epoch for one chain, up to the last step.
    pub fn grow_one(&mut self, run: &mut Run, chain: usize) {
        let votes = self.extend(run, chain);
        self.register(run, votes);
        run.advance();
    }

    /// So many blocks that both chains have; then most voters try to finalise.
    fn grow_common(&mut self, run: &mut Run, blocks: usize) {
        for _ in 0..blocks {
            self.grow_one(run, 0);
        }
        self.tips[1] = self.tips[0];
        for &voter in &self.voters {
            if run.random.chance(70) {
                finalise(run, voter, self.tips[0]);
            }
        }
    }
}

/// A common chain, then a fork, then a race in which one chain gets ahead, then
/// epochs with any leaders. Where all trusted offices vote, the signers in a
/// view differ from block to block.
pub fn run(mut random: Random) -> Run {
    let common = random.below(7);
    let pairs = match random.below(20) {
        0 => 120,
        _ => random.between(1, 20),
    };
    let race = random.below(6);
    let usual = random.below(6);
    let opening = opening_led_by_bad(&mut random, common + 2 * pairs + race, usual);
    let mut run = Run::new(random, opening, LONGEST_LOG);
    let mut fork = Fork::new(&run);
    if run.random.chance(50) {
        fork.voters = run.trusted();
    }
    fork.grow_common(&mut run, common);
    for _ in 0..pairs {
        fork.grow(&mut run);
        run.random.shuffle(&mut fork.voters);
        disturb(&mut run, &fork);
    }
    for _ in 0..race {
        let chain = run.random.below(2);
        fork.grow_one(&mut run, chain);
        disturb(&mut run, &fork);
    }
    for _ in 0..usual {
        smooth_epoch(&mut run);
    }
    run
}

/// Sometimes a voter tries to finalise, sometimes one goes back to an older run
/// of three, sometimes a random step is taken.
fn disturb(run: &mut Run, fork: &Fork) {
    if run.random.chance(30) {
        let voter = run.random.pick(&fork.voters);
        let tip = run.random.pick(&fork.tips);
        finalise(run, voter, tip);
    }
    if run.random.chance(30) {
        let voter = run.random.pick(&fork.voters);
        go_back(run, voter);
    }
    if run.random.chance(15) {
        let step = noise::step(run);
        run.take(step);
    }
}
