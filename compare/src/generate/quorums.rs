//! Quorums: each office sees just enough signers of a block, or one too few, so
//! that one signer decides what it may do in the next epoch and what is final
//! for it. What is final gets more signers in the end.

use super::openings::opening_of_many;
use super::random::Random;
use super::run::Run;
use crate::packed::LONGEST_LOG;
use crate::register::{Block, GENESIS, Kind, Message, Office, Place, is_quorum};

/// Two to four epochs, mostly with a block on the block before.
pub fn run(mut random: Random) -> Run {
    let epochs = random.pick(&[2, 2, 3, 4]);
    let opening = opening_of_many(&mut random, epochs);
    let mut run = Run::new(random, opening, LONGEST_LOG);
    let mut tip = GENESIS;
    for _ in 0..epochs {
        if let Some(proposal) = offer(&mut run, tip) {
            ballot(&mut run, tip, proposal);
            tip = run.register.message(proposal).block;
            everyone_gathers(&mut run, tip);
        }
        run.advance();
    }
    late_votes(&mut run);
    run
}

/// The leader proposes a block on the tip. Sometimes it tries the tip's parent
/// first, which is longest only for those who see too few signers of the tip.
fn offer(run: &mut Run, tip: Block) -> Option<Message> {
    let payload = run.any_payload();
    if run.random.chance(15) {
        let parent = run.register.block(tip).parent;
        let proposal = propose(run, parent, payload);
        if proposal.is_some() {
            return proposal;
        }
    }
    propose(run, tip, payload).or_else(|| {
        let leader = run.register.leader();
        complete(run, leader, tip);
        propose(run, tip, payload)
    })
}

fn propose(run: &mut Run, parent: Block, payload: u16) -> Option<Message> {
    let leader = run.register.leader();
    if run.register.is_trusted(leader) {
        return run.propose(leader, parent, payload);
    }
    let block = run.draft(parent, run.register.epoch(), payload)?;
    run.bad_send(leader, Kind::Proposal, leader, block)
}

/// All trusted offices try to vote, in any order. Most of those that see too few
/// signers of the tip get one more and try again. The bad offices' votes, the
/// leader's own among them, come between.
fn ballot(run: &mut Run, tip: Block, proposal: Message) {
    let block = run.register.message(proposal).block;
    let leader = run.register.leader();
    let (mut voters, mut bad) = (run.trusted(), run.untrusted());
    voters.retain(|&voter| voter != leader);
    run.random.shuffle(&mut voters);
    run.random.shuffle(&mut bad);
    for voter in voters {
        if run.random.chance(40) {
            bad_vote(run, bad.pop(), block);
        }
        run.deliver(proposal, voter);
        if run.vote(voter, proposal).is_none() && run.random.chance(70) {
            complete(run, voter, tip);
            run.vote(voter, proposal);
        }
    }
    while !bad.is_empty() {
        bad_vote(run, bad.pop(), block);
    }
}

fn bad_vote(run: &mut Run, bad: Option<Office>, block: Block) {
    if let Some(bad) = bad {
        run.bad_send(bad, Kind::Vote, bad, block);
    }
}

/// Each trusted office gets votes for the block and tries to finalise it; some
/// that have too few get one more and try again.
fn everyone_gathers(run: &mut Run, block: Block) {
    let mut offices = run.trusted();
    run.random.shuffle(&mut offices);
    for office in offices {
        gather(run, office, block);
        run.finalise(office, block);
        if run.random.chance(25) {
            complete(run, office, block);
            run.finalise(office, block);
        }
    }
}

/// An office registers votes for a block until one signer is lacking. Then a
/// last vote, often that of the last office, is registered too, or stays in the
/// inbox or in transit, or one comes that is of a signer it has.
fn gather(run: &mut Run, office: Office, block: Block) {
    let mut votes = missing_votes(run, office, block);
    run.random.shuffle(&mut votes);
    if run.random.chance(50) {
        let last = Office(run.register.n() - 1);
        votes.sort_by_key(|&vote| run.register.message(vote).signer != last);
    }
    votes.truncate(lacking(run, office, block));
    let Some((&last, others)) = votes.split_first() else {
        return;
    };
    for &vote in others {
        enter(run, office, vote);
    }
    match run.random.below(10) {
        0..5 => enter(run, office, last),
        5..7 => run.deliver(last, office),
        7 => {}
        _ => repeat_signature(run, office, block),
    }
}

/// Each office gets none, some or all of the votes that it lacks for its final
/// block, and leaves a few of them in its inbox.
fn late_votes(run: &mut Run) {
    for office in run.trusted() {
        let last = run.register.final_block(office);
        let mut votes = missing_votes(run, office, last);
        run.random.shuffle(&mut votes);
        let some = run.random.below(votes.len() + 1);
        let late = run.random.pick(&[0, some, votes.len()]);
        for &vote in &votes[..late] {
            match run.random.chance(95) {
                true => enter(run, office, vote),
                false => run.deliver(vote, office),
            }
        }
    }
}

/// Votes for a block that an office may still register, one of each signer.
fn missing_votes(run: &Run, office: Office, block: Block) -> Vec<Message> {
    let mut signers = run.register.view(office).signers(block);
    let mut votes = run.messages_at(Place::InTransit, office);
    votes.extend(run.messages_at(Place::Inbox, office));
    votes.retain(|&vote| {
        let record = run.register.message(vote);
        let is_vote = (record.kind, record.block) == (Kind::Vote, block);
        let missing = is_vote && signers >> record.signer.0 & 1 == 0;
        signers |= u32::from(missing) << record.signer.0;
        missing
    });
    votes
}

/// How many signers a block lacks in an office's view to be notarised.
fn lacking(run: &Run, office: Office, block: Block) -> usize {
    let signers = run.register.view(office).notarised(block).signers;
    let enough = |&more: &u32| is_quorum(signers + more, run.register.n());
    (0..).find(enough).expect("all are a quorum") as usize
}

/// The vote comes into the office's view.
fn enter(run: &mut Run, office: Office, vote: Message) {
    if run.register.place(vote, office) == Place::InTransit {
        run.deliver(vote, office);
    }
    run.register(office, vote);
}

/// A trusted office registers the votes for a block that it lacks, if they are
/// to be had.
fn complete(run: &mut Run, office: Office, block: Block) {
    if block == GENESIS || !run.register.is_trusted(office) {
        return;
    }
    let mut votes = missing_votes(run, office, block);
    votes.truncate(lacking(run, office, block));
    for vote in votes {
        enter(run, office, vote);
    }
}

/// A bad office sends a vote of a signer whom the office has for this block: the
/// bad leader's, whose proposal is in the view, or else one that it repeats. The
/// office tries to register it.
fn repeat_signature(run: &mut Run, office: Office, block: Block) {
    let view = run.register.view(office);
    let offices = (0..run.register.n()).map(Office);
    let signers: Vec<Office> = offices.filter(|&q| view.has_signature(q, block)).collect();
    let bad = run.untrusted();
    if bad.is_empty() || signers.is_empty() {
        return;
    }
    let sender = run.random.pick(&bad);
    let leader = run.register.leader();
    let signer = match bad.contains(&leader) && signers.contains(&leader) {
        true => leader,
        false => run.random.pick(&signers),
    };
    if let Some(vote) = run.bad_send(sender, Kind::Vote, signer, block) {
        enter(run, office, vote);
    }
}
