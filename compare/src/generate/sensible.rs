//! Sensible runs: epoch by epoch, with forks, late and repeated messages, and
//! bad offices.

use super::noise;
use super::openings::opening;
use super::random::Random;
use super::run::Run;
use crate::register::{Block, Kind, Message, Office, Place, Step};

/// How a run goes, mostly in percents.
struct Habits {
    /// Messages in transit that a round delivers.
    delivered: usize,
    /// Messages in an inbox that a round handles.
    handled: usize,
    /// Rounds in which the bad offices do something.
    mischief: usize,
    /// Steps that are followed by a random one.
    slips: usize,
    /// Rounds in an epoch.
    rounds: usize,
}

pub fn run(mut random: Random) -> Run {
    let opening = opening(&mut random);
    let habits = Habits {
        delivered: random.pick(&[100, 95, 80, 50, 20]),
        handled: random.pick(&[100, 100, 90, 60]),
        mischief: random.pick(&[0, 20, 60]),
        slips: random.pick(&[0, 0, 3, 10]),
        rounds: random.between(1, 3),
    };
    let most_bytes = match random.below(100) {
        0 => 65_536,
        1..10 => 10_000,
        _ => 2_500,
    };
    let mut run = Run::new(random, opening, most_bytes);
    for _ in 1..=run.register.last_epoch().0 {
        if run.fits(&Step::Advance) {
            epoch(&mut run, &habits);
        }
    }
    run
}

/// One whole epoch in which nearly nothing goes wrong, up to its last step.
pub fn smooth_epoch(run: &mut Run) {
    let habits = Habits {
        delivered: 100,
        handled: 100,
        mischief: 0,
        slips: 0,
        rounds: 2,
    };
    epoch(run, &habits);
}

fn epoch(run: &mut Run, habits: &Habits) {
    leader_turn(run);
    for _ in 0..habits.rounds {
        deliveries(run, habits);
        desks(run, habits);
        if run.random.chance(habits.mischief) {
            mischief(run);
        }
    }
    finalisations(run);
    run.advance();
}

/// The leader proposes, or does what a bad leader does.
pub fn leader_turn(run: &mut Run) {
    let leader = run.register.leader();
    if !run.register.is_trusted(leader) {
        return bad_leader(run, leader);
    }
    if run.random.chance(10) {
        let wrong = run.any_block();
        run.propose(leader, wrong, 1);
    }
    let parent = run.longest(leader);
    let payload = run.any_payload();
    run.propose(leader, parent, payload);
}

/// A bad leader sends one block, two of one epoch, or nothing.
fn bad_leader(run: &mut Run, leader: Office) {
    let trusted = run.trusted();
    let victim = run.random.pick(&trusted);
    let parent = run.longest(victim);
    let Some(first) = bad_proposal(run, leader, parent) else {
        return;
    };
    match run.random.below(6) {
        0 => {
            run.bad_send(leader, Kind::Vote, leader, first);
        }
        1 | 2 => {
            bad_proposal(run, leader, parent);
        }
        3 | 4 => second_on_first(run, leader, victim, first),
        _ => {}
    }
}

fn bad_proposal(run: &mut Run, leader: Office, parent: Block) -> Option<Block> {
    let payload = run.any_payload();
    let block = run.draft(parent, run.register.epoch(), payload)?;
    run.bad_send(leader, Kind::Proposal, leader, block)?;
    Some(block)
}

/// All but one vote for the bad leader's first block; the one sees the votes
/// and is then asked to vote for a second block on the first, of one epoch.
fn second_on_first(run: &mut Run, leader: Office, victim: Office, first: Block) {
    let proposal = Message(run.register.sent() as u16 - 1);
    let mut votes = Vec::new();
    votes.extend(run.bad_send(leader, Kind::Vote, leader, first));
    for office in run.trusted() {
        if office != victim {
            run.deliver(proposal, office);
            votes.extend(run.vote(office, proposal));
        }
    }
    for vote in votes {
        run.deliver(vote, victim);
        run.register(victim, vote);
    }
    if bad_proposal(run, leader, first).is_some() {
        let second = Message(run.register.sent() as u16 - 1);
        run.deliver(second, victim);
        run.vote(victim, second);
    }
}

/// Some of the messages in transit arrive, in any order.
fn deliveries(run: &mut Run, habits: &Habits) {
    for office in run.trusted() {
        let mut messages = run.messages_at(Place::InTransit, office);
        run.random.shuffle(&mut messages);
        for message in messages {
            if run.random.chance(habits.delivered) {
                run.deliver(message, office);
                slip(run, habits);
            }
        }
    }
}

/// The offices handle what is in their inboxes.
fn desks(run: &mut Run, habits: &Habits) {
    let mut offices = run.trusted();
    run.random.shuffle(&mut offices);
    for office in offices {
        for message in run.messages_at(Place::Inbox, office) {
            let worth = is_worth_trying(run, office, message) || run.random.chance(4);
            if worth && run.random.chance(habits.handled) {
                handle(run, office, message);
                slip(run, habits);
            }
        }
    }
}

/// Not an old proposal, nor a vote that is in the view already.
fn is_worth_trying(run: &Run, office: Office, message: Message) -> bool {
    let register = &run.register;
    let record = register.message(message);
    match record.kind {
        Kind::Proposal => register.block(record.block).epoch == register.epoch(),
        Kind::Vote => !register
            .view(office)
            .has_signature(record.signer, record.block),
    }
}

/// Votes for a proposal, registers a vote, seldom the other way round.
fn handle(run: &mut Run, office: Office, message: Message) {
    let proposal = run.register.message(message).kind == Kind::Proposal;
    if proposal != run.random.chance(1) {
        run.vote(office, message);
    } else {
        run.register(office, message);
    }
}

fn slip(run: &mut Run, habits: &Habits) {
    if run.random.chance(habits.slips) {
        // Not often an advance: it would end the epoch.
        let step = noise::step(run);
        if step != Step::Advance || run.random.chance(10) {
            run.take(step);
        }
    }
}

/// A bad office votes, replays, forges or drafts.
pub fn mischief(run: &mut Run) {
    let untrusted = run.untrusted();
    if untrusted.is_empty() {
        return;
    }
    let sender = run.random.pick(&untrusted);
    let block = run.any_block();
    match run.random.below(5) {
        0 => {
            run.bad_send(sender, Kind::Vote, sender, run.register.last_block());
        }
        1 => {
            let signer = run.random.pick(&untrusted);
            run.bad_send(sender, Kind::Vote, signer, block);
        }
        2 => replay(run, sender),
        3 => {
            let trusted = run.trusted();
            let signer = run.random.pick(&trusted);
            let kind = run.random.pick(&[Kind::Proposal, Kind::Vote]);
            run.bad_send(sender, kind, signer, block);
        }
        _ => {
            let payload = run.any_payload();
            run.draft(block, run.register.epoch(), payload);
        }
    }
}

/// Sends a message of the history again.
fn replay(run: &mut Run, sender: Office) {
    let sent = run.register.sent();
    if sent > 0 {
        let message = Message(run.random.below(sent) as u16);
        let record = *run.register.message(message);
        run.bad_send(sender, record.kind, record.signer, record.block);
    }
}

/// Offices try to finalise what looks final to them, seldom any block. Some name
/// the same block once more, or go back to an older one.
fn finalisations(run: &mut Run) {
    for office in run.trusted() {
        if run.random.chance(60) {
            let block = run.longest(office);
            finalise(run, office, block);
        }
        if run.random.chance(15) {
            let block = run.any_block();
            run.finalise(office, block);
        }
        if run.random.chance(15) {
            go_back(run, office);
        }
    }
}

/// An office names a block, and sometimes the same one again.
pub fn finalise(run: &mut Run, office: Office, block: Block) {
    run.finalise(office, block);
    if run.random.chance(10) {
        run.finalise(office, block);
    }
}

/// An office names a block of its final chain, which often ends an older run of
/// three.
pub fn go_back(run: &mut Run, office: Office) {
    if let Some(block) = run.any_final_block(office) {
        run.finalise(office, block);
    }
}
