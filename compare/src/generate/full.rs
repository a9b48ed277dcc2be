//! Full tables: 255 blocks, 1,024 messages, or both.

use super::noise;
use super::openings::{opening, opening_with_bad};
use super::random::Random;
use super::run::Run;
use super::sensible::{leader_turn, mischief, smooth_epoch};
use crate::packed::LONGEST_LOG;
use crate::register::{Block, Epoch, LAST_BLOCK, MOST_MESSAGES, Message, Office, Opening};
use crate::register::{Kind, Place};

pub fn run(mut random: Random) -> Run {
    let manner = random.below(4);
    let opening = match manner {
        0 => opening(&mut random),
        1 => all_trusted(&mut random),
        _ => opening_with_bad(&mut random),
    };
    let mut run = Run::new(random, opening, LONGEST_LOG);
    let quiet_epochs = run.random.below(3);
    for _ in 0..quiet_epochs {
        smooth_epoch(&mut run);
    }
    match manner {
        0 => blocks_full(&mut run),
        1 => many_honest_messages(&mut run),
        2 => messages_full(&mut run),
        _ => {
            blocks_full(&mut run);
            messages_full(&mut run);
        }
    }
    aftermath(&mut run);
    run
}

/// So many offices that their own messages fill the table.
fn all_trusted(random: &mut Random) -> Opening {
    let n = random.between(28, 32) as u8;
    let leader = |_| Office(random.below(n.into()) as u8);
    let schedule = (0..40).map(leader).collect();
    let trust = u32::MAX;
    Opening { n, trust, schedule }
}

/// Drafts up to 255 blocks, the leader's next one among them; then the leader
/// names it, or a new one that has no room.
fn blocks_full(run: &mut Run) {
    let leader = run.register.leader();
    let parent = match run.register.is_trusted(leader) {
        true => run.longest(leader),
        false => Block(0),
    };
    run.draft(parent, run.register.epoch(), 4242);
    for payload in 0.. {
        if run.register.last_block() == Block(LAST_BLOCK) {
            break;
        }
        let parent = run.any_block();
        let epoch = Epoch(run.random.below(512) as u16);
        run.draft(parent, epoch, payload);
    }
    run.draft(parent, run.register.epoch(), 4242);
    run.draft(parent, run.register.epoch(), 4243);
    run.propose(leader, parent, 4243);
    run.propose(leader, parent, 4242);
    everyone_votes(run);
}

/// A proposal first, then bad messages up to the last or the last but one; then
/// votes and proposals that have no room.
fn messages_full(run: &mut Run) {
    leader_turn(run);
    let untrusted = run.untrusted();
    let left = run.random.below(3);
    while run.register.sent() + left < MOST_MESSAGES && run.register.last_block() > Block(0) {
        let sender = run.random.pick(&untrusted);
        let block = run.random.between(1, run.register.last_block().index());
        run.bad_send(sender, Kind::Vote, sender, Block(block as u8));
    }
    everyone_votes(run);
}

/// Each epoch all offices propose and vote, and no vote arrives.
fn many_honest_messages(run: &mut Run) {
    while run.register.sent() < MOST_MESSAGES && run.register.epoch() < run.register.last_epoch() {
        leader_turn(run);
        everyone_votes(run);
        run.advance();
    }
}

/// The newest proposal is delivered to all, and all vote for it.
fn everyone_votes(run: &mut Run) {
    let proposal = |&message: &Message| run.register.message(message).kind == Kind::Proposal;
    let Some(newest) = run.messages().filter(proposal).last() else {
        return;
    };
    for office in run.trusted() {
        if run.register.place(newest, office) == Place::InTransit {
            run.deliver(newest, office);
        }
        run.vote(office, newest);
    }
}

/// Life goes on with full tables.
fn aftermath(run: &mut Run) {
    run.advance();
    leader_turn(run);
    everyone_votes(run);
    for _ in 0..40 {
        mischief(run);
        let step = noise::step(run);
        run.take(step);
    }
    run.advance();
    leader_turn(run);
}
