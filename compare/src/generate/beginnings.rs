//! Beginnings: the first blocks of a register, with epochs left out before and
//! between them, beside a chain on a block of epoch 0 that isn't genesis, or
//! seen only in part by an office.

use super::forks::Fork;
use super::openings::opening_led_by_bad;
use super::random::Random;
use super::run::Run;
use super::sensible::smooth_epoch;
use crate::packed::LONGEST_LOG;
use crate::register::{Block, Epoch, GENESIS, Kind, Message};

/// Epochs are left out, or blocks are seen in part.
pub fn run(mut random: Random) -> Run {
    match random.below(5) {
        0 => seen_in_part(random),
        _ => epochs_left_out(random),
    }
}

/// Two to four blocks if all goes well. Often the first isn't of epoch 1, so
/// that the first two and genesis are no run of three.
fn epochs_left_out(mut random: Random) -> Run {
    let before = random.pick(&[0, 1, 1, 2, 3]);
    let between = random.pick(&[0, 0, 0, 1]);
    let blocks = random.between(2, 4);
    let opening = opening_led_by_bad(&mut random, 0, before + between + blocks);
    let mut run = Run::new(random, opening, LONGEST_LOG);
    let rival = chain_on_epoch_0(&mut run);
    pause(&mut run, before);
    smooth_epoch(&mut run);
    finalise_rival(&mut run, rival);
    pause(&mut run, between);
    for _ in 1..blocks {
        smooth_epoch(&mut run);
    }
    finalise_rival(&mut run, rival);
    run
}

/// So many epochs without a block.
fn pause(run: &mut Run, epochs: usize) {
    for _ in 0..epochs {
        run.advance();
    }
}

/// Blocks of epochs 1 and 2 on a block of epoch 0 that stands on genesis. All
/// bad offices sign them; no trusted one will, since no chain with the block of
/// epoch 0 is valid. Gives the last block.
fn chain_on_epoch_0(run: &mut Run) -> Block {
    let mut last = GENESIS;
    for epoch in [0, 1, 2].map(Epoch) {
        let payload = run.any_payload();
        last = run.draft(last, epoch, payload).expect("there is room");
        for bad in run.untrusted() {
            run.bad_send(bad, Kind::Vote, bad, last);
            if run.random.chance(30) {
                run.bad_send(bad, Kind::Proposal, bad, last);
            }
        }
    }
    last
}

/// Some offices try to finalise on the chain that isn't valid.
fn finalise_rival(run: &mut Run, rival: Block) {
    for office in run.trusted() {
        if run.random.chance(40) {
            run.finalise(office, rival);
        }
    }
}

/// The first two to four blocks, a bad leader's. An office that doesn't vote
/// gets the votes for them, those for one block after those for another, and
/// names the last block time and again.
fn seen_in_part(mut random: Random) -> Run {
    let length = random.pick(&[2, 2, 2, 3, 4]);
    let opening = opening_led_by_bad(&mut random, length, 1);
    let mut run = Run::new(random, opening, LONGEST_LOG);
    let mut fork = Fork::new(&run);
    let mut blocks = Vec::new();
    for _ in 0..length {
        fork.grow_one(&mut run, 0);
        blocks.push(fork.tips[0]);
    }
    let mut offices = run.trusted().into_iter();
    let outsider = offices.find(|office| !fork.voters.contains(office));
    let outsider = outsider.expect("not all have to vote");
    run.random.shuffle(&mut blocks);
    for block in blocks {
        for vote in votes_for(&mut run, block) {
            run.deliver(vote, outsider);
            run.register(outsider, vote);
            run.finalise(outsider, fork.tips[0]);
        }
    }
    run
}

/// The votes for a block, among them those of all bad offices, sent now.
fn votes_for(run: &mut Run, block: Block) -> Vec<Message> {
    for bad in run.untrusted() {
        run.bad_send(bad, Kind::Vote, bad, block);
    }
    let is_vote = |&message: &Message| {
        let record = run.register.message(message);
        (record.kind, record.block) == (Kind::Vote, block)
    };
    run.messages().filter(is_vote).collect()
}
