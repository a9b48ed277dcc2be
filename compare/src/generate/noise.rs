//! Random steps, their fields in and out of range.

use super::openings::opening;
use super::random::Random;
use super::run::Run;
use crate::packed::LONGEST_LOG;
use crate::register::{Block, Epoch, Kind, Message, Office, STEP_KINDS, Step};

/// Random steps only.
pub fn run(mut random: Random) -> Run {
    let opening = opening(&mut random);
    let steps = match random.below(10) {
        0 => 0,
        1 => random.below(2000),
        _ => random.below(200),
    };
    let mut run = Run::new(random, opening, LONGEST_LOG);
    for _ in 0..steps {
        let step = step(&mut run);
        run.take(step);
    }
    run
}

/// A random step that fits its fields' widths.
pub fn step(run: &mut Run) -> Step {
    match run.random.between(1, STEP_KINDS.into()) {
        1 => Step::Propose {
            office: leader_or_any(run),
            parent: block(run),
            payload: run.any_payload(),
        },
        2 => Step::Vote {
            office: office(run),
            message: message(run),
        },
        3 => Step::Register {
            office: office(run),
            message: message(run),
        },
        4 => Step::Finalise {
            office: office(run),
            block: block(run),
        },
        5 => Step::Deliver {
            message: message(run),
            office: office(run),
        },
        6 => bad_send(run),
        7 => Step::Draft {
            parent: block(run),
            epoch: epoch(run),
            payload: run.any_payload(),
        },
        _ => Step::Advance,
    }
}

fn bad_send(run: &mut Run) -> Step {
    let untrusted = run.untrusted();
    let sender = match untrusted.is_empty() || run.random.chance(20) {
        true => office(run),
        false => run.random.pick(&untrusted),
    };
    Step::BadSend {
        sender,
        kind: run.random.pick(&[Kind::Proposal, Kind::Vote]),
        signer: office(run),
        block: block(run),
    }
}

fn leader_or_any(run: &mut Run) -> Office {
    match run.random.chance(60) {
        true => run.register.leader(),
        false => office(run),
    }
}

fn office(run: &mut Run) -> Office {
    let bound = match run.random.chance(92) {
        true => run.register.n().into(),
        false => 32,
    };
    Office(run.random.below(bound) as u8)
}

fn block(run: &mut Run) -> Block {
    match run.random.below(20) {
        0 => Block(run.random.below(256) as u8),
        1 => Block(run.register.last_block().0.saturating_add(1)),
        _ => run.any_block(),
    }
}

fn message(run: &mut Run) -> Message {
    let sent = run.register.sent();
    let bound = match run.random.below(20) {
        0 => 1024,
        1 => (sent + 1).min(1024),
        _ => sent.max(1),
    };
    Message(run.random.below(bound) as u16)
}

fn epoch(run: &mut Run) -> Epoch {
    let Epoch(now) = run.register.epoch();
    match run.random.below(4) {
        0 => Epoch(run.random.below(512) as u16),
        1 => Epoch((now + run.random.below(3) as u16).saturating_sub(1)),
        _ => Epoch(now),
    }
}
