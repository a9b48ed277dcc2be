//! Logs on full tables, without chains.

use super::new_run;
use crate::generate::run::Run;
use crate::register::{Epoch, GENESIS, Kind, LAST_BLOCK, MOST_MESSAGES, Message, Office};

/// The run has sent 1,024 messages, all of them votes of its bad last office
/// for one block.
fn messages_on_one_block(n: u8) -> Run {
    let bad = Office(n - 1);
    let mut run = new_run(n, true, vec![Office(0)]);
    let block = run.draft(GENESIS, run.register.epoch(), 0);
    let block = block.expect("the first block");
    for _ in 0..MOST_MESSAGES {
        run.bad_send(bad, Kind::Vote, bad, block);
    }
    run
}

/// 1,024 messages of one bad office, delivered to 31 others.
pub fn deliveries() -> Run {
    let mut run = messages_on_one_block(32);
    for message in run.messages() {
        for office in run.trusted() {
            run.deliver(message, office);
        }
    }
    run
}

/// An inbox of 1,024 votes of one office for one block. The last of them is
/// registered, and then none of the others can be.
pub fn registers() -> Run {
    let office = Office(0);
    let mut run = messages_on_one_block(4);
    for message in run.messages() {
        run.deliver(message, office);
    }
    let last = MOST_MESSAGES - 1;
    run.register(office, Message(last as u16));
    run.fill(|run, turn| run.register(office, Message((turn % last) as u16)));
    run
}

/// A trusted office's proposal, repeated up to 1,024 messages; then votes for
/// the same block, forged in that office's name.
pub fn bad_sends() -> Run {
    let (signer, bad) = (Office(0), Office(3));
    let mut run = new_run(4, true, vec![signer]);
    run.propose(signer, GENESIS, 0);
    let block = run.register.last_block();
    while run.register.sent() < MOST_MESSAGES {
        run.bad_send(bad, Kind::Proposal, signer, block);
    }
    run.fill(|run, _| {
        run.bad_send(bad, Kind::Vote, signer, block);
    });
    run
}

/// 255 blocks that differ only in their payloads, and then the last of them
/// named again and again.
pub fn drafts() -> Run {
    let last = u16::from(LAST_BLOCK);
    let mut run = new_run(1, false, vec![Office(0)]);
    for payload in 1..last {
        run.draft(GENESIS, Epoch(1), payload);
    }
    run.fill(|run, _| {
        run.draft(GENESIS, Epoch(1), last);
    });
    run
}

/// As many steps as a log can have.
pub fn advances() -> Run {
    let mut run = new_run(1, false, vec![Office(0)]);
    run.fill(|run, _| run.advance());
    run
}
