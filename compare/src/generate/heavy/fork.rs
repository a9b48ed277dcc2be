//! Logs on two chains of 125 blocks that grow in turn, both notarised in the
//! views of two offices.

use super::new_run;
use crate::generate::forks::Fork;
use crate::generate::run::Run;
use crate::register::{Block, Kind, LAST_BLOCK, MOST_MESSAGES, Office};

const BLOCKS_OF_A_CHAIN: usize = 125;
const BAD: Office = Office(3);

/// The fork, and an epoch after it that has this leader. The bad office leads
/// all epochs before.
fn long_fork(last_leader: Office) -> (Run, Fork) {
    let mut schedule = vec![BAD; 2 * BLOCKS_OF_A_CHAIN];
    schedule.push(last_leader);
    let mut run = new_run(4, true, schedule);
    let mut fork = Fork::new(&run);
    for _ in 0..BLOCKS_OF_A_CHAIN {
        fork.grow(&mut run);
    }
    (run, fork)
}

/// The fork alone.
pub fn growing() -> Run {
    long_fork(BAD).0
}

/// One more block is proposed for each chain. Then there are 1,024 messages, and
/// each vote is refused with 26, after a search that finds no longer chain.
pub fn votes() -> Run {
    let (mut run, fork) = long_fork(BAD);
    let proposals = [0, 1].map(|chain| fork.offer(&mut run, chain).expect("there is room"));
    while run.register.sent() < MOST_MESSAGES {
        run.bad_send(BAD, Kind::Vote, BAD, fork.tips[0]);
    }
    run.fill(|run, turn| {
        run.vote(fork.voters[turn % 2], proposals[turn / 2 % 2]);
    });
    run
}

/// There are 255 blocks, and each proposal on one of the two chains is refused
/// with 25, after a search that finds no longer chain.
pub fn proposals() -> Run {
    let leader = Office(0);
    let (mut run, fork) = long_fork(leader);
    let mut payloads = 0..;
    let mut new_payload = || payloads.next().expect("payloads enough");
    while run.register.last_block() < Block(LAST_BLOCK) {
        run.draft(fork.tips[0], run.register.epoch(), new_payload());
    }
    run.fill(|run, turn| {
        run.propose(leader, fork.tips[turn % 2], new_payload());
    });
    run
}
