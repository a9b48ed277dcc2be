//! Logs to measure with, nearly all of the greatest length.

mod chain;
mod crowded;
mod dear;
mod fork;
mod offices;
mod slips;
mod tables;

pub use slips::{SlipRow, slip_rows};

use super::random::Random;
use super::run::Run;
use crate::packed::{LONGEST_LOG, read_log};
use crate::refusal::Refusal;
use crate::register::{Office, Opening, Register};

/// A log and what it is said to be: so many of a hundred steps are of a kind
/// and have one of these outcomes (0 accepted, else the refusal).
pub struct Row {
    pub name: &'static str,
    pub log: Vec<u8>,
    pub kinds: &'static [u8],
    pub outcomes: &'static [u8],
    pub percent: usize,
}

const PROPOSE: &[u8] = &[1];
const VOTE: &[u8] = &[2];
const REGISTER: &[u8] = &[3];
const FINALISE: &[u8] = &[4];
const DELIVER: &[u8] = &[5];
const BAD_SEND: &[u8] = &[6];
const DRAFT: &[u8] = &[7];
const ADVANCE: &[u8] = &[8];
const ANY: &[u8] = &[1, 2, 3, 4, 5, 6, 7, 8];

/// The outcomes of a vote that was past the search for a longer chain.
const SEARCHED: &[u8] = &[0, 20, 26];

#[rustfmt::skip]
pub fn rows() -> Vec<Row> {
    let row = |name, run: Run, kinds, outcomes, percent| Row {
        name, log: run.log(), kinds, outcomes, percent,
    };
    vec![
        row("deliveries", tables::deliveries(), DELIVER, &[0], 95),
        row("votes, full tables", chain::votes(), VOTE, SEARCHED, 80),
        row("votes on a fork", fork::votes(), VOTE, &[26], 85),
        row("the dearest votes", dear::votes(), VOTE, &[26], 85),
        row("votes, 32 offices", offices::votes(), VOTE, &[26], 50),
        row("proposals refused with 19", chain::proposals(), PROPOSE, &[19], 75),
        row("proposals on a fork", fork::proposals(), PROPOSE, &[25], 80),
        row("the growing of a fork", fork::growing(), ANY, &[0], 100),
        row("finalise, two offices", chain::two_offices_finalise(), FINALISE, &[0], 85),
        row("finalise, 100 blocks apart", chain::finalise_far_apart(), FINALISE, &[0, 32], 85),
        row("finalise, crowded blocks", crowded::finalise(), FINALISE, &[21], 85),
        row("registers refused with 18", tables::registers(), REGISTER, &[18], 90),
        row("bad sends refused with 22", tables::bad_sends(), BAD_SEND, &[22], 95),
        row("drafts of the last block", tables::drafts(), DRAFT, &[0], 100),
        row("131,065 advances", tables::advances(), ADVANCE, &[24], 99),
        row("a usual run, 7 offices", chain::usual_run(), ANY, &[0], 50),
    ]
}

impl Row {
    /// How many steps the log has, and how many are as the row says.
    pub fn count(&self) -> Result<(usize, usize), Refusal> {
        let log = read_log(&self.log)?;
        let mut register = Register::open(&log.opening)?;
        let mut fitting = 0;
        for step in &log.steps {
            let outcome = register.step(step).err().map_or(0, Refusal::number);
            if self.kinds.contains(&step.kind()) && self.outcomes.contains(&outcome) {
                fitting += 1;
            }
        }
        Ok((log.steps.len(), fitting))
    }

    pub fn holds(&self) -> bool {
        let enough = |(steps, fitting)| 100 * fitting >= self.percent * steps;
        self.count().is_ok_and(enough)
    }
}

/// A run of n offices, the last of them untrusted if `bad_last`.
fn new_run(n: u8, bad_last: bool, schedule: Vec<Office>) -> Run {
    let trust = match bad_last {
        true => (1 << (n - 1)) - 1,
        false => u32::MAX,
    };
    let opening = Opening { n, trust, schedule };
    Run::new(Random::new(1), opening, LONGEST_LOG)
}
