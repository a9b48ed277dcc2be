//! Opening a register: n, the trust word and the schedule, refused with 1 to 4.

use super::{BlockRecord, Epoch, GENESIS, LONGEST_SCHEDULE, MOST_MESSAGES, MOST_OFFICES};
use super::{LocalState, Mark, Mistake, Office, Register};
use crate::refusal::{Refusal, ensure};

/// What an opening takes.
#[derive(Clone, Debug, PartialEq, Eq)]
pub struct Opening {
    /// The number of offices.
    pub n: u8,
    /// Bit i for office i, 1 trusted; bits from n up don't count.
    pub trust: u32,
    /// The leader of each epoch, that of epoch 1 first.
    pub schedule: Vec<Office>,
}

impl Opening {
    pub fn is_trusted(&self, office: Office) -> bool {
        office.0 < self.n && self.trust >> office.0 & 1 == 1
    }

    /// 1 to 4, in that order.
    pub fn check(&self) -> Result<(), Refusal> {
        check_count(self.n)?;
        check_length(self.schedule.len())?;
        for &leader in &self.schedule {
            check_leader(leader, self.n)?;
        }
        check_third(self)
    }
}

/// 1: n not 1 to 32.
pub fn check_count(n: u8) -> Result<(), Refusal> {
    ensure((1..=MOST_OFFICES).contains(&n), Refusal::Count)
}

/// 2: length not 1 to 256.
pub fn check_length(length: usize) -> Result<(), Refusal> {
    ensure((1..=LONGEST_SCHEDULE).contains(&length), Refusal::Schedule)
}

/// 3: a leader ≥ n.
pub fn check_leader(leader: Office, n: u8) -> Result<(), Refusal> {
    ensure(leader.0 < n, Refusal::StrayLeader)
}

/// 4: 3 × untrusted ≥ n.
pub fn check_third(opening: &Opening) -> Result<(), Refusal> {
    let offices = (0..opening.n).map(Office);
    let untrusted = offices
        .filter(|&office| !opening.is_trusted(office))
        .count();
    ensure(3 * untrusted < usize::from(opening.n), Refusal::Third)
}

impl Register {
    /// Fresh: epoch 1, no blocks but genesis, no messages, all ready, all
    /// final blocks 0.
    pub fn open(opening: &Opening) -> Result<Register, Refusal> {
        Register::open_with(opening, None)
    }

    /// The same for a checker that gets one rule wrong.
    pub fn open_with(opening: &Opening, mistake: Option<Mistake>) -> Result<Register, Refusal> {
        opening.check()?;
        let offices = (0..opening.n).map(Office);
        let fresh = LocalState {
            mark: Mark::Ready,
            final_block: GENESIS,
            places: Vec::with_capacity(MOST_MESSAGES),
        };
        let genesis = BlockRecord {
            parent: GENESIS,
            epoch: Epoch(0),
            payload: 0,
        };
        Ok(Register {
            trusted: offices.map(|office| opening.is_trusted(office)).collect(),
            schedule: opening.schedule.clone(),
            epoch: Epoch(1),
            blocks: vec![genesis],
            history: Vec::with_capacity(MOST_MESSAGES),
            local: vec![fresh; usize::from(opening.n)],
            mistake,
        })
    }
}
