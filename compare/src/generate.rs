//! Logs made from seeds, and slips on them: the same seed always gives the same.

mod beginnings;
mod damage;
mod forks;
mod full;
mod heavy;
mod noise;
mod openings;
mod quorums;
mod random;
mod run;
mod sensible;
mod slips;

pub use heavy::{Row, SlipRow, rows, slip_rows};
pub use random::Random;
pub use slips::{SlipCalls, Writing, slip_calls};

/// The log of a seed: a sensible run, two chains that grow in turn, random
/// steps, full tables, first blocks, blocks with just enough signers or damage.
pub fn log(seed: u64) -> Vec<u8> {
    let mut random = Random::new(seed);
    match random.below(100) {
        0..40 => sensible::run(random).log(),
        40..45 => forks::run(random).log(),
        45..60 => noise::run(random).log(),
        60..66 => full::run(random).log(),
        66..71 => beginnings::run(random).log(),
        71..77 => quorums::run(random).log(),
        _ => damage::log(random),
    }
}
