//! Openings that are not refused.

use super::random::Random;
use crate::register::{LONGEST_SCHEDULE, MOST_OFFICES, Office, Opening};

/// An opening of any size, mostly small.
pub fn opening(random: &mut Random) -> Opening {
    let n = match random.below(100) {
        0..5 => 1,
        5..10 => 2,
        10..25 => 3,
        25..50 => 4,
        50..85 => random.between(5, 7) as u8,
        _ => random.between(8, MOST_OFFICES.into()) as u8,
    };
    let most_untrusted = usize::from((n - 1) / 3);
    let untrusted = match random.below(3) {
        0 => random.below(most_untrusted + 1),
        _ => most_untrusted,
    };
    opening_of(random, n, untrusted)
}

/// An opening with bad offices, as many as can be.
pub fn opening_with_bad(random: &mut Random) -> Opening {
    let n = random.pick(&[4, 4, 5, 7, 7, 10, 32]);
    opening_of(random, n, usize::from((n - 1) / 3))
}

/// The same, and a bad office leads so many epochs; any offices lead the usual
/// ones after them.
pub fn opening_led_by_bad(random: &mut Random, bad: usize, usual: usize) -> Opening {
    let opening = opening_with_bad(random);
    let untrusted = |office: &u8| opening.trust >> office & 1 == 0;
    let bad_leader = (0..opening.n).find(untrusted).expect("a bad office");
    let mut schedule = vec![Office(bad_leader); bad];
    schedule.extend((0..usual).map(|_| Office(random.below(opening.n.into()) as u8)));
    Opening {
        schedule,
        ..opening
    }
}

/// An opening of 4 offices or more, often 32, in which any offices lead so many
/// epochs.
pub fn opening_of_many(random: &mut Random, epochs: usize) -> Opening {
    let n = match random.chance(50) {
        true => MOST_OFFICES,
        false => random.between(4, MOST_OFFICES.into()) as u8,
    };
    let most_untrusted = usize::from((n - 1) / 3);
    let untrusted = match random.below(4) {
        0 => 0,
        1 => random.below(most_untrusted + 1),
        _ => most_untrusted,
    };
    let leader = |_| Office(random.below(n.into()) as u8);
    let schedule = (0..epochs).map(leader).collect();
    Opening {
        schedule,
        ..opening_of(random, n, untrusted)
    }
}

fn opening_of(random: &mut Random, n: u8, untrusted: usize) -> Opening {
    let mut offices: Vec<u8> = (0..n).collect();
    random.shuffle(&mut offices);
    let trusted = &offices[untrusted..];
    let trust = trusted.iter().fold(0, |trust, office| trust | 1 << office);
    let schedule = schedule(random, n);
    Opening { n, trust, schedule }
}

fn schedule(random: &mut Random, n: u8) -> Vec<Office> {
    let length = match random.below(20) {
        0 => 1,
        1 => LONGEST_SCHEDULE,
        2 => random.between(1, LONGEST_SCHEDULE),
        _ => random.between(2, 15),
    };
    let first = random.below(n.into());
    let manner = random.below(4);
    let mut leader = |epoch: usize| match manner {
        0 => first,
        1 => (first + epoch) % usize::from(n),
        _ => random.below(n.into()),
    };
    (0..length)
        .map(|epoch| Office(leader(epoch) as u8))
        .collect()
}
