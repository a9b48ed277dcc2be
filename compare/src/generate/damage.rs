//! Logs that don't read, or hardly: every kind of damage.

use super::openings::opening;
use super::random::Random;
use super::run::Run;
use super::{noise, sensible};
use crate::packed::{BitWriter, COUNT_WIDTH, KIND_WIDTH, LENGTH_WIDTH, LONGEST_LOG, OFFICE_WIDTH};
use crate::register::{MOST_OFFICES, Opening, Step};

pub fn log(mut random: Random) -> Vec<u8> {
    match random.below(100) {
        0..2 => long_log(random),
        2..8 => random_bytes(&mut random),
        8..40 => bad_opening(random),
        40..55 => cut_after_opening(random),
        _ => damaged_run(random),
    }
}

/// About as long as a log may be, or longer.
fn long_log(mut random: Random) -> Vec<u8> {
    let opening = opening(&mut random);
    let mut run = Run::new(random, opening, LONGEST_LOG);
    while run.fits(&Step::Advance) {
        run.advance();
    }
    let mut log = run.log();
    let more = run.random.pick(&[0, 0, 1, 1, 2, 1000]);
    log.resize(log.len() + more, 0);
    if run.random.chance(20) {
        log[0] = run.random.below(256) as u8;
    }
    log
}

fn random_bytes(random: &mut Random) -> Vec<u8> {
    let length = random.below(60);
    (0..length).map(|_| random.below(256) as u8).collect()
}

/// An opening with fields in and out of range, then some steps, then perhaps a
/// cut: which fault is the leftmost is left to chance.
fn bad_opening(mut random: Random) -> Vec<u8> {
    let mut writer = BitWriter::new();
    let faulty = random.below(5);
    let n = match faulty {
        0 => random.pick(&[0, 33, 34, 40, 63]),
        _ => random.between(1, MOST_OFFICES.into()),
    };
    writer.put(n, COUNT_WIDTH);
    put_trust(&mut writer, &mut random, n, faulty == 1);
    let length = match faulty {
        2 => random.pick(&[0, 257, 258, 511]),
        _ => random.pick(&[1, 2, 3, 10, 255, 256]),
    };
    writer.put(length, LENGTH_WIDTH);
    put_leaders(&mut writer, &mut random, n, length, faulty == 3);
    if random.chance(80) {
        for _ in 0..random.below(5) {
            writer.step(&Step::Advance);
        }
        writer.end();
    }
    maybe_cut(&mut random, writer.into_bytes())
}

/// Trust bits; too many untrusted offices, or as many as can be.
fn put_trust(writer: &mut BitWriter, random: &mut Random, n: usize, too_many: bool) {
    let most = n.saturating_sub(1) / 3;
    let untrusted = match too_many {
        true => random.pick(&[most + 1, n]),
        false => most,
    };
    let mut trusted: Vec<bool> = (0..n).map(|office| office >= untrusted).collect();
    random.shuffle(&mut trusted);
    for bit in trusted {
        writer.put(bit.into(), 1);
    }
}

/// Leaders; one of them, often the last, may be n or above.
fn put_leaders(writer: &mut BitWriter, random: &mut Random, n: usize, length: usize, stray: bool) {
    let wrong = match random.chance(50) {
        true => length.saturating_sub(1),
        false => random.below(length.max(1)),
    };
    for epoch in 0..length {
        let leader = match stray && epoch == wrong && n < 32 {
            true => random.pick(&[n, 31]),
            false => random.below(n.clamp(1, 32)),
        };
        writer.put(leader, OFFICE_WIDTH);
    }
}

fn maybe_cut(random: &mut Random, log: Vec<u8>) -> Vec<u8> {
    match random.chance(40) {
        true => cut(random, log),
        false => log,
    }
}

/// A good opening and a few bits: an end with any pad, or the start of a step.
fn cut_after_opening(mut random: Random) -> Vec<u8> {
    let mut writer = BitWriter::new();
    writer.opening(&opening(&mut random));
    for _ in 0..random.below(3) {
        writer.step(&Step::Advance);
    }
    match random.below(3) {
        0 => writer.end(),
        1 => writer.put(random.below(16), KIND_WIDTH),
        _ => {}
    }
    if random.chance(50) {
        let more = random.below(20);
        for _ in 0..more {
            let bit = random.chance(30).into();
            writer.put(bit, 1);
        }
    }
    writer.into_bytes()
}

/// A run of steps that somebody has damaged.
fn damaged_run(mut random: Random) -> Vec<u8> {
    let mut run = match random.chance(50) {
        true => sensible::run(random),
        false => noise::run(random),
    };
    let log = run.log();
    let random = &mut run.random;
    match random.below(6) {
        0 => cut(random, log),
        1 => pad_bit_set(random, log),
        2 => byte_appended(random, log),
        3 => bits_flipped(random, log),
        4 => no_end(&run),
        _ => no_such_step(&mut run),
    }
}

/// Cut at any bit; what is left of the last byte is zero or random.
fn cut(random: &mut Random, mut log: Vec<u8>) -> Vec<u8> {
    let bits = random.below(8 * log.len() + 1);
    log.truncate(bits.div_ceil(8));
    let kept = bits % 8;
    if kept > 0 {
        let lost = 0xFF >> kept;
        let any = random.word() as u8;
        let last = &mut log[bits / 8];
        *last = *last & !lost | random.pick(&[0, 0xFF, any]) & lost;
    }
    log
}

/// One of the last bits set, mostly in the pad.
fn pad_bit_set(random: &mut Random, mut log: Vec<u8>) -> Vec<u8> {
    if let Some(last) = log.last_mut() {
        *last |= 1 << random.pick(&[0, 0, 1, 2, 3, 4, 5, 6, 7]);
    }
    log
}

fn byte_appended(random: &mut Random, mut log: Vec<u8>) -> Vec<u8> {
    log.push(random.pick(&[0, 0, 1, 0x80, 0xFF]));
    if random.chance(20) {
        log.push(0);
    }
    log
}

fn bits_flipped(random: &mut Random, mut log: Vec<u8>) -> Vec<u8> {
    for _ in 0..random.between(1, 4) {
        let bit = random.below(8 * log.len());
        log[bit / 8] ^= 1 << (bit % 8);
    }
    log
}

/// The steps without an end.
fn no_end(run: &Run) -> Vec<u8> {
    let mut writer = BitWriter::new();
    put(&mut writer, run.opening(), &run.steps);
    writer.into_bytes()
}

/// A kind from 9 to 15 somewhere among the steps, or as the last bits.
fn no_such_step(run: &mut Run) -> Vec<u8> {
    let place = run.random.below(run.steps.len() + 1);
    let mut writer = BitWriter::new();
    put(&mut writer, run.opening(), &run.steps[..place]);
    writer.put(run.random.between(9, 15), KIND_WIDTH);
    if run.random.chance(70) {
        run.steps[place..].iter().for_each(|step| writer.step(step));
        writer.end();
    }
    writer.into_bytes()
}

fn put(writer: &mut BitWriter, opening: &Opening, steps: &[Step]) {
    writer.opening(opening);
    steps.iter().for_each(|step| writer.step(step));
}
