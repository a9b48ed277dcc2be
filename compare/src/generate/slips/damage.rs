//! Slips with faults: in their marks, their block, their form.

use super::Known;
use crate::generate::random::Random;
use crate::register::fewest_signers;
use crate::slip::{Slip, slip_bits};

/// A slip with no fault, one or several.
pub fn slip(known: &Known, random: &mut Random) -> Vec<u8> {
    if random.chance(3) {
        return random_bytes(random);
    }
    let mut slip = known.slip(random);
    let faults = random.pick(&[0, 0, 0, 1, 1, 1, 1, 1, 2, 2]);
    let in_marks = random.below(faults + 1);
    for _ in 0..in_marks {
        change_marks(&mut slip, known, random);
    }
    let mut bytes = slip.bytes(known.register.n());
    for _ in in_marks..faults {
        change_bytes(&mut bytes, &slip, known, random);
    }
    bytes
}

/// No slip at all; the first byte is often a small block.
pub fn random_bytes(random: &mut Random) -> Vec<u8> {
    let length = random.below(40);
    let mut bytes: Vec<u8> = (0..length).map(|_| random.below(256) as u8).collect();
    if random.chance(70)
        && let Some(first) = bytes.first_mut()
    {
        *first = random.below(6) as u8;
    }
    bytes
}

fn change_marks(slip: &mut Slip, known: &Known, random: &mut Random) {
    let needed = fewest_signers(known.register.n());
    if slip.marks.is_empty() {
        return;
    }
    let place = random.below(slip.marks.len());
    match random.below(8) {
        0 => {
            // Just enough for each block.
            for marks in &mut slip.marks {
                keep(marks, needed, random);
            }
        }
        1 | 2 => keep(&mut slip.marks[place], needed - 1, random),
        3 => drop_some(&mut slip.marks, random),
        4..7 => mark_strangers(slip, place, known, random),
        // The newest block first.
        _ => slip.marks.reverse(),
    }
}

/// Takes marks away until there are so many.
fn keep(marks: &mut u32, most: u32, random: &mut Random) {
    while marks.count_ones() > most {
        *marks &= !(1 << random.below(32));
    }
}

fn drop_some(marks: &mut [u32], random: &mut Random) {
    let percent = random.pick(&[2, 10, 50]);
    for marks in marks {
        for office in 0..32 {
            if random.chance(percent) {
                *marks &= !(1 << office);
            }
        }
    }
}

/// Marks an office that never signed the block, or all of them.
fn mark_strangers(slip: &mut Slip, place: usize, known: &Known, random: &mut Random) {
    let block = known.register.chain(slip.block)[place];
    let signed = known.signed[block.index()];
    let mut offices: Vec<u8> = (0..known.register.n()).collect();
    offices.retain(|office| signed >> office & 1 == 0);
    if random.chance(80) {
        random.shuffle(&mut offices);
        offices.truncate(1);
    }
    for office in offices {
        slip.marks[place] |= 1 << office;
    }
}

/// Another block, another length, a set pad bit, any other bit.
fn change_bytes(bytes: &mut Vec<u8>, slip: &Slip, known: &Known, random: &mut Random) {
    match random.below(10) {
        0..3 => name_other(bytes, known, random),
        3..6 => change_length(bytes, random),
        6..8 => set_pad(bytes, slip, known, random),
        _ => flip(bytes, random),
    }
}

/// The marks stay.
fn name_other(bytes: &mut [u8], known: &Known, random: &mut Random) {
    let last = known.register.last_block().0;
    let made = known.any_block(random).0;
    let any = random.below(256) as u8;
    let next = last.saturating_add(1);
    if let Some(first) = bytes.first_mut() {
        *first = random.pick(&[0, made, made, last, next, next, any, 255]);
    }
}

fn change_length(bytes: &mut Vec<u8>, random: &mut Random) {
    let length = bytes.len();
    match random.below(8) {
        0 | 1 => bytes.truncate(length.saturating_sub(1)),
        2 => bytes.truncate(random.below(length + 1)),
        3 => bytes.truncate(1),
        4 => bytes.clear(),
        5 | 6 => bytes.push(0),
        _ => bytes.resize(length + random.between(1, 20), random.pick(&[0, 0xFF])),
    }
}

/// A bit behind the marks, if there are any in the last byte.
fn set_pad(bytes: &mut [u8], slip: &Slip, known: &Known, random: &mut Random) {
    let first = slip_bits(known.register.n(), slip.marks.len());
    if first < 8 * bytes.len() {
        let bit = random.between(first, 8 * bytes.len() - 1);
        bytes[bit / 8] |= 128 >> (bit % 8);
    }
}

fn flip(bytes: &mut [u8], random: &mut Random) {
    if !bytes.is_empty() {
        let bit = random.below(8 * bytes.len());
        bytes[bit / 8] ^= 128 >> (bit % 8);
    }
}
