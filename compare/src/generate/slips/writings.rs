//! Calls of the writer: any office, any block, buffers of every kind of length.

use super::Known;
use crate::generate::random::Random;
use crate::register::{Block, Office};
use crate::slip::slip_bytes;

/// A slip to write.
#[derive(Clone, Copy, Debug, PartialEq, Eq)]
pub struct Writing {
    pub office: u8,
    pub block: u8,
    /// The length of the buffer.
    pub room: usize,
    /// What each byte of the buffer is before the call.
    pub dirt: u8,
}

/// Often an office with a block that meets the rule in its view.
pub fn writing(known: &Known, random: &mut Random) -> Writing {
    let (office, block) = match random.below(10) {
        0..6 if !known.writable.is_empty() => random.pick(&known.writable),
        _ => (any_office(known, random), any_block(known, random)),
    };
    Writing {
        office: office.0,
        block: block.0,
        room: room(known, block, random),
        dirt: dirt(random),
    }
}

/// Anything.
pub fn any_writing(random: &mut Random) -> Writing {
    Writing {
        office: random.below(256) as u8,
        block: random.below(256) as u8,
        room: random.below(20),
        dirt: dirt(random),
    }
}

/// A trusted one, an untrusted one, or none.
fn any_office(known: &Known, random: &mut Random) -> Office {
    let n = known.register.n();
    let any = random.below(256) as u8;
    let inside = random.below(n.into()) as u8;
    Office(random.pick(&[inside, inside, inside, inside, inside, n, any, 255]))
}

fn any_block(known: &Known, random: &mut Random) -> Block {
    let made = known.any_block(random).0;
    let next = known.register.last_block().0.saturating_add(1);
    let any = random.below(256) as u8;
    Block(random.pick(&[made, made, made, made, 0, next, any, 255]))
}

/// As long as the slip, a byte shorter or longer, far shorter or longer, or none.
fn room(known: &Known, block: Block, random: &mut Random) -> usize {
    let last = known.register.last_block();
    let blocks = known.register.chain_length(block.min(last));
    let length = slip_bytes(known.register.n(), blocks);
    match random.below(12) {
        0..5 => length,
        5..7 => length - 1,
        7..9 => length + 1,
        9 => random.below(length + 1),
        10 => length + random.below(200),
        _ => 0,
    }
}

fn dirt(random: &mut Random) -> u8 {
    let any = random.below(256) as u8;
    random.pick(&[0xA5, 0xFF, 0, any])
}
