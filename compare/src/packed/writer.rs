//! Writing a packed log.

use super::{COUNT_WIDTH, KIND_WIDTH, LENGTH_WIDTH, OFFICE_WIDTH, WIDTHS};
use crate::register::{Office, Opening, Step};

/// Writes bits behind each other into bytes; the bits not written yet are zero.
#[derive(Clone, Debug, Default)]
pub struct BitWriter {
    bytes: Vec<u8>,
    position: usize,
}

impl BitWriter {
    pub fn new() -> BitWriter {
        BitWriter::default()
    }

    pub fn position(&self) -> usize {
        self.position
    }

    /// Writes a value, most significant bit first.
    pub fn put(&mut self, value: usize, width: usize) {
        assert!(value >> width == 0, "{value} is wider than {width} bits");
        for place in (0..width).rev() {
            if self.position.is_multiple_of(8) {
                self.bytes.push(0);
            }
            let bit = (value >> place & 1) as u8;
            self.bytes[self.position / 8] |= bit << (7 - self.position % 8);
            self.position += 1;
        }
    }

    pub fn opening(&mut self, opening: &Opening) {
        self.put(opening.n.into(), COUNT_WIDTH);
        for office in (0..opening.n).map(Office) {
            self.put(opening.is_trusted(office).into(), 1);
        }
        self.put(opening.schedule.len(), LENGTH_WIDTH);
        for leader in &opening.schedule {
            self.put(leader.index(), OFFICE_WIDTH);
        }
    }

    pub fn step(&mut self, step: &Step) {
        self.put(step.kind().into(), KIND_WIDTH);
        for (field, &width) in step.fields().iter().zip(widths(step)) {
            self.put(usize::from(*field), width);
        }
    }

    /// The end; the pad is zero already.
    pub fn end(&mut self) {
        self.put(0, KIND_WIDTH);
    }

    pub fn into_bytes(self) -> Vec<u8> {
        self.bytes
    }
}

/// The log of an opening and steps, whatever they say, as long as each number
/// keeps to its field's width.
pub fn write_log(opening: &Opening, steps: &[Step]) -> Vec<u8> {
    let mut writer = BitWriter::new();
    writer.opening(opening);
    for step in steps {
        writer.step(step);
    }
    writer.end();
    writer.into_bytes()
}

/// How many bits an opening takes.
pub fn opening_bits(opening: &Opening) -> usize {
    let trust = usize::from(opening.n);
    COUNT_WIDTH + trust + LENGTH_WIDTH + OFFICE_WIDTH * opening.schedule.len()
}

/// How many bits a step takes.
pub fn step_bits(step: &Step) -> usize {
    KIND_WIDTH + widths(step).iter().sum::<usize>()
}

fn widths(step: &Step) -> &'static [usize] {
    WIDTHS[usize::from(step.kind())]
}
