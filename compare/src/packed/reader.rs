//! Reading a packed log from left to right.

use super::{COUNT_WIDTH, KIND_WIDTH, LENGTH_WIDTH, LONGEST_LOG, OFFICE_WIDTH, WIDTHS};
use crate::refusal::{Refusal, ensure};
use crate::register::{MOST_FIELDS, Office, Opening, STEP_KINDS, Step};
use crate::register::{check_count, check_leader, check_length, check_third};

/// What stands at a position behind the opening.
#[derive(Clone, Copy, Debug, PartialEq, Eq)]
pub enum Item {
    Step(Step),
    End,
}

/// A log and the bit position up to which it is read.
pub struct Reader<'a> {
    log: &'a [u8],
    position: usize,
}

impl<'a> Reader<'a> {
    pub fn new(log: &'a [u8]) -> Reader<'a> {
        Reader { log, position: 0 }
    }

    pub fn position(&self) -> usize {
        self.position
    }

    /// Reads the opening; refused, it leaves the position where it was.
    pub fn opening(&mut self) -> Result<Opening, Refusal> {
        self.or_back(Reader::read_opening)
    }

    /// Reads a step or the end; refused, it leaves the position where it was.
    pub fn item(&mut self) -> Result<Item, Refusal> {
        self.or_back(Reader::read_item)
    }

    fn or_back<T>(
        &mut self,
        read: impl Fn(&mut Reader<'a>) -> Result<T, Refusal>,
    ) -> Result<T, Refusal> {
        let before = self.position;
        ensure(self.log.len() <= LONGEST_LOG, Refusal::LongLog)?;
        let result = read(self);
        if result.is_err() {
            self.position = before;
        }
        result
    }

    /// 1 stands at n, 2 at the length, 3 at its leader, 4 after the last leader.
    fn read_opening(&mut self) -> Result<Opening, Refusal> {
        let n = self.field(COUNT_WIDTH)? as u8;
        check_count(n)?;
        let mut trust = 0;
        for office in 0..n {
            trust |= u32::from(self.field(1)?) << office;
        }
        let length = usize::from(self.field(LENGTH_WIDTH)?);
        check_length(length)?;
        let mut schedule = Vec::with_capacity(length);
        for _ in 0..length {
            let leader = Office(self.field(OFFICE_WIDTH)? as u8);
            check_leader(leader, n)?;
            schedule.push(leader);
        }
        let opening = Opening { n, trust, schedule };
        check_third(&opening)?;
        Ok(opening)
    }

    fn read_item(&mut self) -> Result<Item, Refusal> {
        let kind = self.field(KIND_WIDTH)? as u8;
        ensure(kind <= STEP_KINDS, Refusal::NoSuchStep)?;
        if kind == 0 {
            return self.read_pad();
        }
        let mut fields = [0; MOST_FIELDS];
        for (field, &width) in fields.iter_mut().zip(WIDTHS[usize::from(kind)]) {
            *field = self.field(width)?;
        }
        Ok(Item::Step(Step::from_fields(kind, fields)))
    }

    /// After the end, zero bits to the byte's end, and no byte more.
    fn read_pad(&mut self) -> Result<Item, Refusal> {
        let pad_width = self.position.next_multiple_of(8) - self.position;
        let pad = self.field(pad_width)?;
        ensure(pad == 0, Refusal::Ending)?;
        ensure(self.position == 8 * self.log.len(), Refusal::Ending)?;
        Ok(Item::End)
    }

    /// The next field, of at most 16 bits. It is judged only when it is wholly
    /// there: a log that ends before or inside it is cut.
    fn field(&mut self, width: usize) -> Result<u16, Refusal> {
        let end = self.position + width;
        ensure(end <= 8 * self.log.len(), Refusal::Cut)?;
        // At most 7 bits of the byte are behind us, so it lies in three bytes.
        let first = self.position / 8;
        let byte = |place: usize| u32::from(self.log.get(place).copied().unwrap_or(0));
        let three = byte(first) << 16 | byte(first + 1) << 8 | byte(first + 2);
        let behind = 8 * first + 24 - end;
        self.position = end;
        Ok((three >> behind & ((1 << width) - 1)) as u16)
    }
}
