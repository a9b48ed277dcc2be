//! Steps whose answer is decided by signers: would it be another one if other
//! signatures were in the view?

use skovarnek_compare::refusal::Refusal;
use skovarnek_compare::register::{Answer, Block, Kind, Message, Office, Place};
use skovarnek_compare::register::{Register, Step};

/// What a step asks of the view of its office.
#[derive(Clone, Copy, Debug)]
enum Question {
    /// Is this block's chain a longest notarised one?
    Longest(Block),
    /// Is this block's chain notarised?
    Notarised(Block),
}

/// The refusals by which a step shows that it has asked.
const ASKED: [Refusal; 6] = [
    Refusal::NotLongest,
    Refusal::Epochs,
    Refusal::BlocksFull,
    Refusal::MessagesFull,
    Refusal::NotFinal,
    Refusal::Behind,
];

/// A question of a step, and the signers that answer it.
pub struct Decision<'a> {
    register: &'a Register,
    office: Office,
    question: Question,
    /// By block, a bit for each office whose signature is in the view.
    signers: Vec<u32>,
    /// Whether the view says yes.
    pub holds: bool,
}

impl<'a> Decision<'a> {
    /// What a step has asked of the register that it got, if its answer shows
    /// that it came so far.
    pub fn of_step(register: &'a Register, step: &Step, answer: Answer) -> Option<Decision<'a>> {
        if answer.is_err_and(|refusal| !ASKED.contains(&refusal)) {
            return None;
        }
        let (office, question) = question(register, step)?;
        let mut decision = Decision {
            register,
            office,
            question,
            signers: Vec::new(),
            holds: false,
        };
        decision.signers = decision.signers_by(|place, _| place == Place::View);
        decision.holds = decision.holds_by(&decision.signers);
        Some(decision)
    }

    /// The signers of each block, by the messages that count.
    fn signers_by(&self, counts: impl Fn(Place, Kind) -> bool) -> Vec<u32> {
        let mut signers = vec![0; self.register.last_block().index() + 1];
        for message in (0..self.register.sent() as u16).map(Message) {
            let record = self.register.message(message);
            if counts(self.register.place(message, self.office), record.kind) {
                signers[record.block.index()] |= 1 << record.signer.0;
            }
        }
        signers
    }

    /// How many signers make a block notarised.
    fn needed(&self) -> u32 {
        (2 * u32::from(self.register.n())).div_ceil(3)
    }

    /// Whether it would be another answer if these messages counted.
    pub fn differs_if(&self, counts: impl Fn(Place, Kind) -> bool) -> bool {
        self.holds_by(&self.signers_by(counts)) != self.holds
    }

    /// The offices each of which has one signature in the view without which it
    /// would be another answer: a bit for each.
    pub fn deciders(&self) -> u32 {
        let mut deciders = 0;
        for (block, &word) in self.signers.iter().enumerate().skip(1) {
            if word.count_ones() == self.needed() && self.differs_with(block, 0) {
                deciders |= word;
            }
        }
        deciders
    }

    /// Whether one more signature would make it another answer.
    pub fn wants_one(&self) -> bool {
        let mut words = self.signers.iter().enumerate().skip(1);
        words.any(|(block, word)| {
            word.count_ones() + 1 == self.needed() && self.differs_with(block, u32::MAX)
        })
    }

    /// Whether it would be another answer if a block had these signers.
    fn differs_with(&self, block: usize, word: u32) -> bool {
        let mut signers = self.signers.clone();
        signers[block] = word;
        self.holds_by(&signers) != self.holds
    }

    /// The answer by these signers.
    fn holds_by(&self, signers: &[u32]) -> bool {
        let lengths = self.lengths(signers);
        match self.question {
            Question::Notarised(block) => lengths[block.index()].is_some(),
            Question::Longest(block) => {
                let longest = lengths.iter().flatten().max();
                lengths[block.index()].as_ref() == longest
            }
        }
    }

    /// The length of each block's chain, if it is a notarised one.
    fn lengths(&self, signers: &[u32]) -> Vec<Option<usize>> {
        let mut lengths = vec![Some(0)];
        for block in (1..=self.register.last_block().0).map(Block) {
            let record = self.register.block(block);
            let valid = record.epoch > self.register.block(record.parent).epoch;
            let notarised = valid && signers[block.index()].count_ones() >= self.needed();
            let below = lengths[record.parent.index()];
            lengths.push(below.filter(|_| notarised).map(|length| length + 1));
        }
        lengths
    }
}

/// The office of a step and what it asks of its view. Finalise asks only if the
/// epochs of the three blocks are consecutive.
fn question(register: &Register, step: &Step) -> Option<(Office, Question)> {
    match *step {
        Step::Propose { office, parent, .. } => Some((office, Question::Longest(parent))),
        Step::Vote { office, message } => {
            let block = register.message(message).block;
            let parent = register.block(block).parent;
            Some((office, Question::Longest(parent)))
        }
        Step::Finalise { office, block } => {
            let parent = register.block(block).parent;
            let epochs = [block, parent, register.block(parent).parent]
                .map(|block| register.block(block).epoch.0);
            let in_a_row = epochs[0] == epochs[2] + 2 && epochs[1] == epochs[2] + 1;
            in_a_row.then_some((office, Question::Notarised(block)))
        }
        _ => None,
    }
}
