//! A log in the making: the steps so far and the register they lead to.

use super::random::Random;
use crate::packed::{KIND_WIDTH, LONGEST_LOG, opening_bits, step_bits, write_log};
use crate::register::{Block, Epoch, Kind, Message, Office, Opening, Place, Register, Step};

pub struct Run {
    pub random: Random,
    pub register: Register,
    pub steps: Vec<Step>,
    opening: Opening,
    bits: usize,
    most_bytes: usize,
}

impl Run {
    /// A run without steps yet. Its log gets at most `most_bytes` bytes: steps
    /// that don't fit are left out.
    pub fn new(random: Random, opening: Opening, most_bytes: usize) -> Run {
        Run {
            register: Register::open(&opening).expect("an opening that is not refused"),
            steps: Vec::new(),
            bits: opening_bits(&opening),
            most_bytes: most_bytes.min(LONGEST_LOG),
            random,
            opening,
        }
    }

    pub fn log(&self) -> Vec<u8> {
        write_log(&self.opening, &self.steps)
    }

    pub fn opening(&self) -> &Opening {
        &self.opening
    }

    pub fn fits(&self, step: &Step) -> bool {
        self.bits + step_bits(step) + KIND_WIDTH <= 8 * self.most_bytes
    }

    /// Takes a step and gives its value if it is accepted.
    pub fn take(&mut self, step: Step) -> Option<u16> {
        if !self.fits(&step) {
            return None;
        }
        self.bits += step_bits(&step);
        self.steps.push(step);
        self.register.step(&step).ok()
    }

    /// Takes steps, turn by turn, until one doesn't fit.
    pub fn fill(&mut self, mut turn: impl FnMut(&mut Run, usize)) {
        for number in 0.. {
            let steps = self.steps.len();
            turn(self, number);
            if self.steps.len() == steps {
                return;
            }
        }
    }

    pub fn propose(&mut self, office: Office, parent: Block, payload: u16) -> Option<Message> {
        let step = Step::Propose {
            office,
            parent,
            payload,
        };
        self.take(step).map(Message)
    }

    pub fn vote(&mut self, office: Office, message: Message) -> Option<Message> {
        self.take(Step::Vote { office, message }).map(Message)
    }

    pub fn register(&mut self, office: Office, message: Message) {
        self.take(Step::Register { office, message });
    }

    pub fn finalise(&mut self, office: Office, block: Block) {
        self.take(Step::Finalise { office, block });
    }

    pub fn deliver(&mut self, message: Message, office: Office) {
        self.take(Step::Deliver { message, office });
    }

    pub fn bad_send(
        &mut self,
        sender: Office,
        kind: Kind,
        signer: Office,
        block: Block,
    ) -> Option<Message> {
        let step = Step::BadSend {
            sender,
            kind,
            signer,
            block,
        };
        self.take(step).map(Message)
    }

    pub fn draft(&mut self, parent: Block, epoch: Epoch, payload: u16) -> Option<Block> {
        let step = Step::Draft {
            parent,
            epoch,
            payload,
        };
        self.take(step).map(|block| Block(block as u8))
    }

    pub fn advance(&mut self) {
        self.take(Step::Advance);
    }

    pub fn trusted(&self) -> Vec<Office> {
        self.register.trusted_offices().collect()
    }

    pub fn untrusted(&self) -> Vec<Office> {
        let offices = (0..self.register.n()).map(Office);
        offices
            .filter(|&office| !self.register.is_trusted(office))
            .collect()
    }

    /// All messages sent so far.
    pub fn messages(&self) -> impl Iterator<Item = Message> + use<> {
        (0..self.register.sent() as u16).map(Message)
    }

    /// The messages that are at this place for an office.
    pub fn messages_at(&self, place: Place, office: Office) -> Vec<Message> {
        let at_place = |&message: &Message| self.register.place(message, office) == place;
        self.messages().filter(at_place).collect()
    }

    pub fn any_block(&mut self) -> Block {
        let last = self.register.last_block().index();
        Block(self.random.between(0, last) as u8)
    }

    /// A block from 1 up of an office's final chain, if there is one.
    pub fn any_final_block(&mut self, office: Office) -> Option<Block> {
        let mut block = self.register.final_block(office);
        let length = self.register.chain_length(block);
        if length == 0 {
            return None;
        }
        for _ in 0..self.random.below(length) {
            block = self.register.block(block).parent;
        }
        Some(block)
    }

    /// A payload, often one that was used before.
    pub fn any_payload(&mut self) -> u16 {
        match self.random.below(3) {
            0 => self.random.below(1 << 16) as u16,
            _ => self.random.below(3) as u16,
        }
    }

    /// The last block of one of the longest notarised chains of an office.
    pub fn longest(&mut self, office: Office) -> Block {
        let view = self.register.view(office);
        let blocks = (0..=self.register.last_block().0).map(Block);
        let longest: Vec<Block> = blocks.filter(|&block| view.is_longest(block)).collect();
        self.random.pick(&longest)
    }
}
