//! A step with its fields, and the same as a kind and a row of numbers, which
//! is what a packed log and a text hold.

use super::{Block, Epoch, Kind, Message, Office};

#[derive(Clone, Copy, Debug, PartialEq, Eq)]
pub enum Step {
    Propose {
        office: Office,
        parent: Block,
        payload: u16,
    },
    Vote {
        office: Office,
        message: Message,
    },
    Register {
        office: Office,
        message: Message,
    },
    Finalise {
        office: Office,
        block: Block,
    },
    Deliver {
        message: Message,
        office: Office,
    },
    BadSend {
        sender: Office,
        kind: Kind,
        signer: Office,
        block: Block,
    },
    Draft {
        parent: Block,
        epoch: Epoch,
        payload: u16,
    },
    Advance,
}

/// Steps have the kinds 1 to 8; kind 0 is the log's end.
pub const STEP_KINDS: u8 = 8;

/// A bad send has the most fields.
pub const MOST_FIELDS: usize = 4;

impl Kind {
    pub fn number(self) -> u16 {
        match self {
            Kind::Proposal => 0,
            Kind::Vote => 1,
        }
    }

    fn from_number(number: u16) -> Kind {
        match number {
            0 => Kind::Proposal,
            _ => Kind::Vote,
        }
    }
}

impl Step {
    pub fn kind(&self) -> u8 {
        match self {
            Step::Propose { .. } => 1,
            Step::Vote { .. } => 2,
            Step::Register { .. } => 3,
            Step::Finalise { .. } => 4,
            Step::Deliver { .. } => 5,
            Step::BadSend { .. } => 6,
            Step::Draft { .. } => 7,
            Step::Advance => 8,
        }
    }

    /// The fields in the paper's order, the rest 0.
    pub fn fields(&self) -> [u16; MOST_FIELDS] {
        match *self {
            Step::Propose {
                office,
                parent,
                payload,
            } => [office.0.into(), parent.0.into(), payload, 0],
            Step::Vote { office, message } => [office.0.into(), message.0, 0, 0],
            Step::Register { office, message } => [office.0.into(), message.0, 0, 0],
            Step::Finalise { office, block } => [office.0.into(), block.0.into(), 0, 0],
            Step::Deliver { message, office } => [message.0, office.0.into(), 0, 0],
            Step::BadSend {
                sender,
                kind,
                signer,
                block,
            } => [
                sender.0.into(),
                kind.number(),
                signer.0.into(),
                block.0.into(),
            ],
            Step::Draft {
                parent,
                epoch,
                payload,
            } => [parent.0.into(), epoch.0, payload, 0],
            Step::Advance => [0; MOST_FIELDS],
        }
    }

    /// The step of a kind from 1 to 8 with fields that keep to their widths.
    pub fn from_fields(kind: u8, [a, b, c, d]: [u16; MOST_FIELDS]) -> Step {
        match kind {
            1 => Step::Propose {
                office: office(a),
                parent: block(b),
                payload: c,
            },
            2 => Step::Vote {
                office: office(a),
                message: Message(b),
            },
            3 => Step::Register {
                office: office(a),
                message: Message(b),
            },
            4 => Step::Finalise {
                office: office(a),
                block: block(b),
            },
            5 => Step::Deliver {
                message: Message(a),
                office: office(b),
            },
            6 => Step::BadSend {
                sender: office(a),
                kind: Kind::from_number(b),
                signer: office(c),
                block: block(d),
            },
            7 => Step::Draft {
                parent: block(a),
                epoch: Epoch(b),
                payload: c,
            },
            8 => Step::Advance,
            _ => unreachable!("steps have the kinds 1 to {STEP_KINDS}"),
        }
    }
}

fn office(field: u16) -> Office {
    Office(field as u8)
}

fn block(field: u16) -> Block {
    Block(field as u8)
}
