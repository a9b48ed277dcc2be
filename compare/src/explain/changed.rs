//! What an accepted step changed, and for whom.

use super::chains::{Standing, chain_faults, chain_name, lack};
use super::words::{all_messages, block_list, block_name, blocks, in_transit_to, of_word, said};
use crate::register::{Block, GENESIS, Message, Office, Register, Step};

/// What is kept of the register before a step.
pub struct Before {
    last_block: Block,
    /// Of the office that acts, if it is there.
    final_block: Block,
    standing: Option<Standing>,
}

impl Before {
    pub fn of(register: &Register, step: &Step) -> Before {
        let actor = match *step {
            Step::Propose { office, .. }
            | Step::Vote { office, .. }
            | Step::Register { office, .. }
            | Step::Finalise { office, .. } => Some(office),
            _ => None,
        };
        let actor = actor.filter(|office| office.0 < register.n());
        let finalise = matches!(step, Step::Finalise { .. });
        let looks = actor.filter(|_| !finalise);
        Before {
            last_block: register.last_block(),
            final_block: actor.map_or(GENESIS, |office| register.final_block(office)),
            standing: looks.map(|office| Standing::of(register, office)),
        }
    }
}

/// What became of the step, and in further lines what it changed.
pub fn changed(step: &Step, value: u16, before: &Before, register: &Register) -> Vec<String> {
    let mut notes = match *step {
        Step::Propose { office, .. } => proposed(register, office, Message(value), before),
        Step::Vote { office, message } => voted(register, office, message, Message(value), before),
        Step::Register { office, message } => registered(register, office, message, before),
        Step::Finalise { office, block } => made_final(register, office, block, before),
        Step::Deliver { message, office } => vec![format!(
            "message {value}, {}, is in office {}'s inbox",
            said(register, message),
            office.0
        )],
        Step::BadSend { .. } => sent_badly(register, Message(value)),
        Step::Draft { .. } => vec![format!("this is {}", made(register, value as u8, before))],
        Step::Advance => vec![format!("epoch {value} begins, and every office is ready")],
    };
    notes[0].insert_str(0, "accepted: ");
    notes
}

/// A block's number and whether it is new, and what it is made of.
fn made(register: &Register, number: u8, before: &Before) -> String {
    let record = register.block(Block(number));
    let new = match Block(number) > before.last_block {
        true => "new",
        false => "made before",
    };
    format!(
        "block {number}, {new}: on {}, epoch {}, payload {}",
        block_name(record.parent),
        record.epoch.0,
        record.payload
    )
}

fn proposed(register: &Register, office: Office, sent: Message, before: &Before) -> Vec<String> {
    let block = register.message(sent).block;
    let mut notes = vec![
        format!(
            "message {} proposes {}",
            sent.0,
            made(register, block.0, before)
        ),
        format!(
            "office {} has acted; message {} is in its view and {}",
            office.0,
            sent.0,
            in_transit_to(register, sent)
        ),
    ];
    notes.extend(view_changes(register, office, block, before));
    notes
}

fn voted(
    register: &Register,
    office: Office,
    proposal: Message,
    sent: Message,
    before: &Before,
) -> Vec<String> {
    let block = register.message(sent).block;
    let mut notes = vec![
        format!(
            "message {} votes for block {}, {}",
            sent.0,
            block.0,
            in_transit_to(register, sent)
        ),
        format!(
            "office {} has acted; messages {} and {} are in its view",
            office.0, proposal.0, sent.0
        ),
    ];
    notes.extend(view_changes(register, office, block, before));
    notes
}

fn registered(
    register: &Register,
    office: Office,
    message: Message,
    before: &Before,
) -> Vec<String> {
    let block = register.message(message).block;
    let mut notes = vec![format!(
        "message {}, {}, is in office {}'s view",
        message.0,
        said(register, message),
        office.0
    )];
    notes.extend(view_changes(register, office, block, before));
    notes
}

/// What a new signature on a block changed in an office's view.
fn view_changes(register: &Register, office: Office, block: Block, before: &Before) -> Vec<String> {
    let Some(before) = &before.standing else {
        return Vec::new();
    };
    let after = Standing::of(register, office);
    let number = office.0;
    let word = register.view(office).signers(block);
    let (signers, count, n) = (of_word(word), word.count_ones(), register.n());
    let mut notes = vec![match (before.notarised(block), after.notarised(block)) {
        (false, true) => format!(
            "block {} is now notarised for office {number}: signers {signers}; {count} of {n}",
            block.0
        ),
        (true, _) => format!(
            "block {} was notarised for office {number}: now signers {signers}; {count} of {n}",
            block.0
        ),
        (false, false) => format!("for office {number} {}", lack(register, office, block)),
    }];
    if after.notarised(block)
        && let Some(faults) = chain_faults(register, office, block)
    {
        notes.push(format!("but its chain is not: {faults}"));
    }
    if after.longest() != before.longest() {
        notes.push(longest_now(register, office, &after));
    }
    notes
}

fn longest_now(register: &Register, office: Office, standing: &Standing) -> String {
    let longest = standing.longest();
    let chains = match longest[..] {
        [last] => format!("the {}", chain_name(register, last)),
        _ => {
            let length = blocks(standing.longest_length());
            format!("the chains of {} ({length} each)", block_list(&longest))
        }
    };
    format!("longest for office {} now: {chains}", office.0)
}

fn made_final(register: &Register, office: Office, b: Block, before: &Before) -> Vec<String> {
    let c = register.final_block(office);
    if c == before.final_block {
        return vec![format!(
            "block {}, the parent of block {}, is final for office {}, as before",
            c.0, b.0, office.0
        )];
    }
    let old = register.chain(before.final_block);
    let new = &register.chain(c)[old.len()..];
    vec![
        format!(
            "block {}, the parent of block {}, is now final for office {}",
            c.0, b.0, office.0
        ),
        format!(
            "newly final: {}; final before: {}",
            block_list(new),
            block_name(before.final_block)
        ),
    ]
}

fn sent_badly(register: &Register, sent: Message) -> Vec<String> {
    let record = register.message(sent);
    let earlier = all_messages(register).find(|&old| register.message(old) == record);
    let mut notes = vec![
        format!("message {} is {}", sent.0, said(register, sent)),
        format!("it is {}", in_transit_to(register, sent)),
    ];
    if let Some(old) = earlier.filter(|&old| old != sent) {
        notes.push(format!(
            "it says the same as message {}: sent again, not forged",
            old.0
        ));
    }
    notes
}
