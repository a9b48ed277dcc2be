//! Why a step was refused in this run. A refused step leaves the register as it
//! was, so the register is the one that the step was judged on.

use super::chains::{Standing, chain_faults, chain_name};
use super::words::{all_messages, block_name, blocks, kind_name, listed, said};
use crate::refusal::Refusal;
use crate::register::{Block, GENESIS, Kind, Message, Office, Place, Register, Step};

/// The reason, as a sentence without a stop.
pub fn refused(step: &Step, refusal: Refusal, register: &Register) -> String {
    match refusal {
        Refusal::NoOffice => no_office(step, register),
        Refusal::NoBlock => no_block(step, register),
        Refusal::NoMessage => no_message(step, register),
        Refusal::Spent => format!("epoch {} is the schedule's last", register.epoch().0),
        Refusal::BlocksFull => "255 blocks have been made, and this is none of them".to_string(),
        Refusal::MessagesFull => "all 1,024 messages have been sent".to_string(),
        _ => by_step(step, refusal, register),
    }
}

fn by_step(step: &Step, refusal: Refusal, register: &Register) -> String {
    match *step {
        Step::Propose { office, parent, .. } => match refusal {
            Refusal::NotLongest => not_longest(register, office, parent),
            _ => of_actor(register, office, refusal),
        },
        Step::Vote { office, message } | Step::Register { office, message } => {
            of_message(register, office, message, refusal)
        }
        Step::Finalise { office, block } => match refusal {
            Refusal::NotFinal => not_final(register, office, block),
            Refusal::Behind => behind(register, office, block),
            _ => of_actor(register, office, refusal),
        },
        Step::Deliver { message, office } => not_sent(register, office, message),
        Step::BadSend {
            sender,
            kind,
            signer,
            block,
        } => match refusal {
            Refusal::TrustedSender => trusted_sender(register, sender),
            _ => forged(register, kind, signer, block),
        },
        Step::Draft { .. } | Step::Advance => refusal.meaning().to_string(),
    }
}

/// 6: the first office of the step that is not there.
fn no_office(step: &Step, register: &Register) -> String {
    let named = match *step {
        Step::Propose { office, .. }
        | Step::Vote { office, .. }
        | Step::Register { office, .. }
        | Step::Finalise { office, .. }
        | Step::Deliver { office, .. } => office,
        Step::BadSend { sender, .. } if sender.0 >= register.n() => sender,
        Step::BadSend { signer, .. } => signer,
        Step::Draft { .. } | Step::Advance => return Refusal::NoOffice.meaning().to_string(),
    };
    let last = register.n() - 1;
    format!("there is no office {}: offices 0 to {last}", named.0)
}

/// 7.
fn no_block(step: &Step, register: &Register) -> String {
    let named = match *step {
        Step::Propose { parent, .. } | Step::Draft { parent, .. } => parent,
        Step::Finalise { block, .. } | Step::BadSend { block, .. } => block,
        _ => return Refusal::NoBlock.meaning().to_string(),
    };
    match (named, register.last_block()) {
        (GENESIS, _) => "no message is about genesis, block 0".to_string(),
        (Block(named), GENESIS) => format!("there is no block {named} yet: only genesis, block 0"),
        (Block(named), Block(last)) => {
            format!("there is no block {named} yet: the newest is block {last}")
        }
    }
}

/// 8.
fn no_message(step: &Step, register: &Register) -> String {
    let named = match *step {
        Step::Vote { message, .. }
        | Step::Register { message, .. }
        | Step::Deliver { message, .. } => message.0,
        _ => return Refusal::NoMessage.meaning().to_string(),
    };
    match register.sent() {
        0 => format!("there is no message {named} yet: none has been sent"),
        sent => format!(
            "there is no message {named} yet: the newest is message {}",
            sent - 1
        ),
    }
}

/// 10, 12, 13 and 14: what the office may not do now.
fn of_actor(register: &Register, office: Office, refusal: Refusal) -> String {
    let (number, epoch, leader) = (office.0, register.epoch().0, register.leader().0);
    match refusal {
        Refusal::Barred => format!("office {number} is untrusted, and this is for trusted offices"),
        Refusal::Acted => acted(register, office),
        Refusal::NotLeader => format!("epoch {epoch} is led by office {leader}, not {number}"),
        Refusal::LeaderVotes => {
            format!("office {number} leads epoch {epoch}: it proposes, and does not vote")
        }
        _ => refusal.meaning().to_string(),
    }
}

/// 12: what the office did. All that it signed of this epoch's blocks it signed
/// in this epoch, once; what follows was sent again by others.
fn acted(register: &Register, office: Office) -> String {
    let of_now = |&message: &Message| {
        let record = register.message(message);
        record.signer == office && register.block(record.block).epoch == register.epoch()
    };
    let (number, epoch) = (office.0, register.epoch().0);
    let Some(message) = all_messages(register).find(of_now) else {
        return Refusal::Acted.meaning().to_string();
    };
    let record = register.message(message);
    let did = match record.kind {
        Kind::Proposal => "proposed",
        Kind::Vote => "voted for",
    };
    let block = record.block.0;
    format!(
        "office {number} has {did} block {block} in epoch {epoch} already (message {})",
        message.0
    )
}

/// The refusals of votes and registers.
fn of_message(register: &Register, office: Office, message: Message, refusal: Refusal) -> String {
    let record = register.message(message);
    let parent = register.block(record.block).parent;
    match refusal {
        Refusal::NotInHand => not_in_hand(register, office, message),
        Refusal::Kind => {
            let wanted = match record.kind {
                Kind::Proposal => "register takes votes only",
                Kind::Vote => "a vote step needs a proposal",
            };
            let said = said(register, message);
            format!("message {} is {said}; {wanted}", message.0)
        }
        Refusal::OffEpoch => off_epoch(register, message),
        Refusal::Entered => entered(register, office, message),
        Refusal::NotLongest => format!(
            "the parent of block {} is {}; {}",
            record.block.0,
            block_name(parent),
            not_longest(register, office, parent)
        ),
        Refusal::Epochs => epochs(register, record.block),
        _ => of_actor(register, office, refusal),
    }
}

/// Where a message is that is not where it should be.
fn whereabouts(register: &Register, office: Office, message: Message) -> String {
    let (number, to) = (message.0, office.0);
    let own = register.message(message).signer == office;
    match register.place(message, office) {
        Place::View if own => {
            format!("message {number} is office {to}'s own, and in its view since it was sent")
        }
        Place::View => format!("message {number} is in office {to}'s view already"),
        Place::Inbox => format!("message {number} is in office {to}'s inbox already"),
        Place::InTransit => format!("message {number} is still in transit to office {to}"),
        Place::Absent => format!("office {to} is untrusted, and nothing is ever in transit to it"),
    }
}

/// 15.
fn not_in_hand(register: &Register, office: Office, message: Message) -> String {
    let whereabouts = whereabouts(register, office, message);
    match register.place(message, office) {
        Place::InTransit => format!("{whereabouts}: it must be delivered first"),
        _ => whereabouts,
    }
}

/// 23.
fn not_sent(register: &Register, office: Office, message: Message) -> String {
    whereabouts(register, office, message)
}

/// 17: the signer, the block's epoch, or both.
fn off_epoch(register: &Register, message: Message) -> String {
    let record = register.message(message);
    let (now, leader) = (register.epoch(), register.leader());
    let of = register.block(record.block).epoch;
    let mut reasons = Vec::new();
    if record.signer != leader {
        reasons.push(format!(
            "message {} is signed by office {}, but epoch {} is led by office {}",
            message.0, record.signer.0, now.0, leader.0
        ));
    }
    if of != now {
        reasons.push(format!(
            "block {} is of epoch {}, but this is epoch {}",
            record.block.0, of.0, now.0
        ));
    }
    reasons.join("; ")
}

/// 18: the message that has the signature.
fn entered(register: &Register, office: Office, message: Message) -> String {
    let record = register.message(message);
    let same = |&other: &Message| {
        let known = register.message(other);
        let in_view = register.place(other, office) == Place::View;
        in_view && known.signer == record.signer && known.block == record.block
    };
    let Some(holder) = all_messages(register).find(same) else {
        return Refusal::Entered.meaning().to_string();
    };
    format!(
        "office {}'s signature on block {} is in office {}'s view already: message {}, {}",
        record.signer.0,
        record.block.0,
        office.0,
        holder.0,
        kind_name(register.message(holder).kind)
    )
}

/// 19: what the chain lacks, or which is longer.
fn not_longest(register: &Register, office: Office, parent: Block) -> String {
    let number = office.0;
    if let Some(faults) = chain_faults(register, office, parent) {
        let name = block_name(parent);
        return format!("the chain of {name} is not notarised for office {number}: {faults}");
    }
    let longest = Standing::of(register, office).longest();
    format!(
        "for office {number} the notarised {} is longer than the {}",
        chain_name(register, longest[0]),
        chain_name(register, parent)
    )
}

/// 20.
fn epochs(register: &Register, block: Block) -> String {
    let record = register.block(block);
    format!(
        "block {} is of epoch {}, not above that of its parent, {}: epoch {}",
        block.0,
        record.epoch.0,
        block_name(record.parent),
        register.block(record.parent).epoch.0
    )
}

/// 21: each part of the condition that fails.
fn not_final(register: &Register, office: Office, b: Block) -> String {
    let mut reasons: Vec<String> = no_run_of_three(register, b).into_iter().collect();
    if register.block(b).parent != GENESIS
        && let Some(faults) = chain_faults(register, office, b)
    {
        let (number, office) = (b.0, office.0);
        reasons.push(format!(
            "the chain of block {number} is not notarised for office {office}: {faults}"
        ));
    }
    reasons.join("; ")
}

/// Why a block is not the newest of three of consecutive epochs, if it isn't.
pub fn no_run_of_three(register: &Register, b: Block) -> Option<String> {
    if b == GENESIS {
        return Some("genesis has no parent that could become final".to_string());
    }
    let c = register.block(b).parent;
    if c == GENESIS {
        let parent = "makes its parent final, and that is genesis";
        return Some(format!("naming block {} {parent}", b.0));
    }
    if register.ends_three_in_a_row(b) {
        return None;
    }
    let d = register.block(c).parent;
    let epochs = [d, c, b].map(|block| register.block(block).epoch.0);
    Some(format!(
        "{}, block {} and block {} are of epochs {}, not consecutive",
        block_name(d),
        c.0,
        b.0,
        listed(epochs.iter())
    ))
}

/// 32.
fn behind(register: &Register, office: Office, b: Block) -> String {
    let c = register.block(b).parent;
    let present = register.final_block(office);
    format!(
        "for office {} block {} is final, a chain of {}; that of block {} has {}",
        office.0,
        present.0,
        blocks(register.chain_length(present)),
        c.0,
        register.chain_length(c)
    )
}

/// 11.
fn trusted_sender(register: &Register, sender: Office) -> String {
    let offices = (0..register.n()).map(Office);
    let untrusted = offices.filter(|&office| !register.is_trusted(office));
    format!(
        "office {} is trusted; bad sends are for untrusted offices: {}",
        sender.0,
        listed(untrusted.map(|office| office.0))
    )
}

/// 22: what the signer has sent about the block instead.
fn forged(register: &Register, kind: Kind, signer: Office, block: Block) -> String {
    let about = |&message: &Message| {
        let record = register.message(message);
        record.signer == signer && record.block == block
    };
    let there = match all_messages(register).find(about) {
        Some(message) => {
            let kind = kind_name(register.message(message).kind);
            format!(
                "of its signatures on this block there is only {kind}, message {}",
                message.0
            )
        }
        None => "it has signed nothing about this block".to_string(),
    };
    format!(
        "office {} is trusted and never sent {} for block {}: {there}",
        signer.0,
        kind_name(kind),
        block.0
    )
}
