//! A slip explained: who is marked for each block of its chain, and why it is
//! accepted or refused.

use super::refused::{no_run_of_three, refused};
use super::rows::Rows;
use super::words::{block_name, blocks, of_word, offices};
use crate::refusal::Refusal;
use crate::register::{Block, Office, Register, Step, fewest_signers, is_quorum};
use crate::slip::{Slip, check, set_pad_bit, slip_bits, slip_bytes};

/// So many blocks that fail are named.
const NAMED_FAULTS: usize = 2;

/// The refusal or 0, the answer and the reason; then a line for each block of the
/// chain, oldest first, if the slip has the right form.
pub fn explain_slip(register: &Register, bytes: &[u8]) -> String {
    let mut rows = Rows::new();
    match check(register, bytes) {
        Ok(answer) => rows.noted(&format!("slip 0 {}", answer.0), &accepted(bytes, answer)),
        Err(refusal) => {
            let reason = why_refused(register, bytes, refusal);
            let note = format!("{}: {reason}", refusal.word());
            rows.noted(&format!("slip {} 0", refusal.number()), &note);
        }
    }
    if let Ok(slip) = Slip::read(register, bytes) {
        put_marks(&mut rows, register, &slip);
    }
    rows.into_text()
}

/// Why the writer refuses, but for a short buffer: for finalise's reasons.
pub fn why_not_written(
    register: &Register,
    office: Office,
    block: Block,
    refusal: Refusal,
) -> String {
    let step = Step::Finalise { office, block };
    let reason = refused(&step, refusal, register);
    let (number, word) = (refusal.number(), refusal.word());
    format!("refused with {number}, {word}: {reason}")
}

/// The slip's first byte is the block that it names.
fn accepted(bytes: &[u8], answer: Block) -> String {
    let (named, parent) = (bytes[0], answer.0);
    format!("accepted: block {parent}, the parent of block {named}, is final")
}

fn why_refused(register: &Register, bytes: &[u8], refusal: Refusal) -> String {
    match (refusal, bytes.first()) {
        (Refusal::NoBlock, Some(&named)) => {
            let last = block_name(register.last_block());
            format!("it names block {named}, and the newest is {last}")
        }
        (Refusal::SlipForm, Some(&named)) => wrong_form(register, Block(named), bytes),
        (Refusal::SlipForm, None) => {
            "it has no bytes, and the first is to name a block".to_string()
        }
        _ => {
            let slip = Slip::read(register, bytes).expect("the right form");
            wrong_marks(register, &slip, refusal)
        }
    }
}

/// 33: the length that it should have, or the pad bit that is set.
fn wrong_form(register: &Register, named: Block, bytes: &[u8]) -> String {
    let (n, length) = (register.n(), register.chain_length(named));
    let due = slip_bytes(n, length);
    if bytes.len() != due {
        return format!(
            "it names {}; with a chain of {} and n = {n} it is to have {}, not {}",
            block_name(named),
            blocks(length),
            bytes_text(due),
            bytes.len()
        );
    }
    let pad = slip_bits(n, length);
    let set = set_pad_bit(register, named, bytes).expect("a pad bit is set");
    format!("bit {set} is set, and from bit {pad} on all are to be zero")
}

fn bytes_text(count: usize) -> String {
    match count {
        1 => "1 byte".to_string(),
        _ => format!("{count} bytes"),
    }
}

/// 34: the first such marks. 21: all that fails.
fn wrong_marks(register: &Register, slip: &Slip, refusal: Refusal) -> String {
    if refusal == Refusal::UnsignedMark {
        let stray = slip.unsigned(register);
        let fault = |&(block, word): &(Block, u32)| {
            let strangers = named_offices(word);
            format!(
                "block {} is marked for {strangers}, which never signed it",
                block.0
            )
        };
        return some_of(stray.iter().map(fault).collect());
    }
    let mut reasons: Vec<String> = no_run_of_three(register, slip.block).into_iter().collect();
    let chain = register.chain(slip.block);
    let marked = chain.iter().zip(&slip.marks);
    let faults = marked.flat_map(|(&block, &word)| block_faults(register, block, word));
    let faults: Vec<String> = faults.collect();
    if !faults.is_empty() {
        reasons.push(some_of(faults));
    }
    reasons.join("; ")
}

/// What keeps a block of the chain from being notarised by these marks, or its
/// chain from being valid.
fn block_faults(register: &Register, block: Block, word: u32) -> Vec<String> {
    let (n, number) = (register.n(), block.0);
    let mut faults = Vec::new();
    if !is_quorum(word.count_ones(), n) {
        let (marks, needed) = (word.count_ones(), fewest_signers(n));
        faults.push(format!(
            "block {number} has {marks} of the {needed} marks needed"
        ));
    }
    if !register.is_valid_link(block) {
        let parent = block_name(register.block(block).parent);
        faults.push(format!(
            "block {number} is not of a greater epoch than {parent}"
        ));
    }
    faults
}

/// The first faults, and how many more there are.
fn some_of(mut faults: Vec<String>) -> String {
    let more = faults.len().saturating_sub(NAMED_FAULTS);
    faults.truncate(NAMED_FAULTS);
    if more > 0 {
        faults.push(format!("and {more} more"));
    }
    faults.join("; ")
}

/// `office 1`, or `offices 1, 2`: those whose bits are set.
fn named_offices(word: u32) -> String {
    let set = (0..32).filter(|office| word >> office & 1 == 1);
    offices(&set.map(Office).collect::<Vec<Office>>())
}

/// A line for each block of the chain; there is none for genesis.
fn put_marks(rows: &mut Rows, register: &Register, slip: &Slip) {
    let chain = register.chain(slip.block);
    if chain.is_empty() {
        return;
    }
    rows.heading(&format!(
        "the chain of block {}, {}; of n = {} offices {} are enough",
        slip.block.0,
        blocks(chain.len()),
        register.n(),
        fewest_signers(register.n())
    ));
    let signed = register.signed();
    for (block, &word) in chain.into_iter().zip(&slip.marks) {
        let line = format!("block {}, epoch {}", block.0, register.block(block).epoch.0);
        let stray = word & !signed[block.index()];
        rows.noted(&line, &marks_note(register, block, word, stray));
    }
}

/// How many offices are marked and which, and what is wrong with that. Strays are
/// those that never signed the block.
fn marks_note(register: &Register, block: Block, word: u32, stray: u32) -> String {
    let mut note = format!("{} marked: {}", word.count_ones(), of_word(word));
    if stray != 0 {
        note.push_str(&format!("; never signed by {}", named_offices(stray)));
    }
    if !is_quorum(word.count_ones(), register.n()) {
        note.push_str("; too few");
    }
    if !register.is_valid_link(block) {
        note.push_str("; its epoch is not above its parent's");
    }
    note
}
