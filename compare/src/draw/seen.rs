//! What a picture shows: each block as an office sees it after some steps.

use super::Choice;
use crate::packed::Log;
use crate::register::{Block, Epoch, GENESIS, Office, Opening, Register, View, fewest_signers};

/// A register as an office sees it.
#[derive(Clone, Debug, PartialEq, Eq)]
pub struct Seen {
    pub office: Office,
    pub n: u8,
    /// So many signers are enough.
    pub needed: u32,
    pub untrusted: Vec<Office>,
    pub epoch: Epoch,
    pub last_epoch: Epoch,
    /// So many steps were taken, of so many.
    pub taken: usize,
    pub steps: usize,
    /// By number, genesis first.
    pub blocks: Vec<SeenBlock>,
}

/// A block as an office sees it.
#[derive(Clone, Debug, PartialEq, Eq)]
pub struct SeenBlock {
    pub number: Block,
    /// Genesis has none.
    pub parent: Option<Block>,
    pub epoch: Epoch,
    pub payload: u16,
    /// Epoch 0 has no leader, nor has one beyond the schedule.
    pub leader: Option<Office>,
    /// Whose signatures are in the view.
    pub signers: Vec<Office>,
    /// How many signers count: for genesis all offices.
    pub count: u32,
    pub notarised: bool,
    /// It stands in a chain that is longest.
    pub longest: bool,
    /// It stands in the office's final chain.
    pub is_final: bool,
    /// The other trusted offices whose final block it is.
    pub final_for: Vec<Office>,
}

impl Seen {
    /// Whether a block's epoch is not above its parent's: no chain with it is
    /// valid.
    pub fn is_backward(&self, block: &SeenBlock) -> bool {
        let parent = block.parent.map(|parent| &self.blocks[parent.index()]);
        parent.is_some_and(|parent| block.epoch <= parent.epoch)
    }
}

/// Takes the chosen steps of a log and looks at the register as the chosen
/// office.
pub fn seen(log: &Log, choice: &Choice) -> Result<Seen, String> {
    let steps = log.steps.len();
    let taken = choice.step.unwrap_or(steps);
    if taken > steps {
        return Err(format!("there is no step {taken}: the log has {steps}"));
    }
    let office = chosen_office(&log.opening, choice)?;
    let mut register = Register::open(&log.opening).expect("a log that reads opens");
    for step in &log.steps[..taken] {
        let _ = register.step(step);
    }
    let n = register.n();
    let offices = (0..n).map(Office);
    Ok(Seen {
        office,
        n,
        needed: fewest_signers(n),
        untrusted: offices.filter(|&q| !register.is_trusted(q)).collect(),
        epoch: register.epoch(),
        last_epoch: register.last_epoch(),
        taken,
        steps,
        blocks: seen_blocks(&register, &log.opening, office),
    })
}

fn chosen_office(opening: &Opening, choice: &Choice) -> Result<Office, String> {
    let mut offices = (0..opening.n).map(Office);
    let Some(chosen) = choice.office else {
        let trusted = offices.find(|&office| opening.is_trusted(office));
        return Ok(trusted.expect("some office is trusted"));
    };
    let n = opening.n;
    let Some(office) = offices.find(|office| office.index() == chosen) else {
        return Err(format!(
            "there is no office {chosen}: the log has {n}, from 0 up"
        ));
    };
    if !opening.is_trusted(office) {
        return Err(format!(
            "office {chosen} is untrusted: it has no view to draw"
        ));
    }
    Ok(office)
}

fn seen_blocks(register: &Register, opening: &Opening, office: Office) -> Vec<SeenBlock> {
    let view = register.view(office);
    let all = || (0..=register.last_block().0).map(Block);
    let tips = all().filter(|&block| view.is_longest(block));
    let longest = below(register, tips);
    let finals = below(register, [register.final_block(office)].into_iter());
    let seen = |block: Block| SeenBlock {
        longest: longest[block.index()],
        is_final: finals[block.index()],
        ..seen_block(register, opening, &view, office, block)
    };
    all().map(seen).collect()
}

/// By block, whether it stands in the chain of one of these.
fn below(register: &Register, tips: impl Iterator<Item = Block>) -> Vec<bool> {
    let mut marked = vec![false; register.last_block().index() + 1];
    marked[GENESIS.index()] = true;
    for tip in tips {
        let mut block = tip;
        while !marked[block.index()] {
            marked[block.index()] = true;
            block = register.block(block).parent;
        }
    }
    marked
}

/// A block without what its chain says.
fn seen_block(
    register: &Register,
    opening: &Opening,
    view: &View,
    office: Office,
    block: Block,
) -> SeenBlock {
    let record = register.block(block);
    let others = register.trusted_offices().filter(|&other| other != office);
    let offices = (0..register.n()).map(Office);
    let notarised = view.notarised(block);
    SeenBlock {
        number: block,
        parent: (block != GENESIS).then_some(record.parent),
        epoch: record.epoch,
        payload: record.payload,
        leader: leader(opening, record.epoch),
        signers: offices.filter(|&q| view.has_signature(q, block)).collect(),
        count: notarised.signers,
        notarised: notarised.holds,
        longest: false,
        is_final: false,
        final_for: others
            .filter(|&q| register.final_block(q) == block)
            .collect(),
    }
}

/// The first entry of a schedule leads epoch 1.
fn leader(opening: &Opening, epoch: Epoch) -> Option<Office> {
    let place = usize::from(epoch.0).checked_sub(1)?;
    opening.schedule.get(place).copied()
}
