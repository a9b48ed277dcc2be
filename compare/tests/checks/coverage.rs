//! What the generated logs bring: each refusal that a log can bring, in each
//! step that can bring it, accepted steps of each kind, no bytes at all, forks,
//! final chains that grow, stay or would go back, chains that have just begun,
//! and steps that are decided by one signer.

use super::decided::Decision;
use super::forks::{chain, chains_after_fork, notarised_tips, register_after};
use skovarnek_compare::generate;
use skovarnek_compare::packed::read_log;
use skovarnek_compare::refusal::Refusal;
use skovarnek_compare::register::{Block, Kind, Office, Place, Register, Step};
use skovarnek_compare::text::step_word;
use std::collections::BTreeMap;

/// The outcome of a log of no bytes, which is neither accepted nor refused. No
/// refusal has this number.
const EMPTY: u8 = u8::MAX;

/// By kind of step, the outcomes that a log can show: 0 is accepted. Kind 0 is
/// the log itself.
const OUTCOMES: [&[u8]; 9] = [
    // The log itself; 27 is for those with bytes.
    &[0, 1, 2, 3, 4, 27, 28, 29, 30, EMPTY],
    // Propose: 20 needs a notarised block of this epoch before the leader acts.
    &[0, 6, 7, 10, 12, 13, 19, 25, 26],
    // Vote
    &[0, 6, 8, 10, 12, 14, 15, 16, 17, 18, 19, 20, 26],
    // Register
    &[0, 6, 8, 10, 15, 16, 18],
    // Finalise
    &[0, 6, 7, 10, 21, 32],
    // Deliver
    &[0, 6, 8, 23],
    // Bad send
    &[0, 6, 7, 11, 22, 26],
    // Draft: an epoch above 511 doesn't fit its field.
    &[0, 7, 25],
    // Advance
    &[0, 24],
];

type Table = BTreeMap<(u8, u8), usize>;

fn count(log: &[u8], table: &mut Table) {
    let outcome = |refusal: Option<Refusal>| refusal.map_or(0, Refusal::number);
    let mut hit = |kind: u8, outcome: u8| *table.entry((kind, outcome)).or_default() += 1;
    match read_log(log) {
        Err(_) if log.is_empty() => hit(0, EMPTY),
        Err(refusal) => hit(0, outcome(Some(refusal))),
        Ok(log) => {
            hit(0, 0);
            let mut register = Register::open(&log.opening).expect("a log that reads opens");
            for step in &log.steps {
                hit(step.kind(), outcome(register.step(step).err()));
            }
        }
    }
}

fn outcome_text(outcome: u8) -> String {
    match outcome {
        EMPTY => "empty".to_string(),
        _ => outcome.to_string(),
    }
}

#[test]
fn generated_logs_bring_everything() {
    let mut table = Table::new();
    for seed in 0..4000 {
        count(&generate::log(seed), &mut table);
    }
    let mut missing = Vec::new();
    for (kind, outcomes) in (0..).zip(OUTCOMES) {
        let word = if kind == 0 { "log" } else { step_word(kind) };
        let hits = |outcome: u8| table.get(&(kind, outcome)).copied().unwrap_or(0);
        let row: Vec<String> = outcomes
            .iter()
            .map(|&o| format!("{}: {}", outcome_text(o), hits(o)))
            .collect();
        println!("{word:<9} {}", row.join("  "));
        let absent = outcomes.iter().filter(|&&outcome| hits(outcome) == 0);
        missing.extend(absent.map(|&o| format!("{word} {}", outcome_text(o))));
    }
    assert!(missing.is_empty(), "never brought: {}", missing.join(", "));
    let known = |&(kind, outcome): &(u8, u8)| OUTCOMES[usize::from(kind)].contains(&outcome);
    assert!(table.keys().all(known), "an outcome that no log can show");
}

#[test]
fn a_seed_gives_one_log() {
    for seed in 0..50 {
        assert_eq!(generate::log(seed), generate::log(seed));
    }
    assert_ne!(generate::log(0), generate::log(1));
}

/// Among the generated logs are some in which two chains grow in turn, both
/// notarised in one view, over many blocks.
#[test]
fn generated_logs_bring_forks() {
    let depths: Vec<usize> = (0..4000)
        .filter_map(|seed| register_after(&generate::log(seed)))
        .map(|register| {
            let offices = register.trusted_offices();
            let depths = offices.map(|office| chains_after_fork(&register, office));
            depths.max().unwrap_or(0)
        })
        .collect();
    for (depth, least) in [(1, 200), (5, 100), (10, 50), (100, 1)] {
        let logs = depths.iter().filter(|&&brought| brought >= depth).count();
        println!("forks of {depth} blocks or more: {logs}");
        assert!(logs >= least, "forks of {depth} blocks: {logs}");
    }
}

/// Takes the steps of a log, if it reads, and leaves those that finalise to
/// `finalise`. Gives the register after them.
pub fn with_finalise_steps(
    log: &[u8],
    mut finalise: impl FnMut(&mut Register, Office, Block),
) -> Option<Register> {
    let log = read_log(log).ok()?;
    let mut register = Register::open(&log.opening).expect("a log that reads opens");
    for step in &log.steps {
        if let Step::Finalise { office, block } = *step {
            finalise(&mut register, office, block);
        } else {
            let _ = register.step(step);
        }
    }
    Some(register)
}

/// How many finalise steps do what to the final chain of their office.
#[derive(Default)]
struct Finalised {
    /// Refused with 32.
    behind: usize,
    /// Of these, the ones of an office that sees two notarised chains.
    behind_at_fork: usize,
    /// Accepted, and the chain is as long as before.
    as_long: usize,
    /// Accepted, and a chain that had blocks before is longer.
    longer: usize,
}

impl Finalised {
    /// Takes the step and counts it.
    fn finalise(&mut self, register: &mut Register, office: Office, block: Block) {
        let before = final_length(register, office);
        let answer = register.finalise(office, block);
        let after = final_length(register, office);
        match answer {
            Err(Refusal::Behind) => {
                self.behind += 1;
                let fork = notarised_tips(register, office).len() > 1;
                self.behind_at_fork += usize::from(fork);
            }
            Ok(_) if after == before => self.as_long += 1,
            Ok(_) if before > Some(0) => self.longer += 1,
            _ => {}
        }
    }
}

/// The length of the final chain, if the office is a trusted one.
fn final_length(register: &Register, office: Office) -> Option<usize> {
    let office = register.trusted_offices().find(|&known| known == office)?;
    Some(register.chain_length(register.final_block(office)))
}

/// In the generated logs offices name older runs of three, also where they see a
/// fork, the same run again, and newer runs.
#[test]
fn generated_logs_bring_final_chains() {
    let mut found = Finalised::default();
    for seed in 0..4000 {
        with_finalise_steps(&generate::log(seed), |register, office, block| {
            found.finalise(register, office, block);
        });
    }
    for (what, steps, least) in [
        ("refused with 32", found.behind, 1000),
        ("refused with 32 at a fork", found.behind_at_fork, 100),
        ("accepted, as long", found.as_long, 1000),
        ("accepted, longer", found.longer, 3000),
    ] {
        println!("finalise {what}: {steps}");
        assert!(steps >= least, "finalise {what}: {steps}");
    }
}

/// Finalise steps that name a block of a chain which has just begun, so that
/// genesis is the oldest of the three, or nearly could be.
#[derive(Clone, Copy, Debug, PartialEq, Eq, PartialOrd, Ord)]
enum FromGenesis {
    /// Epoch 2 on epoch 1 on genesis, accepted.
    Final,
    /// The same, refused with 32.
    Behind,
    /// The same, refused with 21: the upper block is notarised, the lower isn't.
    LowerUnseen,
    /// Epoch 2 directly on genesis, notarised, refused with 21.
    Directly,
    /// Epoch 3 on epoch 1 on genesis, a notarised chain, refused with 21.
    Gap,
    /// Epoch k+2 on epoch k+1 on genesis, where k is not 0: a notarised chain,
    /// refused with 21.
    Late,
    /// Epoch 2 on epoch 1 on a block of epoch 0 on genesis, refused with 21. In
    /// the view all untrusted offices have signed the three. There can't be more:
    /// no trusted office signs a block of epoch 0, or one on it.
    OnEpoch0,
}

impl FromGenesis {
    /// Takes the step and says which of these it is, if it is one.
    fn of_step(register: &mut Register, office: Office, block: Block) -> Option<FromGenesis> {
        let refusal = match register.finalise(office, block) {
            Ok(_) => None,
            Err(refusal @ (Refusal::NotFinal | Refusal::Behind)) => Some(refusal),
            Err(_) => return None,
        };
        let chain = chain(register, block);
        let epoch = |&block: &Block| register.block(block).epoch.0;
        let epochs: Vec<u16> = chain.iter().map(epoch).collect();
        let view = register.view(office);
        let notarised = view.is_notarised_chain(block);
        match (refusal, &epochs[..]) {
            (None, [0, 1, 2]) => Some(Self::Final),
            (Some(Refusal::Behind), [0, 1, 2]) => Some(Self::Behind),
            (Some(Refusal::NotFinal), [0, 1, 2]) => {
                view.notarised(block).holds.then_some(Self::LowerUnseen)
            }
            (Some(Refusal::NotFinal), [0, 2]) if notarised => Some(Self::Directly),
            (Some(Refusal::NotFinal), [0, 1, 3]) if notarised => Some(Self::Gap),
            (Some(Refusal::NotFinal), &[0, c, b]) if notarised && c > 1 && b == c + 1 => {
                Some(Self::Late)
            }
            (Some(Refusal::NotFinal), [0, 0, 1, 2]) => {
                signed_by_untrusted(register, office, &chain[1..]).then_some(Self::OnEpoch0)
            }
            _ => None,
        }
    }
}

/// Whether there are untrusted offices, and the signatures of all of them on
/// all these blocks are in an office's view.
fn signed_by_untrusted(register: &Register, office: Office, blocks: &[Block]) -> bool {
    let offices = (0..register.n()).map(Office);
    let untrusted: Vec<Office> = offices.filter(|&q| !register.is_trusted(q)).collect();
    let view = register.view(office);
    let signed = |&q: &Office| blocks.iter().all(|&block| view.has_signature(q, block));
    !untrusted.is_empty() && untrusted.iter().all(signed)
}

/// In the generated logs runs of three have genesis as their oldest, and blocks
/// are named that miss this narrowly.
#[test]
fn generated_logs_bring_chains_from_genesis() {
    let mut found = BTreeMap::new();
    for seed in 0..4000 {
        with_finalise_steps(&generate::log(seed), |register, office, block| {
            if let Some(shown) = FromGenesis::of_step(register, office, block) {
                *found.entry(shown).or_default() += 1;
            }
        });
    }
    for (shown, least) in [
        (FromGenesis::Final, 1400),
        (FromGenesis::Behind, 370),
        (FromGenesis::LowerUnseen, 50),
        (FromGenesis::Directly, 1100),
        (FromGenesis::Gap, 900),
        (FromGenesis::Late, 380),
        (FromGenesis::OnEpoch0, 600),
    ] {
        let steps: usize = found.get(&shown).copied().unwrap_or(0);
        println!("finalise from genesis, {shown:?}: {steps}");
        assert!(steps >= least, "finalise from genesis, {shown:?}: {steps}");
    }
}

/// How many propose, vote and finalise steps are decided by what.
#[derive(Default)]
struct Decided {
    /// By office, the steps with another answer if one signature of it were not
    /// in the view.
    by_office: [usize; 32],
    /// Accepted as far as the view goes, by just enough signers of some block.
    just_enough: usize,
    /// Refused with 19 or 21 for want of one signature.
    one_too_few: usize,
    /// With another answer if the messages in the inbox counted.
    by_inbox: usize,
    /// With another answer if all sent messages counted.
    by_history: usize,
    /// With another answer if only votes counted.
    by_proposals: usize,
}

impl Decided {
    fn count(&mut self, decision: &Decision) {
        let deciders = decision.deciders();
        for (office, steps) in self.by_office.iter_mut().enumerate() {
            *steps += (deciders >> office & 1) as usize;
        }
        let hit = |condition: bool| usize::from(condition);
        self.just_enough += hit(decision.holds && deciders != 0);
        self.one_too_few += hit(!decision.holds && decision.wants_one());
        let in_hand = [Place::Inbox, Place::View];
        self.by_inbox += hit(decision.differs_if(|place, _| in_hand.contains(&place)));
        self.by_history += hit(decision.differs_if(|_, _| true));
        let vote = |place, kind| place == Place::View && kind == Kind::Vote;
        self.by_proposals += hit(decision.differs_if(vote));
    }
}

/// Counts the steps of a log, if it reads. Each has the answer that the signers
/// in the view give.
fn count_decided(log: &[u8], found: &mut Decided) {
    let Ok(log) = read_log(log) else {
        return;
    };
    let mut register = Register::open(&log.opening).expect("a log that reads opens");
    for step in &log.steps {
        if matches!(step.kind(), 1 | 2 | 4) {
            let before = register.clone();
            let answer = register.step(step);
            if let Some(decision) = Decision::of_step(&before, step, answer) {
                let no = [Err(Refusal::NotLongest), Err(Refusal::NotFinal)];
                assert_eq!(decision.holds, !no.contains(&answer), "{step:?}");
                found.count(&decision);
            }
        } else {
            let _ = register.step(step);
        }
    }
}

/// In the generated logs each office is a signer who decides, and messages that
/// don't count would often decide if they did. That messages counted in place of
/// signers would decide can't be brought: 18 keeps a second message of a signer
/// about a block out of a view.
#[test]
fn generated_logs_bring_deciding_signers() {
    let mut found = Decided::default();
    for seed in 0..4000 {
        count_decided(&generate::log(seed), &mut found);
    }
    for (what, steps, least) in [
        ("just enough", found.just_enough, 45_000),
        ("one too few", found.one_too_few, 4_800),
        ("decided by the inbox", found.by_inbox, 5_000),
        ("decided by the history", found.by_history, 54_000),
        ("decided by proposals", found.by_proposals, 49_000),
    ] {
        println!("steps {what}: {steps}");
        assert!(steps >= least, "steps {what}: {steps}");
    }
    for (office, steps) in found.by_office.into_iter().enumerate() {
        println!("steps decided by office {office}: {steps}");
        assert!(steps >= 5_700, "steps decided by office {office}: {steps}");
    }
}
