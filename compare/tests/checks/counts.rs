//! The counts of signers in the report's office lines: against the plain
//! definition, and which telling ones the generated logs bring.

use super::coverage::with_finalise_steps;
use super::forks::{chain, register_after};
use super::seeds;
use super::signers::count_of_signers;
use skovarnek_compare::register::{Block, GENESIS, Kind, Message, Office, Place, Register};
use skovarnek_compare::{check, generate};
use std::collections::BTreeSet;

/// The lines of the trusted offices, ascending, by the plain definition.
fn office_lines(register: &Register) -> Vec<String> {
    let line = |office: Office| {
        let last = register.final_block(office);
        let length = chain(register, last).len() - 1;
        let signers = count_of_signers(register, office, last);
        format!("office {} {} {length} {signers}", office.0, last.0)
    };
    register.trusted_offices().map(line).collect()
}

#[test]
fn office_lines_have_the_count() {
    for seed in seeds() {
        let log = generate::log(seed);
        let Some(register) = register_after(&log) else {
            continue;
        };
        let report = String::from_utf8(check(&log)).expect("a report is text");
        let lines = report.lines().filter(|line| line.starts_with("office"));
        let lines: Vec<&str> = lines.collect();
        assert_eq!(lines, office_lines(&register), "seed {seed}");
    }
}

/// An office line at the end of a log, with a final block other than genesis.
struct Line<'a> {
    register: &'a Register,
    office: Office,
    last: Block,
    /// How many have signed the final block in the office's view.
    signers: u32,
    /// How many had when the last accepted step of finalise was taken.
    signers_then: u32,
    /// The block that this step named: a child of the final block.
    named: Block,
}

impl Line<'_> {
    fn n(&self) -> u32 {
        self.register.n().into()
    }

    /// The different signers of the final block, by the messages that count.
    fn signers_by(&self, counts: impl Fn(Place, Kind) -> bool) -> BTreeSet<Office> {
        let messages = (0..self.register.sent() as u16).map(Message);
        let counted = messages.filter(|&message| {
            let record = self.register.message(message);
            let place = self.register.place(message, self.office);
            record.block == self.last && counts(place, record.kind)
        });
        counted.map(|it| self.register.message(it).signer).collect()
    }

    /// Whether it would be another count if these messages counted.
    fn differs_if(&self, counts: impl Fn(Place, Kind) -> bool) -> bool {
        self.signers_by(counts).len() != self.signers as usize
    }

    fn counts_untrusted(&self) -> bool {
        let signers = self.signers_by(|place, _| place == Place::View);
        signers.iter().any(|&q| !self.register.is_trusted(q))
    }

    /// Whether the same block is final for another trusted office, in whose view
    /// it has another count.
    fn differs_elsewhere(&self) -> bool {
        self.register.trusted_offices().any(|other| {
            self.register.final_block(other) == self.last
                && count_of_signers(self.register, other, self.last) != self.signers
        })
    }

    fn differs_from_named(&self) -> bool {
        count_of_signers(self.register, self.office, self.named) != self.signers
    }
}

/// The register after a log, if it reads, and by office the block that the last
/// accepted step of finalise named, with the count of the final block then.
type Finalised = (Register, [Option<(Block, u32)>; 32]);

fn finalised(log: &[u8]) -> Option<Finalised> {
    let mut steps = [None; 32];
    let register = with_finalise_steps(log, |register, office, named| {
        if let Ok(last) = register.finalise(office, named) {
            let signers = count_of_signers(register, office, last);
            steps[office.index()] = Some((named, signers));
        }
    })?;
    Some((register, steps))
}

/// Looks at the office lines of a log, if it reads, that have a final block other
/// than genesis. Only finalise makes one final.
fn with_lines(log: &[u8], mut look: impl FnMut(&Line)) {
    let Some((register, steps)) = finalised(log) else {
        return;
    };
    for office in register.trusted_offices() {
        let last = register.final_block(office);
        assert_eq!(last == GENESIS, steps[office.index()].is_none());
        if let Some((named, signers_then)) = steps[office.index()] {
            look(&Line {
                register: &register,
                office,
                last,
                signers: count_of_signers(&register, office, last),
                signers_then,
                named,
            });
        }
    }
}

/// What such a line can be, when it is that, and how many lines have to be.
type Telling = (&'static str, fn(&Line) -> bool, usize);

const TELLING: &[Telling] = &[
    ("one, n is 1", |line| line.n() == 1, 40),
    ("all of 32", |line| line.signers == 32, 190),
    ("all", |line| line.signers == line.n(), 900),
    (
        "just enough",
        |line| line.signers == (2 * line.n()).div_ceil(3),
        1400,
    ),
    ("an untrusted one", |line| line.counts_untrusted(), 1500),
    (
        "more or fewer in another view",
        |line| line.differs_elsewhere(),
        1400,
    ),
    (
        "more than when it was made final",
        |line| line.signers > line.signers_then,
        850,
    ),
    (
        "more or fewer than the block named has",
        |line| line.differs_from_named(),
        1400,
    ),
    (
        "more if the inbox counted",
        |line| line.differs_if(|place, _| [Place::Inbox, Place::View].contains(&place)),
        340,
    ),
    (
        "more if the history counted",
        |line| line.differs_if(|_, _| true),
        1000,
    ),
    (
        "fewer if only votes counted",
        |line| line.differs_if(|place, kind| (place, kind) == (Place::View, Kind::Vote)),
        3200,
    ),
];

/// In the generated logs are final blocks whose count a wrong way of counting
/// would miss.
#[test]
fn generated_logs_bring_telling_counts() {
    let mut found = [0; TELLING.len()];
    for seed in 0..4000 {
        with_lines(&generate::log(seed), |line| {
            for ((_, holds, _), lines) in TELLING.iter().zip(&mut found) {
                *lines += usize::from(holds(line));
            }
        });
    }
    for ((what, _, least), lines) in TELLING.iter().zip(found) {
        println!("signers of a final block, {what}: {lines}");
        assert!(lines >= *least, "signers of a final block, {what}: {lines}");
    }
}

/// In the generated logs genesis stays final where there are blocks, and with
/// the least and the greatest n.
#[test]
fn generated_logs_bring_genesis_as_final() {
    let [mut with_blocks, mut of_1, mut of_32] = [0; 3];
    for seed in 0..4000 {
        let Some(register) = register_after(&generate::log(seed)) else {
            continue;
        };
        let offices = register.trusted_offices();
        let lines = offices.filter(|&office| register.final_block(office) == GENESIS);
        let lines = lines.count();
        let lines_if = |condition: bool| if condition { lines } else { 0 };
        with_blocks += lines_if(register.last_block() > GENESIS);
        of_1 += lines_if(register.n() == 1);
        of_32 += lines_if(register.n() == 32);
    }
    for (what, lines, least) in [
        ("there are blocks", with_blocks, 8000),
        ("n is 1", of_1, 22),
        ("n is 32", of_32, 1600),
    ] {
        println!("genesis final, {what}: {lines}");
        assert!(lines >= least, "genesis final, {what}: {lines}");
    }
}
