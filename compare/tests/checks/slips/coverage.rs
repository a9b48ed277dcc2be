//! What the generated slips bring: each number that a slip can bring and each way
//! to it, slips that only the history bears out, and calls of the writer with
//! each of its numbers. 5 can't come, since no log leads to an unfit register.

use skovarnek_compare::generate::{SlipCalls, Writing, slip_calls};
use skovarnek_compare::refusal::Refusal;
use skovarnek_compare::register::{Block, Office, Register, fewest_signers, is_quorum};
use skovarnek_compare::slip::{self, Slip, slip_bytes};

/// A slip that is checked.
struct Checked<'a> {
    register: &'a Register,
    bytes: &'a [u8],
    /// If it has the right form.
    slip: Option<Slip>,
    answer: Result<Block, Refusal>,
}

impl<'a> Checked<'a> {
    fn new(register: &'a Register, bytes: &'a [u8]) -> Checked<'a> {
        Checked {
            register,
            bytes,
            slip: Slip::read(register, bytes).ok(),
            answer: slip::check(register, bytes),
        }
    }

    fn accepted(&self) -> bool {
        self.answer.is_ok()
    }

    fn refused(&self, refusal: Refusal) -> bool {
        self.answer == Err(refusal)
    }

    /// Of no bytes, and of no block that has been made, nothing is due.
    fn due_bytes(&self) -> usize {
        let named = self.bytes.first().map(|&first| Block(first));
        let named = named.filter(|&named| named <= self.register.last_block());
        let length = named.map(|named| self.register.chain_length(named));
        length.map_or(0, |length| slip_bytes(self.register.n(), length))
    }

    /// What it says, if it is refused for a pad bit alone.
    fn without_pad(&self) -> Option<Slip> {
        let due = self.due_bytes();
        if due == 0 || self.bytes.len() != due || !self.refused(Refusal::SlipForm) {
            return None;
        }
        let blocks = self.register.chain_length(Block(self.bytes[0]));
        let pad = 8 * (due - 1) - blocks * usize::from(self.register.n());
        let mut bytes = self.bytes.to_vec();
        bytes[due - 1] = bytes[due - 1] >> pad << pad;
        Slip::read(self.register, &bytes).ok()
    }

    fn chain(&self) -> Vec<Block> {
        let named = self.slip.as_ref().map(|slip| slip.block);
        named.map_or_else(Vec::new, |named| self.register.chain(named))
    }

    /// Whether each block's number of marks is such.
    fn each_count(&self, such: impl Fn(u32) -> bool) -> bool {
        let slip = self.slip.as_ref();
        slip.is_some_and(|slip| slip.marks.iter().all(|marks| such(marks.count_ones())))
    }

    fn enough(&self) -> bool {
        self.each_count(|marks| is_quorum(marks, self.register.n()))
    }

    fn valid(&self) -> bool {
        let chain = self.chain();
        chain
            .iter()
            .all(|&block| self.register.is_valid_link(block))
    }

    fn in_a_row(&self) -> bool {
        let slip = self.slip.as_ref();
        slip.is_some_and(|slip| self.register.ends_three_in_a_row(slip.block))
    }

    /// 21, and which of the three conditions hold: enough marks, a valid chain, a
    /// run of three.
    fn not_final(&self, enough: bool, valid: bool, in_a_row: bool) -> bool {
        self.refused(Refusal::NotFinal)
            && (self.enough(), self.valid(), self.in_a_row()) == (enough, valid, in_a_row)
    }

    /// Whether some marked signature is in no trusted office's view.
    fn marks_unseen(&self) -> bool {
        let marks = self.slip.iter().flat_map(|slip| &slip.marks);
        let mut marked = self.chain().into_iter().zip(marks);
        marked.any(|(block, &marks)| {
            let offices = self.register.trusted_offices();
            let seen = offices.map(|office| self.register.view(office).signers(block));
            marks & !seen.fold(0, |all, signers| all | signers) != 0
        })
    }

    /// Whether it is refused, and wouldn't be with its marks in the other order.
    fn is_reversed(&self) -> bool {
        let reversed = self.slip.clone().map(|mut slip| {
            slip.marks.reverse();
            slip.bytes(self.register.n())
        });
        let right = |bytes: Vec<u8>| slip::check(self.register, &bytes).is_ok();
        !self.accepted() && reversed.is_some_and(right)
    }

    /// Whether no office's view would do for a slip of this block.
    fn nobody_writes_it(&self) -> bool {
        let mut offices = self.register.trusted_offices();
        let named = Block(self.bytes[0]);
        !offices.any(|office| slip::write(self.register, office, named).is_ok())
    }
}

/// What a slip can be, when it is that, and how many have to be.
type Telling = (&'static str, fn(&Checked) -> bool, usize);

const SLIPS: &[Telling] = &[
    ("accepted", |it| it.accepted(), 6000),
    (
        "accepted, just enough marks on each block",
        |it| it.accepted() && it.each_count(|marks| marks == fewest_signers(it.register.n())),
        2300,
    ),
    (
        "accepted, n is 1",
        |it| it.accepted() && it.register.n() == 1,
        450,
    ),
    (
        "accepted, n is 32",
        |it| it.accepted() && it.register.n() == 32,
        850,
    ),
    (
        "accepted, 20 blocks or more",
        |it| it.accepted() && it.chain().len() >= 20,
        160,
    ),
    (
        "accepted, 100 blocks or more",
        |it| it.accepted() && it.chain().len() >= 100,
        15,
    ),
    (
        "accepted, genesis the oldest of the three",
        |it| it.accepted() && it.chain().len() == 2,
        2700,
    ),
    (
        "accepted, with a signature that is in no view",
        |it| it.accepted() && it.marks_unseen(),
        200,
    ),
    (
        "accepted, though no view has enough signatures",
        |it| it.accepted() && it.nobody_writes_it(),
        340,
    ),
    ("7", |it| it.refused(Refusal::NoBlock), 1900),
    (
        "7, one byte",
        |it| it.refused(Refusal::NoBlock) && it.bytes.len() == 1,
        250,
    ),
    (
        "33, no bytes",
        |it| it.refused(Refusal::SlipForm) && it.bytes.is_empty(),
        500,
    ),
    (
        "33, too short",
        |it| it.refused(Refusal::SlipForm) && it.bytes.len() < it.due_bytes(),
        1600,
    ),
    (
        "33, too long",
        |it| it.refused(Refusal::SlipForm) && it.bytes.len() > it.due_bytes(),
        2000,
    ),
    (
        "33, block 0 and more",
        |it| it.refused(Refusal::SlipForm) && it.bytes.first() == Some(&0),
        550,
    ),
    ("33, a pad bit", |it| it.without_pad().is_some(), 1200),
    (
        "33, a pad bit and an unsigned mark",
        |it| {
            it.without_pad()
                .is_some_and(|slip| !slip.unsigned(it.register).is_empty())
        },
        100,
    ),
    ("34", |it| it.refused(Refusal::UnsignedMark), 2400),
    (
        "34, and nothing else is wrong",
        |it| it.refused(Refusal::UnsignedMark) && it.enough() && it.valid() && it.in_a_row(),
        1100,
    ),
    (
        "34, and too few marks",
        |it| it.refused(Refusal::UnsignedMark) && !it.enough(),
        1000,
    ),
    (
        "34, n is 32",
        |it| it.refused(Refusal::UnsignedMark) && it.register.n() == 32,
        280,
    ),
    (
        "21, too few marks alone",
        |it| it.not_final(false, true, true),
        1800,
    ),
    (
        "21, no run of three alone",
        |it| it.not_final(true, true, false),
        2400,
    ),
    (
        "21 or 34, but right if the newest block came first",
        |it| it.is_reversed(),
        100,
    ),
    // Alone it can't come: too few sign a block that is not above its parent.
    (
        "21, an invalid chain",
        |it| it.not_final(false, false, true),
        80,
    ),
    (
        "21, block 0",
        |it| it.refused(Refusal::NotFinal) && it.bytes == [0],
        1400,
    ),
];

/// The calls of the seeds from 0 on, on logs that read.
fn with_registers(mut look: impl FnMut(&Register, &SlipCalls)) {
    for seed in 0..4000 {
        let calls = slip_calls(seed);
        if let Some(register) = &calls.register {
            look(register, &calls);
        }
    }
}

/// Prints how many there are of each, and asks for as many as there have to be.
fn assert_found<'a>(what: &str, rows: impl Iterator<Item = (&'a str, usize, usize)>) {
    let rows: Vec<(&str, usize, usize)> = rows.collect();
    for (name, _, count) in &rows {
        println!("{what} {name}: {count}");
    }
    for (name, least, count) in rows {
        assert!(count >= least, "{what} {name}: {count}");
    }
}

#[test]
fn generated_slips_bring_everything() {
    let mut found = [0; SLIPS.len()];
    with_registers(|register, calls| {
        for bytes in &calls.slips {
            let checked = Checked::new(register, bytes);
            for ((_, holds, _), count) in SLIPS.iter().zip(&mut found) {
                *count += usize::from(holds(&checked));
            }
        }
    });
    let rows = SLIPS.iter().zip(found);
    let rows = rows.map(|(&(name, _, least), count)| (name, least, count));
    assert_found("slip", rows);
}

/// A call of the writer.
struct Called {
    /// The length of its buffer.
    room: usize,
    /// The length of the slip, if there is one.
    length: Result<usize, Refusal>,
    given: Result<usize, Refusal>,
}

impl Called {
    fn new(register: &Register, call: &Writing) -> Called {
        let mut buffer = vec![call.dirt; call.room];
        let (office, block) = (Office(call.office), Block(call.block));
        let slip = slip::write(register, office, block);
        Called {
            room: call.room,
            length: slip.map(|slip| slip.bytes(register.n()).len()),
            given: slip::write_into(register, office, block, &mut buffer),
        }
    }

    fn written(&self) -> bool {
        self.given.is_ok()
    }

    fn refused(&self, refusal: Refusal) -> bool {
        self.given == Err(refusal)
    }
}

/// What a call can be, when it is that, and how many have to be.
type TellingCall = (&'static str, fn(&Called) -> bool, usize);

const CALLS: &[TellingCall] = &[
    ("written", |it| it.written(), 3000),
    ("written, just fitting", |it| it.given == Ok(it.room), 2000),
    (
        "written, a byte of room more",
        |it| it.written() && it.given.map(|length| length + 1) == Ok(it.room),
        800,
    ),
    ("6", |it| it.refused(Refusal::NoOffice), 2600),
    ("7", |it| it.refused(Refusal::NoBlock), 1500),
    ("10", |it| it.refused(Refusal::Barred), 450),
    ("21", |it| it.refused(Refusal::NotFinal), 2200),
    (
        "21, no bytes of room",
        |it| it.refused(Refusal::NotFinal) && it.room == 0,
        150,
    ),
    ("31", |it| it.refused(Refusal::ShortBuffer), 1500),
    (
        "31, a byte short",
        |it| it.refused(Refusal::ShortBuffer) && it.length == Ok(it.room + 1),
        850,
    ),
    (
        "31, no bytes of room",
        |it| it.refused(Refusal::ShortBuffer) && it.room == 0,
        300,
    ),
];

#[test]
fn generated_calls_of_the_writer_bring_everything() {
    let mut found = [0; CALLS.len()];
    with_registers(|register, calls| {
        for call in &calls.writings {
            let called = Called::new(register, call);
            for ((_, holds, _), count) in CALLS.iter().zip(&mut found) {
                *count += usize::from(holds(&called));
            }
        }
    });
    let rows = CALLS.iter().zip(found);
    let rows = rows.map(|(&(name, _, least), count)| (name, least, count));
    assert_found("writer", rows);
}

#[test]
fn a_seed_gives_the_same_calls() {
    for seed in 0..50 {
        let [one, other] = [seed, seed].map(slip_calls);
        assert_eq!(one.slips, other.slips);
        assert_eq!(one.writings, other.writings);
    }
}
