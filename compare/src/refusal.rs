//! The numbers of refusal.

/// Why an opening, a step, a log or a slip is refused.
#[derive(Clone, Copy, Debug, PartialEq, Eq, PartialOrd, Ord, Hash)]
#[repr(u8)]
pub enum Refusal {
    Count = 1,
    Schedule = 2,
    StrayLeader = 3,
    Third = 4,
    /// Never given here: a register is made by an opening and steps only, so
    /// none of its fields can leave its range.
    UnfitRegister = 5,
    NoOffice = 6,
    NoBlock = 7,
    NoMessage = 8,
    Wide = 9,
    Barred = 10,
    TrustedSender = 11,
    Acted = 12,
    NotLeader = 13,
    LeaderVotes = 14,
    NotInHand = 15,
    Kind = 16,
    OffEpoch = 17,
    Entered = 18,
    NotLongest = 19,
    Epochs = 20,
    NotFinal = 21,
    Forged = 22,
    NotSent = 23,
    Spent = 24,
    BlocksFull = 25,
    MessagesFull = 26,
    Cut = 27,
    NoSuchStep = 28,
    Ending = 29,
    LongLog = 30,
    /// Given for slips alone: logs are written into memory that grows.
    ShortBuffer = 31,
    Behind = 32,
    SlipForm = 33,
    UnsignedMark = 34,
}

/// Word and meaning of the refusals, from number 1 up.
pub const TABLE: [(&str, &str); 34] = [
    ("count", "n not 1 to 32"),
    ("schedule", "length not 1 to 256"),
    ("stray leader", "a leader is n or above"),
    ("third", "a third or more of the offices are untrusted"),
    ("unfit register", "a field of the register breaks its range"),
    ("no office", "office number is n or above"),
    ("no block", "block number above the last block"),
    ("no message", "message number not sent yet"),
    ("wide", "a field above its width"),
    ("barred", "actor untrusted"),
    ("trusted sender", "bad send by a trusted office"),
    ("acted", "office has acted this epoch"),
    ("not leader", "proposer isn't the epoch's leader"),
    ("leader votes", "voter is the epoch's leader"),
    ("not in hand", "message not in the inbox"),
    ("kind", "not a proposal (vote), not a vote (register)"),
    (
        "off epoch",
        "signer not the leader, or block's epoch not the current one",
    ),
    (
        "entered",
        "that signer's signature on that block is in the view",
    ),
    (
        "not longest",
        "parent's chain not notarised, or not longest",
    ),
    ("epochs", "block's epoch not above its parent's"),
    ("not final", "finalise condition unmet"),
    (
        "forged",
        "signer trusted, and this kind, signer and block not in history",
    ),
    ("not sent", "message not in transit to that office"),
    ("spent", "last epoch of the schedule"),
    ("blocks full", "a new block is needed and there are 255"),
    ("messages full", "1,024 messages"),
    ("cut", "log ends before or inside a field that is due"),
    ("no such step", "kind 9 to 15"),
    ("ending", "a pad bit set, or bytes after the pad"),
    ("long log", "over 65,536 bytes"),
    ("short buffer", "writer's buffer ends too early"),
    (
        "behind",
        "final chain would be shorter than the present one",
    ),
    ("slip form", "slip of a wrong length, or with a pad bit set"),
    ("unsigned mark", "a marked signature isn't in the history"),
];

impl Refusal {
    pub fn number(self) -> u8 {
        self as u8
    }

    pub fn word(self) -> &'static str {
        TABLE[usize::from(self.number()) - 1].0
    }

    pub fn meaning(self) -> &'static str {
        TABLE[usize::from(self.number()) - 1].1
    }
}

/// Refuses unless the condition holds.
pub(crate) fn ensure(condition: bool, refusal: Refusal) -> Result<(), Refusal> {
    if condition { Ok(()) } else { Err(refusal) }
}
