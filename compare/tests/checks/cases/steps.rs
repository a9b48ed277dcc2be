//! Every refusal of every step, and where the order of two of them shows.

use super::{BAD_LEADER, BAD_OFFICE, Case, ONE, THREE, case, no_final};

/// Name, opening, steps and lines of a case in which nothing gets final.
type Row = (&'static str, &'static str, &'static str, &'static str);

pub fn cases() -> Vec<Case> {
    let tables = [
        PROPOSE,
        VOTE,
        VOTE_BY_VIEW,
        REGISTER,
        FINALISE,
        DELIVER,
        BAD_SEND,
        DRAFT_AND_ADVANCE,
    ];
    let rows = tables.into_iter().flatten();
    let rows = rows.map(|(name, opening, steps, lines)| no_final(name, opening, steps, lines));
    let alone = ALONE.iter().chain(FROM_GENESIS);
    let alone = alone.map(|(name, steps, lines, office)| case(name, ONE, steps, lines, office));
    rows.chain(alone).collect()
}

const PROPOSE: &[Row] = &[
    ("propose 6, before 7", THREE, "propose 3 9 7", "1 6 0"),
    ("propose 7", THREE, "propose 0 1 7", "1 7 0"),
    ("propose 7, before 10", BAD_LEADER, "propose 3 1 7", "1 7 0"),
    ("propose 10", BAD_LEADER, "propose 3 0 7", "1 10 0"),
    (
        "propose 10, before 13",
        BAD_OFFICE,
        "propose 3 0 7",
        "1 10 0",
    ),
    (
        "propose 12",
        THREE,
        "propose 0 0 7; propose 0 0 8",
        "1 0 0, 2 12 0",
    ),
    (
        "propose 12, before 13",
        THREE,
        "propose 0 0 7; deliver 0 1; vote 1 0; propose 1 0 7",
        "1 0 0, 2 0 0, 3 0 1, 4 12 0",
    ),
    ("propose 13", THREE, "propose 1 0 7", "1 13 0"),
    (
        "propose 13, before 19",
        THREE,
        "draft 0 1 5; propose 1 1 7",
        "1 0 1, 2 13 0",
    ),
    (
        "propose 19, parent not notarised",
        THREE,
        "draft 0 1 5; advance; propose 1 1 7",
        "1 0 1, 2 0 2, 3 19 0",
    ),
    (
        "propose 19, before 20",
        THREE,
        "draft 0 1 5; propose 0 1 7",
        "1 0 1, 2 19 0",
    ),
];

const VOTE: &[Row] = &[
    ("vote 6, before 8", THREE, "vote 3 0", "1 6 0"),
    ("vote 8", THREE, "vote 0 0", "1 8 0"),
    ("vote 8, before 10", BAD_LEADER, "vote 3 0", "1 8 0"),
    (
        "vote 10",
        BAD_LEADER,
        "draft 0 1 5; bad-send 3 proposal 3 1; vote 3 0",
        "1 0 1, 2 0 0, 3 10 0",
    ),
    (
        "vote 12",
        BAD_LEADER,
        "draft 0 1 5; draft 0 1 6; bad-send 3 proposal 3 1; bad-send 3 proposal 3 2; \
             deliver 0 0; deliver 1 0; vote 0 0; vote 0 1",
        "1 0 1, 2 0 2, 3 0 0, 4 0 1, 5 0 0, 6 0 1, 7 0 2, 8 12 0",
    ),
    (
        "vote 12, before 14",
        THREE,
        "propose 0 0 7; vote 0 0",
        "1 0 0, 2 12 0",
    ),
    (
        "vote 14, before 15",
        BAD_OFFICE,
        "draft 0 1 5; bad-send 3 proposal 3 1; vote 0 0",
        "1 0 1, 2 0 0, 3 14 0",
    ),
    (
        "vote 15, in transit",
        THREE,
        "propose 0 0 7; vote 1 0",
        "1 0 0, 2 15 0",
    ),
    (
        "vote 15, before 16",
        THREE,
        "propose 0 0 7; deliver 0 1; vote 1 0; vote 2 1",
        "1 0 0, 2 0 0, 3 0 1, 4 15 0",
    ),
    (
        "vote 16, before 17",
        THREE,
        "propose 0 0 7; deliver 0 1; vote 1 0; deliver 1 2; vote 2 1",
        "1 0 0, 2 0 0, 3 0 1, 4 0 1, 5 16 0",
    ),
    (
        "vote 17, signer not the leader",
        BAD_OFFICE,
        "draft 0 1 5; bad-send 3 proposal 3 1; deliver 0 1; vote 1 0",
        "1 0 1, 2 0 0, 3 0 0, 4 17 0",
    ),
    (
        "vote 17, block of another epoch",
        "offices 3; trusted 0 1 2; leaders 0 0",
        "propose 0 0 7; advance; deliver 0 1; vote 1 0",
        "1 0 0, 2 0 2, 3 0 0, 4 17 0",
    ),
    (
        "vote 17, before 18",
        BAD_OFFICE,
        "draft 0 1 5; bad-send 3 vote 3 1; bad-send 3 proposal 3 1; \
             deliver 0 1; deliver 1 1; register 1 0; vote 1 1",
        "1 0 1, 2 0 0, 3 0 1, 4 0 0, 5 0 1, 6 0 0, 7 17 0",
    ),
];

/// The refusals of a vote that look at the view.
const VOTE_BY_VIEW: &[Row] = &[
    (
        "vote 18",
        BAD_LEADER,
        "draft 0 1 5; bad-send 3 vote 3 1; bad-send 3 proposal 3 1; \
             deliver 0 0; deliver 1 0; register 0 0; vote 0 1",
        "1 0 1, 2 0 0, 3 0 1, 4 0 0, 5 0 1, 6 0 0, 7 18 0",
    ),
    (
        "vote 18, before 19",
        BAD_LEADER,
        "draft 0 0 5; draft 1 1 6; bad-send 3 vote 3 2; bad-send 3 proposal 3 2; \
             deliver 0 0; deliver 1 0; register 0 0; vote 0 1",
        "1 0 1, 2 0 2, 3 0 0, 4 0 1, 5 0 0, 6 0 1, 7 0 0, 8 18 0",
    ),
    (
        "vote 19, parent not notarised",
        BAD_LEADER,
        "draft 0 0 5; draft 1 1 6; bad-send 3 proposal 3 2; deliver 0 0; vote 0 0",
        "1 0 1, 2 0 2, 3 0 0, 4 0 0, 5 19 0",
    ),
    (
        "vote 19, before 20",
        BAD_LEADER,
        "draft 0 1 5; draft 1 1 6; bad-send 3 proposal 3 2; deliver 0 0; vote 0 0",
        "1 0 1, 2 0 2, 3 0 0, 4 0 0, 5 19 0",
    ),
    // Office 1 sees block 1 notarised, so genesis is no longest chain there.
    (
        "vote 19, parent not longest",
        "offices 3; trusted 0 1 2; leaders 0 2",
        "propose 0 0 1; deliver 0 1; vote 1 0; advance; propose 2 0 2; deliver 2 1; vote 1 2",
        "1 0 0, 2 0 0, 3 0 1, 4 0 2, 5 0 2, 6 0 2, 7 19 0",
    ),
    // A bad leader's second block on its own first, same epoch.
    (
        "vote 20",
        BAD_LEADER,
        "draft 0 1 5; bad-send 3 proposal 3 1; bad-send 3 vote 3 1; \
             deliver 0 1; deliver 0 2; vote 1 0; vote 2 0; \
             deliver 1 0; deliver 2 0; deliver 3 0; register 0 1; register 0 2; register 0 3; \
             draft 1 1 6; bad-send 3 proposal 3 2; deliver 4 0; vote 0 4",
        "1 0 1, 2 0 0, 3 0 1, 4 0 0, 5 0 0, 6 0 2, 7 0 3, 8 0 1, 9 0 2, 10 0 3, \
             11 0 1, 12 0 2, 13 0 3, 14 0 2, 15 0 4, 16 0 4, 17 20 0",
    ),
];

const REGISTER: &[Row] = &[
    ("register 6, before 8", THREE, "register 3 0", "1 6 0"),
    ("register 8", THREE, "register 0 0", "1 8 0"),
    ("register 8, before 10", BAD_OFFICE, "register 3 0", "1 8 0"),
    (
        "register 10",
        BAD_OFFICE,
        "draft 0 1 5; bad-send 3 vote 3 1; register 3 0",
        "1 0 1, 2 0 0, 3 10 0",
    ),
    (
        "register 15, in transit",
        BAD_OFFICE,
        "draft 0 1 5; bad-send 3 vote 3 1; register 0 0",
        "1 0 1, 2 0 0, 3 15 0",
    ),
    (
        "register 15, in the view already",
        BAD_OFFICE,
        "draft 0 1 5; bad-send 3 vote 3 1; deliver 0 0; register 0 0; register 0 0",
        "1 0 1, 2 0 0, 3 0 0, 4 0 0, 5 15 0",
    ),
    (
        "register 15, before 16",
        THREE,
        "propose 0 0 7; register 1 0",
        "1 0 0, 2 15 0",
    ),
    (
        "register 16",
        THREE,
        "propose 0 0 7; deliver 0 1; register 1 0",
        "1 0 0, 2 0 0, 3 16 0",
    ),
    (
        "register 16, before 18",
        BAD_OFFICE,
        "draft 0 1 5; bad-send 3 vote 3 1; bad-send 3 proposal 3 1; \
             deliver 0 0; deliver 1 0; register 0 0; register 0 1",
        "1 0 1, 2 0 0, 3 0 1, 4 0 0, 5 0 1, 6 0 0, 7 16 0",
    ),
    (
        "register 18, a repeat",
        BAD_OFFICE,
        "draft 0 1 5; bad-send 3 vote 3 1; bad-send 3 vote 3 1; \
             deliver 0 0; deliver 1 0; register 0 0; register 0 1",
        "1 0 1, 2 0 0, 3 0 1, 4 0 0, 5 0 1, 6 0 0, 7 18 0",
    ),
    (
        "another signer or another block is not entered",
        "offices 7; trusted 0 1 2 3 4; leaders 0",
        "draft 0 1 5; draft 0 1 6; bad-send 5 vote 5 1; bad-send 5 vote 6 1; \
             bad-send 6 vote 5 2; deliver 0 0; deliver 1 0; deliver 2 0; \
             register 0 0; register 0 1; register 0 2",
        "1 0 1, 2 0 2, 3 0 0, 4 0 1, 5 0 2, 6 0 0, 7 0 1, 8 0 2, 9 0 0, 10 0 1, 11 0 2",
    ),
];

const FINALISE: &[Row] = &[
    ("finalise 6, before 7", THREE, "finalise 3 1", "1 6 0"),
    ("finalise 7", THREE, "finalise 0 1", "1 7 0"),
    ("finalise 7, before 10", BAD_OFFICE, "finalise 3 1", "1 7 0"),
    (
        "finalise 10, before 21",
        BAD_OFFICE,
        "finalise 3 0",
        "1 10 0",
    ),
    (
        "finalise 21, nothing notarised",
        THREE,
        "draft 0 1 1; draft 1 2 2; draft 2 3 3; finalise 0 3",
        "1 0 1, 2 0 2, 3 0 3, 4 21 0",
    ),
    (
        "finalise 21, genesis the oldest, nothing notarised",
        THREE,
        "draft 0 1 1; draft 1 2 2; finalise 0 2",
        "1 0 1, 2 0 2, 3 21 0",
    ),
    // The bad leader signs all three blocks; office 0 votes for none of them,
    // since no chain with the block of epoch 0 is valid.
    (
        "finalise 21, epochs 1 and 2 on a drafted block of epoch 0",
        "offices 4; trusted 0 1 2; leaders 3 3",
        "draft 0 0 5; draft 1 1 6; draft 2 2 7; bad-send 3 vote 3 1; bad-send 3 proposal 3 2; \
             bad-send 3 vote 3 2; deliver 0 0; register 0 0; deliver 1 0; vote 0 1; \
             deliver 2 0; register 0 2; advance; bad-send 3 proposal 3 3; bad-send 3 vote 3 3; \
             deliver 3 0; vote 0 3; deliver 4 0; register 0 4; finalise 0 3",
        "1 0 1, 2 0 2, 3 0 3, 4 0 0, 5 0 1, 6 0 2, 7 0 0, 8 0 0, 9 0 1, 10 19 0, 11 0 2, \
             12 0 2, 13 0 2, 14 0 3, 15 0 4, 16 0 3, 17 19 0, 18 0 4, 19 0 4, 20 21 0",
    ),
];

const DELIVER: &[Row] = &[
    ("deliver 6, before 8", THREE, "deliver 0 3", "1 6 0"),
    ("deliver 8", THREE, "deliver 0 0", "1 8 0"),
    (
        "deliver 8, the next number",
        THREE,
        "propose 0 0 7; deliver 1 1",
        "1 0 0, 2 8 0",
    ),
    (
        "deliver 23, to the one that acted",
        THREE,
        "propose 0 0 7; deliver 0 0",
        "1 0 0, 2 23 0",
    ),
    (
        "deliver 23, in the inbox",
        THREE,
        "propose 0 0 7; deliver 0 1; deliver 0 1; deliver 0 2",
        "1 0 0, 2 0 0, 3 23 0, 4 0 0",
    ),
    (
        "deliver 23, in the view",
        THREE,
        "propose 0 0 7; deliver 0 1; vote 1 0; deliver 0 1; deliver 1 1",
        "1 0 0, 2 0 0, 3 0 1, 4 23 0, 5 23 0",
    ),
];

const BAD_SEND: &[Row] = &[
    (
        "bad send 6, sender",
        BAD_OFFICE,
        "bad-send 4 vote 3 0",
        "1 6 0",
    ),
    (
        "bad send 6, signer",
        BAD_OFFICE,
        "bad-send 3 vote 4 0",
        "1 6 0",
    ),
    (
        "bad send 7, genesis",
        BAD_OFFICE,
        "bad-send 3 vote 3 0",
        "1 7 0",
    ),
    (
        "bad send 7, above the last",
        BAD_OFFICE,
        "draft 0 1 5; bad-send 3 vote 3 2",
        "1 0 1, 2 7 0",
    ),
    (
        "bad send 7, before 11",
        BAD_OFFICE,
        "bad-send 0 vote 3 1",
        "1 7 0",
    ),
    (
        "bad send 11",
        BAD_OFFICE,
        "draft 0 1 5; bad-send 0 vote 3 1",
        "1 0 1, 2 11 0",
    ),
    (
        "bad send 11, before 22",
        BAD_OFFICE,
        "draft 0 1 5; bad-send 0 vote 0 1",
        "1 0 1, 2 11 0",
    ),
    (
        "bad send 22",
        BAD_OFFICE,
        "draft 0 1 5; bad-send 3 vote 0 1",
        "1 0 1, 2 22 0",
    ),
    (
        "bad send for another untrusted office",
        "offices 7; trusted 0 1 2 3 4; leaders 0",
        "draft 0 1 5; bad-send 5 proposal 6 1; bad-send 6 vote 5 1",
        "1 0 1, 2 0 0, 3 0 1",
    ),
];

const DRAFT_AND_ADVANCE: &[Row] = &[
    ("draft 7", THREE, "draft 1 1 5", "1 7 0"),
    (
        "draft names the same block again",
        THREE,
        "draft 0 1 5; draft 0 1 6; draft 0 2 5; draft 1 1 5; draft 0 1 6; draft 0 1 5",
        "1 0 1, 2 0 2, 3 0 3, 4 0 4, 5 0 2, 6 0 1",
    ),
    (
        "advance 24",
        THREE,
        "advance; advance; advance; advance",
        "1 0 2, 2 0 3, 3 24 0, 4 24 0",
    ),
    (
        "advance makes ready",
        "offices 3; trusted 0 1 2; leaders 0 0",
        "propose 0 0 7; propose 0 0 8; advance; propose 0 0 8",
        "1 0 0, 2 12 0, 3 0 2, 4 0 1",
    ),
];

/// Name, steps, lines and the final block of an office that is alone.
const ALONE: &[Row] = &[
    (
        "propose 19, parent not longest",
        "propose 0 0 7; advance; propose 0 0 8; propose 0 1 8",
        "1 0 0, 2 0 2, 3 19 0, 4 0 1",
        "office 0 0 0 1",
    ),
    (
        "finalise 21, genesis among the three but not the oldest",
        "propose 0 0 1; advance; propose 0 1 2; advance; propose 0 2 3; \
             finalise 0 0; finalise 0 1; finalise 0 2; finalise 0 3",
        "1 0 0, 2 0 2, 3 0 1, 4 0 3, 5 0 2, 6 21 0, 7 21 0, 8 0 1, 9 0 2",
        "office 0 2 2 1",
    ),
    (
        "finalise 21, a gap between d and c",
        "propose 0 0 1; advance; advance; propose 0 1 2; advance; propose 0 2 3; finalise 0 3",
        "1 0 0, 2 0 2, 3 0 3, 4 0 1, 5 0 4, 6 0 2, 7 21 0",
        "office 0 0 0 1",
    ),
    (
        "finalise 21, a gap between c and b",
        "propose 0 0 1; advance; propose 0 1 2; advance; advance; propose 0 2 3; finalise 0 3",
        "1 0 0, 2 0 2, 3 0 1, 4 0 3, 5 0 4, 6 0 2, 7 21 0",
        "office 0 0 0 1",
    ),
    (
        "finalise with a gap below d",
        "propose 0 0 1; advance; advance; propose 0 1 2; advance; propose 0 2 3; \
             advance; propose 0 3 4; finalise 0 4",
        "1 0 0, 2 0 2, 3 0 3, 4 0 1, 5 0 4, 6 0 2, 7 0 5, 8 0 3, 9 0 3",
        "office 0 3 3 1",
    ),
    (
        "finalise 21, b not notarised",
        "propose 0 0 1; advance; propose 0 1 2; draft 2 3 3; finalise 0 3",
        "1 0 0, 2 0 2, 3 0 1, 4 0 3, 5 21 0",
        "office 0 0 0 1",
    ),
    (
        "finalise 32, older runs of three, then the same run again",
        "propose 0 0 1; advance; propose 0 1 2; advance; propose 0 2 3; advance; propose 0 3 4; \
             advance; propose 0 4 5; finalise 0 5; finalise 0 4; finalise 0 3; finalise 0 5",
        "1 0 0, 2 0 2, 3 0 1, 4 0 3, 5 0 2, 6 0 4, 7 0 3, 8 0 5, 9 0 4, 10 0 4, 11 32 0, \
             12 32 0, 13 0 4",
        "office 0 4 4 1",
    ),
    (
        "finalise 32, not while genesis is final, nor for a longer chain",
        "propose 0 0 1; advance; propose 0 1 2; advance; propose 0 2 3; advance; propose 0 3 4; \
             finalise 0 3; finalise 0 4; finalise 0 3; advance; propose 0 4 5; finalise 0 5",
        "1 0 0, 2 0 2, 3 0 1, 4 0 3, 5 0 2, 6 0 4, 7 0 3, 8 0 2, 9 0 3, 10 32 0, 11 0 5, \
             12 0 4, 13 0 4",
        "office 0 4 4 1",
    ),
    (
        "finalise 21, before 32, genesis among the three but not the oldest",
        "propose 0 0 1; advance; propose 0 1 2; advance; propose 0 2 3; advance; propose 0 3 4; \
             finalise 0 4; finalise 0 2; finalise 0 1; finalise 0 0",
        "1 0 0, 2 0 2, 3 0 1, 4 0 3, 5 0 2, 6 0 4, 7 0 3, 8 0 3, 9 32 0, 10 21 0, 11 21 0",
        "office 0 3 3 1",
    ),
    (
        "finalise 21, before 32, a gap between d and c",
        "propose 0 0 1; advance; advance; propose 0 1 2; advance; propose 0 2 3; \
             advance; propose 0 3 4; finalise 0 4; finalise 0 3",
        "1 0 0, 2 0 2, 3 0 3, 4 0 1, 5 0 4, 6 0 2, 7 0 5, 8 0 3, 9 0 3, 10 21 0",
        "office 0 3 3 1",
    ),
    (
        "finalise 21, before 32, b not notarised",
        "propose 0 0 1; advance; propose 0 1 2; advance; propose 0 2 3; advance; propose 0 3 4; \
             draft 2 3 9; finalise 0 4; finalise 0 5; finalise 0 3",
        "1 0 0, 2 0 2, 3 0 1, 4 0 3, 5 0 2, 6 0 4, 7 0 3, 8 0 5, 9 0 3, 10 21 0, 11 32 0",
        "office 0 3 3 1",
    ),
];

/// The same, where genesis is the oldest of the three or nearly could be.
const FROM_GENESIS: &[Row] = &[
    (
        "finalise, genesis the oldest of the three",
        "propose 0 0 1; advance; propose 0 1 2; finalise 0 2",
        "1 0 0, 2 0 2, 3 0 1, 4 0 1",
        "office 0 1 1 1",
    ),
    (
        "finalise 21, genesis itself",
        "finalise 0 0",
        "1 21 0",
        "office 0 0 0 1",
    ),
    (
        "finalise 21, epoch 1 directly on genesis",
        "propose 0 0 1; finalise 0 1",
        "1 0 0, 2 21 0",
        "office 0 0 0 1",
    ),
    (
        "finalise 21, epoch 2 directly on genesis",
        "advance; propose 0 0 1; finalise 0 1",
        "1 0 2, 2 0 0, 3 21 0",
        "office 0 0 0 1",
    ),
    (
        "finalise 21, epoch 3 on 1 on genesis",
        "propose 0 0 1; advance; advance; propose 0 1 2; finalise 0 2",
        "1 0 0, 2 0 2, 3 0 3, 4 0 1, 5 21 0",
        "office 0 0 0 1",
    ),
    (
        "finalise 21, epoch 3 on 2 on genesis, which isn't of epoch 1",
        "advance; propose 0 0 1; advance; propose 0 1 2; finalise 0 2",
        "1 0 2, 2 0 0, 3 0 3, 4 0 1, 5 21 0",
        "office 0 0 0 1",
    ),
    (
        "finalise 21, epoch 2 drafted on 1 on genesis, b not notarised",
        "propose 0 0 1; draft 1 2 2; finalise 0 2; advance; propose 0 1 2; finalise 0 2",
        "1 0 0, 2 0 2, 3 21 0, 4 0 2, 5 0 1, 6 0 1",
        "office 0 1 1 1",
    ),
    (
        "finalise 21 on a drafted block of epoch 0, not on genesis",
        "draft 0 0 5; propose 0 1 6; draft 1 1 6; draft 2 2 7; finalise 0 3; \
             propose 0 0 6; advance; propose 0 4 7; finalise 0 5; finalise 0 3",
        "1 0 1, 2 19 0, 3 0 2, 4 0 3, 5 21 0, 6 0 0, 7 0 2, 8 0 1, 9 0 4, 10 21 0",
        "office 0 4 1 1",
    ),
    (
        "finalise 32, genesis the oldest of the three, but not while that run is final",
        "propose 0 0 1; advance; propose 0 1 2; finalise 0 2; finalise 0 2; advance; \
             propose 0 2 3; finalise 0 2; finalise 0 3; finalise 0 2; finalise 0 3",
        "1 0 0, 2 0 2, 3 0 1, 4 0 1, 5 0 1, 6 0 3, 7 0 2, 8 0 1, 9 0 2, 10 32 0, 11 0 2",
        "office 0 2 2 1",
    ),
    (
        "finalise 21, before 32, epoch 3 on 1 on genesis",
        "propose 0 0 1; advance; advance; propose 0 1 2; advance; propose 0 2 3; \
             advance; propose 0 3 4; finalise 0 4; finalise 0 2",
        "1 0 0, 2 0 2, 3 0 3, 4 0 1, 5 0 4, 6 0 2, 7 0 5, 8 0 3, 9 0 3, 10 21 0",
        "office 0 3 3 1",
    ),
    (
        "finalise 21, before 32, epoch 3 on 2 on genesis",
        "advance; propose 0 0 1; advance; propose 0 1 2; advance; propose 0 2 3; \
             advance; propose 0 3 4; finalise 0 4; finalise 0 2",
        "1 0 2, 2 0 0, 3 0 3, 4 0 1, 5 0 4, 6 0 2, 7 0 5, 8 0 3, 9 0 3, 10 21 0",
        "office 0 3 3 1",
    ),
];
