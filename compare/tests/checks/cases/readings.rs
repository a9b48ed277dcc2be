//! Where the paper can be read in two ways: a case for each reading.

use super::{BAD_LEADER, BAD_OFFICE, Case, ONE, Script, THREE, case, no_final};

pub fn cases() -> Vec<Case> {
    let groups = [
        view_before_vote(),
        naming(),
        signatures(),
        bad_sends(),
        untrusted_inbox(),
        finalising(),
        own_final_chain(),
        own_chain_from_genesis(),
        whole_chain(),
        whole_chain_from_genesis(),
        inbox_and_marks(),
        values(),
    ];
    groups.into_iter().flatten().collect()
}

/// Office 5 has registered the first so many of four votes for block 1 and then
/// votes for it. Of six offices four make it notarised.
fn view_before_vote() -> Vec<Case> {
    let opening = "offices 6; trusted 0 1 2 3 4 5; leaders 0";
    let steps = "propose 0 0 7; deliver 0 1; deliver 0 2; deliver 0 3; deliver 0 4; deliver 0 5; \
                 vote 1 0; vote 2 0; vote 3 0; vote 4 0; deliver 1 5; deliver 2 5; deliver 3 5; \
                 deliver 4 5; register 5 1; register 5 2; register 5 3";
    let lines = "1 0 0, 2 0 0, 3 0 0, 4 0 0, 5 0 0, 6 0 0, 7 0 1, 8 0 2, 9 0 3, 10 0 4, \
                 11 0 1, 12 0 2, 13 0 3, 14 0 4, 15 0 1, 16 0 2, 17 0 3";
    vec![
        no_final(
            "a vote for a block that is nearly notarised",
            opening,
            &format!("{steps}; vote 5 0"),
            &format!("{lines}, 18 0 5"),
        ),
        no_final(
            "a vote for a block that is notarised already",
            opening,
            &format!("{steps}; register 5 4; vote 5 0"),
            &format!("{lines}, 18 0 4, 19 19 0"),
        ),
    ]
}

fn naming() -> Vec<Case> {
    vec![
        no_final(
            "genesis is never named",
            THREE,
            "draft 0 0 0; draft 0 0 0",
            "1 0 1, 2 0 1",
        ),
        no_final(
            "a draft of any epoch",
            THREE,
            "draft 0 511 0; draft 1 511 0; draft 2 0 0; draft 3 200 65535",
            "1 0 1, 2 0 2, 3 0 3, 4 0 4",
        ),
        no_final(
            "a propose names a drafted block",
            BAD_OFFICE,
            "draft 0 1 7; draft 0 1 8; propose 0 0 8; bad-send 3 proposal 0 1; \
             bad-send 3 proposal 0 2",
            "1 0 1, 2 0 2, 3 0 0, 4 22 0, 5 0 1",
        ),
    ]
}

fn signatures() -> Vec<Case> {
    vec![
        no_final(
            "a bad leader's vote makes its proposal unvotable",
            BAD_LEADER,
            "draft 0 1 5; bad-send 3 proposal 3 1; bad-send 3 vote 3 1; deliver 0 0; deliver 1 0; \
             register 0 1; vote 0 0",
            "1 0 1, 2 0 0, 3 0 1, 4 0 0, 5 0 1, 6 0 1, 7 18 0",
        ),
        no_final(
            "another office's vote doesn't",
            BAD_LEADER,
            "draft 0 1 5; bad-send 3 proposal 3 1; deliver 0 1; vote 1 0; deliver 1 0; \
             register 0 1; deliver 0 0; vote 0 0",
            "1 0 1, 2 0 0, 3 0 0, 4 0 1, 5 0 1, 6 0 1, 7 0 0, 8 0 2",
        ),
        no_final(
            "nor a bad leader's vote on another block",
            BAD_LEADER,
            "draft 0 1 5; draft 0 1 6; bad-send 3 vote 3 1; bad-send 3 proposal 3 2; deliver 0 0; \
             register 0 0; deliver 1 0; vote 0 1",
            "1 0 1, 2 0 2, 3 0 0, 4 0 1, 5 0 0, 6 0 0, 7 0 1, 8 0 2",
        ),
        no_final(
            "a proposal in the view counts as the leader's signature",
            BAD_LEADER,
            "draft 0 1 5; bad-send 3 proposal 3 1; bad-send 3 vote 3 1; deliver 0 0; deliver 1 0; \
             vote 0 0; register 0 1",
            "1 0 1, 2 0 0, 3 0 1, 4 0 0, 5 0 1, 6 0 2, 7 18 0",
        ),
    ]
}

fn bad_sends() -> Vec<Case> {
    vec![
        no_final(
            "a replay reaches its trusted signer",
            BAD_OFFICE,
            "propose 0 0 7; bad-send 3 proposal 0 1; deliver 1 0; deliver 1 1; deliver 1 2; \
             deliver 0 0; deliver 0 1",
            "1 0 0, 2 0 1, 3 0 1, 4 0 1, 5 0 1, 6 23 0, 7 0 0",
        ),
        no_final(
            "a replayed vote can't be registered by its signer",
            BAD_OFFICE,
            "propose 0 0 7; deliver 0 1; vote 1 0; bad-send 3 vote 1 1; deliver 2 1; register 1 2",
            "1 0 0, 2 0 0, 3 0 1, 4 0 2, 5 0 2, 6 18 0",
        ),
        no_final(
            "22 compares kind, signer and block",
            BAD_OFFICE,
            "propose 0 0 7; draft 0 1 8; bad-send 3 vote 0 1; bad-send 3 proposal 1 1; \
             bad-send 3 proposal 0 2; bad-send 3 proposal 0 1; bad-send 3 proposal 0 1",
            "1 0 0, 2 0 2, 3 22 0, 4 22 0, 5 22 0, 6 0 1, 7 0 2",
        ),
        no_final(
            "a signer that isn't there, though the sender is trusted",
            BAD_OFFICE,
            "draft 0 1 5; bad-send 0 vote 4 1",
            "1 0 1, 2 6 0",
        ),
        no_final(
            "block 0: 7 in bad send, 21 in finalise",
            BAD_OFFICE,
            "bad-send 3 proposal 3 0; finalise 0 0",
            "1 7 0, 2 21 0",
        ),
    ]
}

fn untrusted_inbox() -> Vec<Case> {
    vec![
        no_final(
            "deliver to an untrusted office",
            BAD_OFFICE,
            "propose 0 0 7; deliver 0 3",
            "1 0 0, 2 23 0",
        ),
        no_final(
            "deliver checks the office before the message",
            BAD_OFFICE,
            "deliver 9 4; deliver 9 3",
            "1 6 0, 2 8 0",
        ),
    ]
}

fn finalising() -> Vec<Case> {
    let steps = "propose 0 0 1; advance; propose 0 1 2; advance; propose 0 2 3; advance; \
                 propose 0 3 4";
    let lines = "1 0 0, 2 0 2, 3 0 1, 4 0 3, 5 0 2, 6 0 4, 7 0 3";
    vec![
        case(
            "finalise the same block again",
            ONE,
            &format!("{steps}; finalise 0 4; finalise 0 4"),
            &format!("{lines}, 8 0 3, 9 0 3"),
            "office 0 3 3 1",
        ),
        case(
            "finalise doesn't go back, in a later epoch and unacted",
            ONE,
            &format!("{steps}; finalise 0 4; advance; finalise 0 3"),
            &format!("{lines}, 8 0 3, 9 0 5, 10 32 0"),
            "office 0 3 3 1",
        ),
        case(
            "32 asks for the parent's chain, not for that of the block named",
            ONE,
            &format!("{steps}; finalise 0 4; finalise 0 3; finalise 0 4"),
            &format!("{lines}, 8 0 3, 9 32 0, 10 0 3"),
            "office 0 3 3 1",
        ),
    ]
}

/// Offices 0 and 1 see four blocks of epochs 1 to 4 notarised. What is final for
/// one of them doesn't bind the other.
fn own_final_chain() -> Vec<Case> {
    let mut script = Script::default();
    for block in 1..=4 {
        good_leaders_epoch(&mut script, block);
    }
    script.take("finalise 1 4", "0 3");
    script.take("finalise 0 3", "0 2");
    script.take("finalise 1 3", "32 0");
    script.take("finalise 0 3", "0 2");
    script.take("finalise 0 4", "0 3");
    script.take("finalise 0 3", "32 0");
    vec![case(
        "32 looks at the office's own final chain",
        "offices 3; trusted 0 1 2; leaders 0 0 0 0 0",
        &script.steps(),
        &script.lines(),
        "office 0 3 3 2, office 1 3 3 2, office 2 0 0 3",
    )]
}

/// Offices 0 and 1 see blocks of epochs 1 and 2 notarised, then a block of epoch
/// 3; office 2 sees nothing. With genesis as the oldest of the three, block 1
/// gets final for office 0 and stays so, though office 1 goes on.
fn own_chain_from_genesis() -> Vec<Case> {
    let mut script = Script::default();
    good_leaders_epoch(&mut script, 1);
    script.take("finalise 1 1", "21 0");
    good_leaders_epoch(&mut script, 2);
    script.take("finalise 0 2", "0 1");
    script.take("finalise 2 2", "21 0");
    good_leaders_epoch(&mut script, 3);
    script.take("finalise 1 3", "0 2");
    script.take("finalise 1 2", "32 0");
    script.take("finalise 0 2", "0 1");
    vec![case(
        "two offices, genesis the oldest of the three for one of them",
        "offices 3; trusted 0 1 2; leaders 0 0 0 0",
        &script.steps(),
        &script.lines(),
        "office 0 1 1 2, office 1 2 2 2, office 2 0 0 3",
    )]
}

/// Office 0 proposes a block, office 1 votes for it, and office 0 gets the vote.
fn good_leaders_epoch(script: &mut Script, block: usize) {
    let [proposal, vote] = [2, 1].map(|back| 2 * block - back);
    let mut take = |step: String, value: usize| script.take(&step, &format!("0 {value}"));
    take(format!("propose 0 {} 0", block - 1), proposal);
    take(format!("deliver {proposal} 1"), proposal);
    take(format!("vote 1 {proposal}"), vote);
    take(format!("deliver {vote} 0"), vote);
    take(format!("register 0 {vote}"), vote);
    take("advance".to_string(), block + 1);
}

/// Four blocks of epochs 1 to 4 by a bad leader, voted for by offices 1 and 2.
/// Office 0 registers the votes for blocks 2 to 4 only: they are notarised in
/// its view, but the chain isn't before block 1 is too.
fn whole_chain() -> Vec<Case> {
    let mut script = Script::default();
    for block in 1..=4 {
        bad_leaders_epoch(&mut script, block);
        if block < 4 {
            script.take("advance", &format!("0 {}", block + 1));
        }
    }
    script.take("finalise 0 4", "21 0");
    script.take("register 0 1", "0 1");
    script.take("register 0 2", "0 2");
    script.take("finalise 0 4", "21 0");
    script.take("register 0 3", "0 3");
    script.take("finalise 0 4", "0 3");
    vec![case(
        "finalise wants the whole chain notarised",
        "offices 4; trusted 0 1 2; leaders 3 3 3 3",
        &script.steps(),
        &script.lines(),
        "office 0 3 3 3, office 1 0 0 4, office 2 0 0 4",
    )]
}

/// Two blocks of epochs 1 and 2 in the same way, and genesis as the oldest of
/// the three: it is always notarised, but block 1 still has to be.
fn whole_chain_from_genesis() -> Vec<Case> {
    let mut script = Script::default();
    bad_leaders_epoch(&mut script, 1);
    script.take("advance", "0 2");
    bad_leaders_epoch(&mut script, 2);
    script.take("finalise 1 2", "0 1");
    script.take("finalise 0 2", "21 0");
    script.take("register 0 1", "0 1");
    script.take("register 0 2", "0 2");
    script.take("finalise 0 2", "21 0");
    script.take("register 0 3", "0 3");
    script.take("finalise 0 2", "0 1");
    vec![case(
        "finalise wants the whole chain from genesis on notarised",
        "offices 4; trusted 0 1 2; leaders 3 3",
        &script.steps(),
        &script.lines(),
        "office 0 1 1 3, office 1 1 1 3, office 2 0 0 4",
    )]
}

/// The messages of an epoch are the proposal, the bad leader's own vote and the
/// votes of offices 1 and 2. Office 0 gets the votes but leaves those for block
/// 1 in its inbox.
fn bad_leaders_epoch(script: &mut Script, block: usize) {
    let [proposal, bad, one, two] = [4, 3, 2, 1].map(|back| 4 * block - back);
    let mut take = |step: String, value: usize| script.take(&step, &format!("0 {value}"));
    take(format!("draft {} {block} 0", block - 1), block);
    take(format!("bad-send 3 proposal 3 {block}"), proposal);
    take(format!("bad-send 3 vote 3 {block}"), bad);
    take(format!("deliver {proposal} 1"), proposal);
    take(format!("deliver {proposal} 2"), proposal);
    take(format!("vote 1 {proposal}"), one);
    take(format!("vote 2 {proposal}"), two);
    for (message, office) in [(one, 2), (two, 1), (bad, 0), (one, 0), (two, 0)] {
        take(format!("deliver {message} {office}"), message);
        if block > 1 || office > 0 {
            take(format!("register {office} {message}"), message);
        }
    }
}

fn inbox_and_marks() -> Vec<Case> {
    vec![
        no_final(
            "a proposal never voted for stays in the inbox",
            THREE,
            "propose 0 0 7; deliver 0 2; advance; vote 2 0; deliver 0 2; register 2 0; \
             advance; vote 1 0; deliver 0 1; vote 1 0",
            "1 0 0, 2 0 0, 3 0 2, 4 17 0, 5 23 0, 6 16 0, 7 0 3, 8 15 0, 9 0 0, 10 17 0",
        ),
        no_final(
            "a proposal that came early waits in the inbox",
            "offices 4; trusted 0 1 2; leaders 3 3",
            "draft 0 2 5; bad-send 3 proposal 3 1; deliver 0 0; vote 0 0; advance; vote 0 0",
            "1 0 1, 2 0 0, 3 0 0, 4 17 0, 5 0 2, 6 0 1",
        ),
        no_final(
            "the leader of epoch e is entry e - 1",
            THREE,
            "propose 0 0 1; advance; propose 2 0 1; propose 1 0 1; advance; propose 2 0 1",
            "1 0 0, 2 0 2, 3 13 0, 4 0 1, 5 0 3, 6 0 2",
        ),
        no_final(
            "a refused advance changes no mark",
            "offices 3; trusted 0 1 2; leaders 0",
            "propose 0 0 7; advance; propose 0 0 8",
            "1 0 0, 2 24 0, 3 12 0",
        ),
    ]
}

fn values() -> Vec<Case> {
    vec![
        no_final(
            "values of draft and vote",
            BAD_LEADER,
            "draft 0 1 9; draft 0 1 5; draft 0 1 9; bad-send 3 proposal 3 2; deliver 0 2; vote 2 0",
            "1 0 1, 2 0 2, 3 0 1, 4 0 0, 5 0 0, 6 0 1",
        ),
        case(
            "the value of finalise is the parent",
            ONE,
            "propose 0 0 1; advance; draft 0 9 9; propose 0 1 2; advance; propose 0 3 3; \
             finalise 0 4",
            "1 0 0, 2 0 2, 3 0 2, 4 0 1, 5 0 3, 6 0 2, 7 0 3",
            "office 0 3 2 1",
        ),
        no_final("no steps", THREE, "", ""),
        no_final(
            "only trusted offices have a line",
            "offices 7; trusted 1 2 4 5 6; leaders 0",
            "",
            "",
        ),
    ]
}
