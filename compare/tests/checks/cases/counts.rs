//! How many have signed a final block in an office's view.

use super::{Case, Script, case, opening_of_32};

pub fn cases() -> Vec<Case> {
    let groups = [two_views(), bad_votes(), vec![all_of_32()]];
    groups.into_iter().flatten().collect()
}

/// Four offices, all trusted. Three signers make a block notarised.
const FOUR: &str = "offices 4; trusted 0 1 2 3; leaders 0 0 0";

/// The votes of office 3 for blocks 1 and 2.
const FOURTH_FOR_1: usize = 3;
const FOURTH_FOR_2: usize = 7;

/// So many epochs, each with a block on the one before. Office 0 proposes it and
/// the others vote for it. Then offices 0, 1 and 2 each have the signatures of
/// these three, and office 3 has those of 0, 1 and 3: just enough.
fn epochs(last: usize) -> Script {
    let mut script = Script::default();
    for block in 1..=last {
        let [proposal, one, two, three] = [4, 3, 2, 1].map(|back| 4 * block - back);
        let propose = format!("propose 0 {} 0", block - 1);
        script.take(&propose, &format!("0 {proposal}"));
        for (office, vote) in [(1, one), (2, two), (3, three)] {
            script.vote(office, proposal, vote);
        }
        for (vote, office) in [(one, 0), (two, 0), (two, 1), (one, 2), (one, 3)] {
            script.enter(vote, office);
        }
        if block < last {
            script.take("advance", &format!("0 {}", block + 1));
        }
    }
    script
}

fn of_four(name: &str, script: Script, offices: &str) -> Case {
    case(name, FOUR, &script.steps(), &script.lines(), offices)
}

fn two_views() -> Vec<Case> {
    vec![
        one_block_two_counts(),
        late_vote(),
        vote_in_the_inbox(),
        not_the_block_named(),
        the_newer_final_block(),
    ]
}

/// Block 1 is final for three offices. Only office 1 has the fourth signature.
fn one_block_two_counts() -> Case {
    let mut script = epochs(2);
    script.enter(FOURTH_FOR_1, 1);
    for office in [0, 1, 3] {
        script.take(&format!("finalise {office} 2"), "0 1");
    }
    of_four(
        "other counts of one final block in two views",
        script,
        "office 0 1 1 3, office 1 1 1 4, office 2 0 0 4, office 3 1 1 3",
    )
}

/// Office 0 gets the fourth signature on block 1 when it is final already.
fn late_vote() -> Case {
    let mut script = epochs(2);
    script.take("finalise 0 2", "0 1");
    script.take("finalise 1 2", "0 1");
    script.enter(FOURTH_FOR_1, 0);
    of_four(
        "a vote registered after finalise counts",
        script,
        "office 0 1 1 4, office 1 1 1 3, office 2 0 0 4, office 3 0 0 4",
    )
}

/// The fourth vote is in the inbox of office 0 and in transit to office 1.
fn vote_in_the_inbox() -> Case {
    let mut script = epochs(2);
    script.deliver(FOURTH_FOR_1, 0);
    script.take("finalise 0 2", "0 1");
    script.take("finalise 1 2", "0 1");
    of_four(
        "a vote delivered but not registered doesn't count",
        script,
        "office 0 1 1 3, office 1 1 1 3, office 2 0 0 4, office 3 0 0 4",
    )
}

/// Office 0 has four signatures on block 2, which it names, and three on block
/// 1, which gets final; for office 1 it is the other way round.
fn not_the_block_named() -> Case {
    let mut script = epochs(2);
    script.enter(FOURTH_FOR_2, 0);
    script.enter(FOURTH_FOR_1, 1);
    script.take("finalise 0 2", "0 1");
    script.take("finalise 1 2", "0 1");
    of_four(
        "the count of the final block, not of the one named",
        script,
        "office 0 1 1 3, office 1 1 1 4, office 2 0 0 4, office 3 0 0 4",
    )
}

/// Block 1 has four signers for office 0. Block 2, which gets final after it,
/// has three, also when a step back to block 1 is refused.
fn the_newer_final_block() -> Case {
    let mut script = epochs(3);
    script.enter(FOURTH_FOR_1, 0);
    script.take("finalise 0 2", "0 1");
    script.take("finalise 0 3", "0 2");
    script.take("finalise 0 2", "32 0");
    of_four(
        "a newer final block has a count of its own",
        script,
        "office 0 2 2 3, office 1 0 0 4, office 2 0 0 4, office 3 0 0 4",
    )
}

/// Four offices, of which office 3 is untrusted and office 2 does nothing.
const WITH_BAD: &str = "offices 4; trusted 0 1 2; leaders 0 0";

/// Office 0 has its own signature, that of office 1 and the bad office's.
const WITH_BAD_OFFICES: &str = "office 0 1 1 3, office 1 0 0 4, office 2 0 0 4";

fn bad_votes() -> Vec<Case> {
    let steps = "propose 0 0 7; deliver 0 1; vote 1 0; bad-send 3 vote 3 1; deliver 1 0; \
                 register 0 1; deliver 2 0; register 0 2; deliver 2 1; register 1 2; advance; \
                 propose 0 1 8; deliver 3 1; vote 1 3; bad-send 3 vote 3 2; deliver 4 0; \
                 register 0 4; deliver 5 0; register 0 5; finalise 0 2";
    let lines = "1 0 0, 2 0 0, 3 0 1, 4 0 2, 5 0 1, 6 0 1, 7 0 2, 8 0 2, 9 0 2, 10 0 2, 11 0 2, \
                 12 0 3, 13 0 3, 14 0 4, 15 0 5, 16 0 4, 17 0 4, 18 0 5, 19 0 5, 20 0 1";
    vec![
        case(
            "a bad office's vote counts",
            WITH_BAD,
            steps,
            lines,
            WITH_BAD_OFFICES,
        ),
        case(
            "repeats and a proposal in the inbox don't count",
            WITH_BAD,
            &format!(
                "{steps}; bad-send 3 vote 3 1; bad-send 3 vote 1 1; bad-send 3 proposal 3 1; \
                 deliver 6 0; register 0 6; deliver 7 0; register 0 7; deliver 8 0; register 0 8"
            ),
            &format!(
                "{lines}, 21 0 6, 22 0 7, 23 0 8, 24 0 6, 25 18 0, 26 0 7, 27 18 0, 28 0 8, \
                 29 16 0"
            ),
            WITH_BAD_OFFICES,
        ),
        repeat_before_the_first(),
    ]
}

/// The bad office repeats office 1's vote for block 1, and office 0 registers
/// this one. Then it can't register the first.
fn repeat_before_the_first() -> Case {
    case(
        "a vote that the bad office repeats counts for its signer",
        WITH_BAD,
        "propose 0 0 7; deliver 0 1; vote 1 0; bad-send 3 vote 3 1; bad-send 3 vote 1 1; \
         deliver 3 0; register 0 3; deliver 2 0; register 0 2; deliver 2 1; register 1 2; \
         advance; propose 0 1 8; deliver 4 1; vote 1 4; bad-send 3 vote 3 2; deliver 5 0; \
         register 0 5; deliver 6 0; register 0 6; finalise 0 2; deliver 1 0; register 0 1",
        "1 0 0, 2 0 0, 3 0 1, 4 0 2, 5 0 3, 6 0 3, 7 0 3, 8 0 2, 9 0 2, 10 0 2, 11 0 2, 12 0 2, \
         13 0 4, 14 0 4, 15 0 5, 16 0 6, 17 0 5, 18 0 5, 19 0 6, 20 0 6, 21 0 1, 22 0 1, 23 18 0",
        WITH_BAD_OFFICES,
    )
}

/// All 32 offices sign block 1, and office 0 gets all their votes. Offices 1 to
/// 21 get each other's, just enough to vote for block 2.
fn all_of_32() -> Case {
    let mut script = Script::default();
    script.take("propose 0 0 7", "0 0");
    for voter in 1..32 {
        script.vote(voter, 0, voter);
        script.enter(voter, 0);
    }
    for office in 1..=21 {
        for vote in (1..=21).filter(|&vote| vote != office) {
            script.enter(vote, office);
        }
    }
    script.take("advance", "0 2");
    script.take("propose 0 1 8", "0 32");
    for voter in 1..=21 {
        script.vote(voter, 32, 32 + voter);
    }
    for office in [0, 1] {
        for voter in (1..=21).filter(|&voter| voter != office) {
            script.enter(32 + voter, office);
        }
        script.take(&format!("finalise {office} 2"), "0 1");
    }
    let others = (2..32).map(|office| format!("office {office} 0 0 32"));
    let mut offices = vec!["office 0 1 1 32".to_string(), "office 1 1 1 22".to_string()];
    offices.extend(others);
    let (steps, lines) = (script.steps(), script.lines());
    let opening = opening_of_32("0 0");
    let name = "all of 32 offices, or just enough";
    case(name, &opening, &steps, &lines, &offices.join(", "))
}
