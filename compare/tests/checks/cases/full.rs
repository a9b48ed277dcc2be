//! Full tables: 255 blocks, 1,024 messages.

use super::{BAD_LEADER, BAD_OFFICE, Case, Script, no_final};

pub fn cases() -> Vec<Case> {
    vec![
        blocks_full(),
        messages_full(),
        last_message(),
        vote_without_room(),
        vote_refused_before_26(),
        epochs_before_26(),
        both_full(),
    ]
}

impl Script {
    /// Blocks on genesis, of epoch 1, with payloads from 1 up.
    fn draft_up_to(&mut self, last: usize) {
        for block in 1..=last {
            self.take(&format!("draft 0 1 {block}"), &format!("0 {block}"));
        }
    }

    /// Votes for block 1 of the bad office.
    fn bad_send(&mut self, first: usize, last: usize) {
        for message in first..=last {
            self.take("bad-send 3 vote 3 1", &format!("0 {message}"));
        }
    }
}

fn full_case(name: &str, script: Script) -> Case {
    no_final(name, BAD_OFFICE, &script.steps(), &script.lines())
}

fn blocks_full() -> Case {
    let mut script = Script::default();
    script.draft_up_to(254);
    script.take("propose 1 0 300", "13 0");
    script.take("draft 254 511 0", "0 255");
    script.take("draft 0 1 300", "25 0");
    script.take("draft 255 511 0", "25 0");
    script.take("draft 0 1 200", "0 200");
    script.take("draft 254 511 0", "0 255");
    script.take("propose 0 1 300", "19 0");
    script.take("propose 0 0 300", "25 0");
    script.take("propose 0 0 77", "0 0");
    script.take("deliver 0 1", "0 0");
    script.take("vote 1 0", "0 1");
    full_case("255 blocks", script)
}

fn messages_full() -> Case {
    let mut script = Script::default();
    script.draft_up_to(2);
    script.bad_send(0, 1023);
    script.take("bad-send 3 vote 3 1", "26 0");
    script.take("bad-send 0 vote 3 1", "11 0");
    script.take("bad-send 3 vote 0 1", "22 0");
    script.take("propose 0 1 7", "19 0");
    script.take("propose 0 0 7", "26 0");
    script.take("propose 0 0 1", "26 0");
    script.take("deliver 1023 2", "0 1023");
    script.take("register 2 1023", "0 1023");
    // Refused with 26, the propose made no block.
    script.take("finalise 2 3", "7 0");
    full_case("1,024 messages", script)
}

fn last_message() -> Case {
    let mut script = Script::default();
    script.take("propose 0 0 7", "0 0");
    script.take("deliver 0 1", "0 0");
    script.take("deliver 0 2", "0 0");
    script.bad_send(1, 1022);
    script.take("vote 1 0", "0 1023");
    script.take("vote 2 0", "26 0");
    script.take("deliver 1023 0", "0 1023");
    script.take("register 0 1023", "0 1023");
    full_case("the last message is a vote", script)
}

/// 26 comes last: a vote with no room is refused for other reasons first. And
/// it changes nothing: the office is still ready, the proposal in its inbox.
fn vote_without_room() -> Case {
    let mut script = Script::default();
    script.take("propose 0 0 7", "0 0");
    script.take("deliver 0 1", "0 0");
    script.bad_send(1, 1023);
    script.take("vote 1 0", "26 0");
    script.take("vote 1 0", "26 0");
    script.take("register 1 0", "16 0");
    script.take("deliver 0 1", "23 0");
    script.take("advance", "0 2");
    script.take("propose 1 0 8", "26 0");
    script.take("vote 2 0", "15 0");
    script.take("deliver 0 2", "0 0");
    script.take("vote 2 0", "17 0");
    full_case("a vote without room", script)
}

/// 18 and 19 before 26: block 3 stands on a block that isn't notarised.
fn vote_refused_before_26() -> Case {
    let mut script = Script::default();
    script.take("draft 0 1 5", "0 1");
    script.take("draft 0 0 6", "0 2");
    script.take("draft 2 1 7", "0 3");
    script.take("bad-send 3 proposal 3 1", "0 0");
    script.take("bad-send 3 proposal 3 3", "0 1");
    script.bad_send(2, 1023);
    script.take("deliver 2 0", "0 2");
    script.take("register 0 2", "0 2");
    script.take("deliver 0 0", "0 0");
    script.take("vote 0 0", "18 0");
    script.take("deliver 1 1", "0 1");
    script.take("vote 1 1", "19 0");
    script.take("deliver 0 1", "0 0");
    script.take("vote 1 0", "26 0");
    let (steps, lines) = (script.steps(), script.lines());
    no_final("18 and 19 before 26", BAD_LEADER, &steps, &lines)
}

/// Office 0 sees the bad leader's first block notarised before it is asked to
/// vote for the second, which stands on it and has the same epoch.
fn epochs_before_26() -> Case {
    let mut script = Script::default();
    script.take("draft 0 1 5", "0 1");
    script.take("draft 1 1 6", "0 2");
    script.take("bad-send 3 proposal 3 1", "0 0");
    script.take("bad-send 3 proposal 3 2", "0 1");
    script.take("bad-send 3 vote 3 1", "0 2");
    for (office, vote) in [(1, 3), (2, 4)] {
        script.take(&format!("deliver 0 {office}"), "0 0");
        script.take(&format!("vote {office} 0"), &format!("0 {vote}"));
    }
    for vote in 2..=4 {
        script.take(&format!("deliver {vote} 0"), &format!("0 {vote}"));
        script.take(&format!("register 0 {vote}"), &format!("0 {vote}"));
    }
    script.bad_send(5, 1023);
    script.take("deliver 1 0", "0 1");
    script.take("vote 0 1", "20 0");
    let (steps, lines) = (script.steps(), script.lines());
    no_final("20 before 26", BAD_LEADER, &steps, &lines)
}

fn both_full() -> Case {
    let mut script = Script::default();
    script.draft_up_to(255);
    script.bad_send(0, 1023);
    script.take("propose 0 0 300", "25 0");
    script.take("propose 0 0 255", "26 0");
    script.take("bad-send 3 vote 3 255", "26 0");
    script.take("draft 0 1 300", "25 0");
    full_case("both tables full", script)
}
