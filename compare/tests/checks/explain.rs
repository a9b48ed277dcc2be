//! The explained report: why a step was refused, what it changed, headings and
//! comments; packed logs and texts told apart.

mod forms;

use super::seeds;
use skovarnek_compare::explain::explain;
use skovarnek_compare::generate;
use skovarnek_compare::packed::read_log;
use skovarnek_compare::refusal::TABLE;
use skovarnek_compare::text::log_text;

/// The explained report on a text with `; ` in place of line ends.
fn explained(text: &str) -> String {
    let text = text.replace("; ", "\n") + "\n";
    explain(text.as_bytes()).unwrap_or_else(|bad| panic!("{text}: {bad}"))
}

fn single_spaced(line: &str) -> String {
    line.split_whitespace().collect::<Vec<&str>>().join(" ")
}

/// Of each step its line with all notes behind it, on one line. Those of the step
/// itself stand two columns further in where a line was full.
fn steps(explained: &str) -> Vec<Vec<String>> {
    let mut steps: Vec<Vec<String>> = Vec::new();
    for line in explained.lines() {
        let columns = line.len() - line.trim_start().len();
        let words = single_spaced(line);
        let notes = steps.last_mut();
        match columns {
            0 if line.starts_with(|first: char| first.is_ascii_digit()) => steps.push(vec![words]),
            0 => (),
            29 => notes.expect("a step").push(words),
            31 => {
                let last = notes.and_then(|notes| notes.last_mut()).expect("a note");
                last.push(' ');
                last.push_str(&words);
            }
            _ => panic!("{columns} columns: {line}"),
        }
    }
    steps
}

/// The last step of a text is refused so.
#[track_caller]
fn assert_reason(text: &str, reason: &str) {
    let steps = steps(&explained(text));
    let [line] = &steps.last().expect("a step")[..] else {
        panic!("{steps:?}");
    };
    assert!(line.ends_with(&format!(" {reason}")), "{line}");
}

/// What the last step of a text changed.
#[track_caller]
fn assert_changes(text: &str, changes: &[&str]) {
    let steps = steps(&explained(text));
    let notes = steps.last().expect("a step");
    let step = text.rsplit("; ").next().expect("a step");
    let place = steps.len();
    assert!(notes[0].starts_with(&format!("{place} 0 ")), "{notes:?}");
    let start = notes[0].find(step).expect("the step's text") + step.len() + 1;
    assert_eq!(&notes[0][start..], changes[0]);
    assert_eq!(notes[1..], changes[1..]);
}

const ONE: &str = "offices 1; trusted 0; leaders 0 0 0 0";
const TWO: &str = "offices 2; trusted 0 1; leaders 0 0";
const THREE: &str = "offices 3; trusted 0 1 2; leaders 0 0 0 0";
const FOUR: &str = "offices 4; trusted 0 1 2; leaders 0 3 0";

#[test]
fn what_is_not_there() {
    let one = |step: &str, reason: &str| assert_reason(&format!("{ONE}; {step}"), reason);
    one(
        "finalise 1 0",
        "no office: there is no office 1: offices 0 to 0",
    );
    one(
        "finalise 0 1",
        "no block: there is no block 1 yet: only genesis, block 0",
    );
    one(
        "vote 0 3",
        "no message: there is no message 3 yet: none has been sent",
    );
    one(
        "propose 0 0 7; propose 0 2 8",
        "no block: there is no block 2 yet: the newest is block 1",
    );
    one(
        "propose 0 0 7; deliver 1 0",
        "no message: there is no message 1 yet: the newest is message 0",
    );
    let four = |step: &str, reason: &str| assert_reason(&format!("{FOUR}; {step}"), reason);
    four(
        "bad-send 9 vote 8 1",
        "no office: there is no office 9: offices 0 to 3",
    );
    four(
        "bad-send 3 vote 8 1",
        "no office: there is no office 8: offices 0 to 3",
    );
    four(
        "bad-send 3 vote 3 0",
        "no block: no message is about genesis, block 0",
    );
}

#[test]
fn who_may_not_act() {
    let four = |step: &str, reason: &str| assert_reason(&format!("{FOUR}; {step}"), reason);
    four(
        "propose 3 0 7",
        "barred: office 3 is untrusted, and this is for trusted offices",
    );
    four(
        "draft 0 1 5; bad-send 0 vote 3 1",
        "trusted sender: office 0 is trusted; bad sends are for untrusted offices: 3",
    );
    four(
        "propose 0 0 7; propose 0 0 8",
        "acted: office 0 has proposed block 1 in epoch 1 already (message 0)",
    );
    four(
        "propose 0 0 7; deliver 0 1; vote 1 0; vote 1 0",
        "acted: office 1 has voted for block 1 in epoch 1 already (message 1)",
    );
    four(
        "propose 1 0 7",
        "not leader: epoch 1 is led by office 0, not 1",
    );
    four(
        "propose 0 0 7; advance; advance; vote 0 0",
        "leader votes: office 0 leads epoch 3: it proposes, and does not vote",
    );
    four(
        "advance; advance; advance",
        "spent: epoch 3 is the schedule's last",
    );
}

/// 15 and 23: where the message is instead.
#[test]
fn where_a_message_is() {
    let two = |steps: &str, reason: &str| {
        assert_reason(&format!("{TWO}; propose 0 0 7; {steps}"), reason);
    };
    two(
        "vote 1 0",
        "not in hand: message 0 is still in transit to office 1: it must be delivered first",
    );
    two(
        "register 0 0",
        "not in hand: message 0 is office 0's own, and in its view since it was sent",
    );
    let vote = "deliver 0 1; vote 1 0; deliver 1 0; register 0 1";
    two(
        &format!("{vote}; register 0 1"),
        "not in hand: message 1 is in office 0's view already",
    );
    two(
        &format!("{vote}; deliver 1 0"),
        "not sent: message 1 is in office 0's view already",
    );
    two(
        "deliver 0 1; deliver 0 1",
        "not sent: message 0 is in office 1's inbox already",
    );
    two(
        "deliver 0 0",
        "not sent: message 0 is office 0's own, and in its view since it was sent",
    );
    assert_reason(
        &format!("{FOUR}; propose 0 0 7; deliver 0 3"),
        "not sent: office 3 is untrusted, and nothing is ever in transit to it",
    );
}

/// 16: what the message is instead.
#[test]
fn what_a_message_is() {
    assert_reason(
        &format!("{TWO}; propose 0 0 7; deliver 0 1; register 1 0"),
        "kind: message 0 is a proposal of office 0 for block 1; register takes votes only",
    );
    assert_reason(
        &format!("{FOUR}; draft 0 1 5; bad-send 3 vote 3 1; deliver 0 1; vote 1 0"),
        "kind: message 0 is a vote of office 3 for block 1; a vote step needs a proposal",
    );
}

/// 17: the signer, the epoch, both.
#[test]
fn off_epoch() {
    let signer = "off epoch: message 0 is signed by office 3, but epoch 1 is led by office 0";
    let draft = |epoch: u16| {
        let text = format!("{FOUR}; draft 0 {epoch} 5; bad-send 3 proposal 3 1");
        text + "; deliver 0 1; vote 1 0"
    };
    assert_reason(&draft(1), signer);
    let both = format!("{signer}; block 1 is of epoch 2, but this is epoch 1");
    assert_reason(&draft(2), &both);
    assert_reason(
        &format!("{TWO}; propose 0 0 7; advance; deliver 0 1; vote 1 0"),
        "off epoch: block 1 is of epoch 1, but this is epoch 2",
    );
}

/// 18: the message that has the signature, in a register and in a vote.
#[test]
fn entered() {
    let start = "offices 4; trusted 0 1 2; leaders 3; draft 0 1 5; bad-send 3 vote 3 1";
    assert_reason(
        &format!(
            "{start}; bad-send 3 vote 3 1; deliver 0 0; deliver 1 0; register 0 0; register 0 1"
        ),
        "entered: office 3's signature on block 1 is in office 0's view already: message 0, a vote",
    );
    assert_reason(
        &format!(
            "{start}; bad-send 3 proposal 3 1; deliver 0 0; deliver 1 0; register 0 0; vote 0 1"
        ),
        "entered: office 3's signature on block 1 is in office 0's view already: message 0, a vote",
    );
    assert_reason(
        &format!(
            "{start}; bad-send 3 proposal 3 1; deliver 0 0; deliver 1 0; vote 0 1; register 0 0"
        ),
        "entered: office 3's signature on block 1 is in office 0's view already: message 1, a proposal",
    );
}

/// 19: what the chain lacks, as the view has it and not the history; which chain
/// is longer.
#[test]
fn not_longest() {
    assert_reason(
        &format!("{ONE}; draft 0 1 5; propose 0 1 7"),
        "not longest: the chain of block 1 is not notarised for office 0: block 1 lacks 1 of the 1 \
         signers needed (signers: none)",
    );
    let voted = format!("{THREE}; propose 0 0 7; deliver 0 1; vote 1 0; advance");
    assert_reason(
        &format!("{voted}; propose 0 1 8"),
        "not longest: the chain of block 1 is not notarised for office 0: block 1 lacks 1 of the 2 \
         signers needed (signers: 0; sent, but not in the view: 1)",
    );
    let registered = format!("{voted}; deliver 1 0; register 0 1");
    assert_reason(
        &format!("{registered}; propose 0 0 8"),
        "not longest: for office 0 the notarised chain 1 (1 block) is longer than the chain of genesis",
    );
    assert_reason(
        &format!("{registered}; propose 0 1 8; deliver 2 2; vote 2 2"),
        "not longest: the parent of block 2 is block 1; the chain of block 1 is not notarised for \
         office 2: block 1 lacks 2 of the 2 signers needed (signers: none; sent, but not in the \
         view: 0, 1)",
    );
    assert_reason(
        &format!("{ONE}; draft 0 1 1; draft 1 2 2; draft 2 3 3; draft 3 4 4; propose 0 4 7"),
        "not longest: the chain of block 4 is not notarised for office 0: block 4 lacks 1 of the 1 \
         signers needed (signers: none); block 3 lacks 1 of the 1 signers needed (signers: none); \
         2 more blocks fail",
    );
}

/// 20, with the example of the rules.
#[test]
fn epochs() {
    let text = "offices 4; trusted 0 1 2; leaders 3; draft 0 1 5; draft 1 1 6; \
                bad-send 3 proposal 3 1; bad-send 3 vote 3 1; deliver 0 1; vote 1 0; deliver 0 2; \
                vote 2 0; deliver 1 0; register 0 1; deliver 2 0; register 0 2; deliver 3 0; \
                register 0 3; bad-send 3 proposal 3 2; deliver 4 0; vote 0 4";
    assert_reason(
        text,
        "epochs: block 2 is of epoch 1, not above that of its parent, block 1: epoch 1",
    );
}

/// 21: each part of the condition, and two of them.
#[test]
fn not_final() {
    let one = |steps: &str, reason: &str| assert_reason(&format!("{ONE}; {steps}"), reason);
    one(
        "finalise 0 0",
        "not final: genesis has no parent that could become final",
    );
    one(
        "propose 0 0 7; finalise 0 1",
        "not final: naming block 1 makes its parent final, and that is genesis",
    );
    one(
        "propose 0 0 7; advance; advance; propose 0 1 8; finalise 0 2",
        "not final: genesis, block 1 and block 2 are of epochs 0, 1, 3, not consecutive",
    );
    one(
        "propose 0 0 7; draft 1 2 8; finalise 0 2",
        "not final: the chain of block 2 is not notarised for office 0: block 2 lacks 1 of the 1 \
         signers needed (signers: none)",
    );
    one(
        "propose 0 0 7; draft 1 3 8; finalise 0 2",
        "not final: genesis, block 1 and block 2 are of epochs 0, 1, 3, not consecutive; the chain \
         of block 2 is not notarised for office 0: block 2 lacks 1 of the 1 signers needed \
         (signers: none)",
    );
}

/// 32.
#[test]
fn behind() {
    let blocks = "propose 0 0 1; advance; propose 0 1 2; advance; propose 0 2 3";
    assert_reason(
        &format!("{ONE}; {blocks}; finalise 0 3; finalise 0 2"),
        "behind: for office 0 block 2 is final, a chain of 2 blocks; that of block 1 has 1",
    );
}

/// 22: nothing of the signer, or only the other kind.
#[test]
fn forged() {
    assert_reason(
        &format!("{FOUR}; draft 0 1 5; bad-send 3 vote 0 1"),
        "forged: office 0 is trusted and never sent a vote for block 1: it has signed nothing \
         about this block",
    );
    assert_reason(
        &format!("{FOUR}; propose 0 0 5; bad-send 3 vote 0 1"),
        "forged: office 0 is trusted and never sent a vote for block 1: of its signatures on this \
         block there is only a proposal, message 0",
    );
}

/// 25 and 26.
#[test]
fn full_tables() {
    let drafts: String = (0..=255).map(|it| format!("; draft 0 1 {it}")).collect();
    assert_reason(
        &format!("{ONE}{drafts}"),
        "blocks full: 255 blocks have been made, and this is none of them",
    );
    let sends = "; bad-send 3 vote 3 1".repeat(1025);
    assert_reason(
        &format!("{FOUR}; draft 0 1 5{sends}"),
        "messages full: all 1,024 messages have been sent",
    );
}

/// Acted, in view, notarised, longest.
#[test]
fn what_propose_and_vote_change() {
    let text = format!("{THREE}; propose 0 0 7");
    assert_changes(
        &text,
        &[
            "accepted: message 0 proposes block 1, new: on genesis, epoch 1, payload 7",
            "office 0 has acted; message 0 is in its view and in transit to offices 1, 2",
            "for office 0 block 1 lacks 1 of the 2 signers needed (signers: 0)",
        ],
    );
    let text = format!("{text}; deliver 0 1");
    let inbox = "accepted: message 0, a proposal of office 0 for block 1, is in office 1's inbox";
    assert_changes(&text, &[inbox]);
    let text = format!("{text}; vote 1 0");
    assert_changes(
        &text,
        &[
            "accepted: message 1 votes for block 1, in transit to offices 0, 2",
            "office 1 has acted; messages 0 and 1 are in its view",
            "block 1 is now notarised for office 1: signers 0, 1; 2 of 3",
            "longest for office 1 now: the chain 1 (1 block)",
        ],
    );
    assert_changes(
        &format!("{THREE}; draft 0 1 7; propose 0 0 7"),
        &[
            "accepted: message 0 proposes block 1, made before: on genesis, epoch 1, payload 7",
            "office 0 has acted; message 0 is in its view and in transit to offices 1, 2",
            "for office 0 block 1 lacks 1 of the 2 signers needed (signers: 0)",
        ],
    );
}

/// In the view, notarised, and notarised before.
#[test]
fn what_register_changes() {
    let text = format!("{THREE}; propose 0 0 7; deliver 0 1; vote 1 0");
    let text = format!("{text}; deliver 1 0; register 0 1");
    assert_changes(
        &text,
        &[
            "accepted: message 1, a vote of office 1 for block 1, is in office 0's view",
            "block 1 is now notarised for office 0: signers 0, 1; 2 of 3",
            "longest for office 0 now: the chain 1 (1 block)",
        ],
    );
    let text = format!("{text}; deliver 0 2; vote 2 0; deliver 2 0; register 0 2");
    assert_changes(
        &text,
        &[
            "accepted: message 2, a vote of office 2 for block 1, is in office 0's view",
            "block 1 was notarised for office 0: now signers 0, 1, 2; 3 of 3",
        ],
    );
}

/// A block whose parent is not notarised, and two longest chains.
#[test]
fn what_a_signature_does_not_change() {
    let two_blocks = format!(
        "{THREE}; propose 0 0 1; deliver 0 1; vote 1 0; deliver 1 0; register 0 1; advance; \
         propose 0 1 2; deliver 2 1; vote 1 2"
    );
    assert_changes(
        &format!("{two_blocks}; deliver 3 2; register 2 3"),
        &[
            "accepted: message 3, a vote of office 1 for block 2, is in office 2's view",
            "for office 2 block 2 lacks 1 of the 2 signers needed (signers: 1; sent, but not in the \
             view: 0)",
        ],
    );
    let fork = "offices 3; trusted 0 1 2; leaders 0 2; propose 0 0 1; deliver 0 1; vote 1 0; advance; \
                propose 2 0 2; deliver 2 0; vote 0 2; deliver 1 0; register 0 1";
    assert_changes(
        fork,
        &[
            "accepted: message 1, a vote of office 1 for block 1, is in office 0's view",
            "block 1 is now notarised for office 0: signers 0, 1; 2 of 3",
            "longest for office 0 now: the chains of blocks 1, 2 (1 block each)",
        ],
    );
}

/// An office that has the votes for a block, but not those for its parent.
#[test]
fn a_chain_with_a_gap() {
    let steps = "propose 0 0 1; deliver 0 1; vote 1 0; deliver 1 0; register 0 1; \
                 deliver 0 2; vote 2 0; deliver 2 0; register 0 2; deliver 2 1; register 1 2; advance; \
                 propose 0 1 2; deliver 3 1; vote 1 3; deliver 3 2";
    let text = format!("offices 4; trusted 0 1 2 3; leaders 0 0; {steps}; vote 2 3");
    assert_reason(
        &text,
        "not longest: the parent of block 2 is block 1; the chain of block 1 is not notarised for \
         office 2: block 1 lacks 1 of the 3 signers needed (signers: 0, 2; sent, but not in the \
         view: 1)",
    );
    let text = "offices 4; trusted 0 1 2; leaders 0 3; propose 0 0 1; deliver 0 1; vote 1 0; deliver 0 2; \
         vote 2 0; deliver 2 1; register 1 2; advance; draft 1 2 2; bad-send 3 proposal 3 2; \
         bad-send 3 vote 3 2; deliver 3 1; vote 1 3; deliver 1 2; register 2 1; deliver 3 2; vote 2 3; \
         deliver 4 0; register 0 4; deliver 5 0; register 0 5; deliver 6 0; register 0 6";
    assert_changes(
        text,
        &[
            "accepted: message 6, a vote of office 2 for block 2, is in office 0's view",
            "block 2 is now notarised for office 0: signers 1, 2, 3; 3 of 4",
            "but its chain is not: block 1 lacks 2 of the 3 signers needed (signers: 0; sent, but \
             not in the view: 1, 2)",
        ],
    );
}

/// Final, as before, and what the untrusted send.
#[test]
fn what_the_others_change() {
    let blocks = "propose 0 0 1; advance; propose 0 1 2; advance; propose 0 2 3; finalise 0 3";
    let text = format!("{ONE}; {blocks}");
    assert_changes(
        &text,
        &[
            "accepted: block 2, the parent of block 3, is now final for office 0",
            "newly final: blocks 1, 2; final before: genesis",
        ],
    );
    let again = "accepted: block 2, the parent of block 3, is final for office 0, as before";
    assert_changes(&format!("{text}; finalise 0 3"), &[again]);
    let new = "accepted: this is block 1, new: on genesis, epoch 1, payload 5";
    let text = format!("{FOUR}; draft 0 1 5");
    assert_changes(&text, &[new]);
    let old = "accepted: this is block 1, made before: on genesis, epoch 1, payload 5";
    assert_changes(&format!("{text}; draft 0 1 5"), &[old]);
    let text = format!("{FOUR}; propose 0 0 7; bad-send 3 proposal 0 1");
    assert_changes(
        &text,
        &[
            "accepted: message 1 is a proposal of office 0 for block 1",
            "it is in transit to offices 0, 1, 2",
            "it says the same as message 0: sent again, not forged",
        ],
    );
    let epoch = "accepted: epoch 2 begins, and every office is ready";
    assert_changes(&format!("{FOUR}; advance"), &[epoch]);
}

/// Headings, and the comments before their steps and in their lines.
#[test]
fn headings_and_comments() {
    let text = "# a title\n\noffices 4\ntrusted 0 1 2 # not 3\nleaders 0 3\n#   first\nadvance # on\n\
                # second\n#\nadvance\n# behind";
    let wanted = "\
# a title
# not 3
#   first
# on

epoch 1, led by office 0
1 0 2      advance           accepted: epoch 2 begins, and every office is ready

epoch 2, led by office 3, untrusted
# second
#
2 24 0     advance           spent: epoch 2 is the schedule's last
# behind

at the end
office 0 0 0 4               nothing final but genesis
office 1 0 0 4               nothing final but genesis
office 2 0 0 4               nothing final but genesis
";
    assert_eq!(explain(text.as_bytes()).as_deref(), Ok(wanted));
}

/// A log and its text are explained alike, no line is wider than 110 columns, and
/// each reason says more than the refusal's meaning.
#[test]
fn generated_logs() {
    let meanings: Vec<&str> = TABLE.iter().map(|&(_, meaning)| meaning).collect();
    let mut texts = 0;
    for seed in seeds().take(300) {
        let bytes = generate::log(seed);
        let explained = explain(&bytes).expect("a packed log");
        let Ok(log) = read_log(&bytes) else {
            continue;
        };
        texts += 1;
        let text = log_text(&log);
        assert_eq!(explain(text.as_bytes()).as_ref(), Ok(&explained), "{seed}");
        for line in explained.lines() {
            assert!(line.len() <= 110, "{seed}: {line}");
            let general = meanings.iter().any(|meaning| line.ends_with(meaning));
            assert!(!general, "{seed}: {line}");
        }
    }
    assert!(texts > 100, "{texts}");
}
